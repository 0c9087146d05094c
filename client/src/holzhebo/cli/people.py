"""The commands of the office, and of who looks after the broker: their words, their options, their help."""
from holzhebo.cli.parser import Command, Parser, asks, count, lists, moment, port, says_json, several, size
from holzhebo.measures import MOST_BYTES


def logs(parser: Parser) -> None:
    several(parser, "log", "FILE", "A log of the proxy, or - for standard input; else those of nginx and Caddy")


def output(parser: Parser) -> None:
    parser.add_argument("--output", metavar="FILE", help="Put it in the place of this file at once, or into a pipe")


def who(parser: Parser) -> None:
    text = "Only what came into this environment and went out of it"
    parser.add_argument("environment", metavar="ENVIRONMENT", nargs="?", help=text)
    text = "Only what came since then, as 2026-11-27T02:00:00"
    parser.add_argument("--since", metavar="TIME", type=moment, help=text)
    parser.add_argument("--refused", action="store_true", help="What the gate refused, in place of what was done")
    text = "Write it into this folder for each environment of its desk.json, beside which the page finds it"
    parser.add_argument("--page", metavar="DIR", help=text)
    logs(parser)
    lists(parser)
    says_json(parser)


def metrics(parser: Parser) -> None:
    logs(parser)
    parser.add_argument("--file", metavar="FILE", help="The broker's file: how large it is")
    text = "A folder of its copies: how old the newest is, how the file grows, what today's gate would refuse"
    several(parser, "copies", "DIR", text)
    text = "How many bytes the file may have; 200000000 if not given"
    parser.add_argument("--most", metavar="BYTES", type=size, default=MOST_BYTES, help=text)
    text = "Its service of systemd: how long the last opening took, and the connections left"
    parser.add_argument("--service", metavar="NAME", help=text)
    output(parser)
    says_json(parser)


def report(parser: Parser) -> None:
    parser.add_argument("copy", metavar="COPY", help="A copy that examples/backup.sh made")
    parser.add_argument("earlier", metavar="EARLIER", nargs="?", help="An earlier copy of the same broker")
    text = "The page's desk.json: its environments come first, in its order; /etc/holzhebo/desk.json if it is there"
    parser.add_argument("--names", metavar="FILE", help=text)
    output(parser)
    says_json(parser)


def plan(parser: Parser) -> None:
    parser.add_argument("source", metavar="FROM", help="The environment that has it")
    parser.add_argument("target", metavar="TO", help="The environment that it is to go to")
    several(parser, "without", "PACTICIPANT", "Leave it as it is in TO")
    several(parser, "gone", "PACTICIPANT", "It goes: its end in TO is a step too")
    parser.add_argument("--contacts", metavar="FILE", help="The page's desk.json: whom to call for a service")
    parser.add_argument("--whole", action="store_true", help="Versions that are hashes in full")
    asks(parser)


def desk(parser: Parser) -> None:
    parser.add_argument("--page-port", metavar="PORT", type=port, default=9393, help="Its port here, 9393 if not given")
    parser.add_argument("--names", metavar="FILE", help="The page's desk.json: its environments, and whom to call")
    parser.add_argument("--page", metavar="DIR", help="The files of the page, in place of those that come with this")
    asks(parser)


def carry(parser: Parser) -> None:
    parser.add_argument("copy", metavar="COPY", help="A copy that examples/backup.sh made")
    parser.add_argument("new", metavar="NEW", help="The file to make")
    text = "The last N versions of each pacticipant"
    parser.add_argument("--keep", type=count, required=True, metavar="N", help=text)
    several(parser, "branch", "BRANCH", "Only the newest versions of this one; without it those of each branch")


def proxy(parser: Parser, is_required: bool) -> None:
    text = "The proxy's file of tokens, which gets a line for it"
    parser.add_argument("--into", metavar="FILE", required=is_required, help=text)
    parser.add_argument("--caddy", action="store_true", help="The proxy is Caddy, and not nginx")


def team(parser: Parser) -> None:
    parser.add_argument("team", metavar="TEAM", help="The team's name")
    text = "A file with the team's token; it is made if it isn't there"
    parser.add_argument("--new-token-file", metavar="FILE", help=text)
    several(parser, "owns", "PACTICIPANT", "A pacticipant of the team")
    several(parser, "grant", "ENVIRONMENT", "Where it may deploy")
    several(parser, "no-grant", "ENVIRONMENT", "Where it may deploy no longer")
    proxy(parser, False)
    asks(parser)


def environment(parser: Parser) -> None:
    parser.add_argument("environment", metavar="ENVIRONMENT", help="The environment's name")
    parser.add_argument("--strict", action="store_true", help="Only results that the broker checked count")
    parser.add_argument("--not-gated", action="store_true", help="Every deployment is recorded")
    asks(parser)


def replace_token(parser: Parser) -> None:
    parser.add_argument("file", metavar="FILE", help="A file with the token that leaked")
    text = "A file for the new one, which is made"
    parser.add_argument("--new-token-file", metavar="FILE", required=True, help=text)
    proxy(parser, True)
    says_json(parser)


def doctor(parser: Parser) -> None:
    text = "Whether the broker knows it"
    parser.add_argument("pacticipant", metavar="PACTICIPANT", nargs="*", help=text)
    text = "Whether the broker knows it, and whose the pacticipants are, by what is there of them"
    several(parser, "for", "ENVIRONMENT", text, "environment")
    asks(parser)


PEOPLE = [
    Command("who", "Lists who changed what, by the log of the proxy, the last one last", who, "logs:who", """\
It needs no broker, and is run where the proxy's log is; logs that were rotated are read first. Without an environment
each change is listed as it was sent: that is what to send again after a restore. Only what was answered 200 is listed,
and only what came through the proxy. The fields of --format are those of --json.

Example: holzhebo who live
         holzhebo who --since 2026-11-27T02:00:00
         holzhebo who --page /usr/share/holzhebo/desk
         ssh proxy cat /var/log/nginx/broker.log | holzhebo who live --log -

Status 0: listed. Status 3: a log can't be read, or a file can't be written."""),
    Command("metrics", "Measures a broker by its proxy's log, its file and its service, for Prometheus", metrics,
            "measures:metrics", """\
It needs no broker, and is run where these are. Requests are counted with their times and their refusals, those of the
gate apart; counts begin again with each new log, as Prometheus expects of counters. What is in the newest copy is read
once: with --output the next run takes it from what was written.

Example: holzhebo metrics --file /var/lib/broker/broker.db --copies /backup/nightly --copies /backup --service broker
  --output /var/lib/prometheus/node-exporter/broker.prom

Status 0: written. Status 3: something can't be read; the rest is written, and broker_measured says what is
missing."""),
    Command("report", "Makes a page of what a copy of the broker's file says", report, "logs:report", """\
It needs no broker. COPY and EARLIER are copies of one broker; a log beside one, COPY-wal, is read with it. Nothing is
written to either. The page is one file without scripts. It says what was so when the copy was made: the day is that of
its name, as examples/keep-copies.sh gives it. A deployment is decided by the broker alone.

Example: holzhebo report copy.db earlier.db > report.html

Status 0: written. Status 1: a copy can't be read, is in use, breaks the broker's rules or isn't a broker's of format 2,
or EARLIER isn't an earlier copy of the same broker."""),
    Command("plan", "Says what of one environment may go to another, and in which order", plan, "plan:plan", """\
Each step of the order is permitted when its turn comes. If there is no order of all, it says who has to act. It only
asks: it needs the office's token, or one that only reads. Which team has a grant isn't known to it, and the gate
decides again as each step is carried out.

Example: holzhebo plan staging live --contacts desk.json

Status 0: everything may go, in the order that is printed. Status 1: not everything may. Status 3: that can't be
said."""),
    Command("desk", "Serves the page on this machine, for you only", desk, "desk:desk", """\
The broker may be elsewhere. The page listens on 127.0.0.1, and hands GETs on with your token: the office's, or one that
only reads. It prints an address with a key, which it makes anew each time; who opens that address gets the key as a
cookie, and nobody else of this machine gets an answer. What isn't a GET, isn't asked of this address, or is asked by
another site's page is refused. Ctrl-C ends it.

Example: holzhebo desk --names desk.json

Status 0: it was ended. Status 3: it can't be served."""),
    Command("carry", "Makes a smaller file of a broker from a copy of its file", carry, "carry:carry", """\
It needs no broker. COPY stays as it is; NEW is made, whole or not at all. Kept is each version that is deployed or
released somewhere, the last N of each pacticipant, and of each branch the newest one and the newest that has a contract
with each provider; their contracts, with the latest results and those of runs, and all teams, names, marks and grants.
The gate answers for each kept version as before. What is dropped can't be had back from NEW: a dropped version is
unknown, so N has to cover what may be rolled back to, and published again it is a new one. Keep COPY.

Example: holzhebo carry /backup/broker.db /var/lib/broker/carried.db --keep 20 --branch main

Status 0: NEW is there. Status 3: it isn't."""),
    Command("team", "Makes a team with its token, names what it owns, and gives it grants", team, "office:team", """\
For the office. The file is made for its owner only, and has the line that curl and this client read. Names can't be
changed afterwards, so look at them twice. The same command again changes nothing.

Example: holzhebo team green --new-token-file green.token --owns mail --grant live

Status 0: each is there, now or before. Status 3: one isn't."""),
    Command("environment", "Makes an environment, which is gated", environment, "office:environment", """\
For the office. What it is can't be changed afterwards.

Example: holzhebo environment live --strict

Status 0: it is there, now or before. Status 3: it isn't."""),
    Command("replace-token", "Blocks a token that leaked, at the proxy, for a new one in its place", replace_token,
            "office:replace_token", """\
It needs no broker, which never hears of the new token, and is run where the proxy is. Tokens that only read by it, or
are for builds of its team, go on. Reload the proxy afterwards.

Example: holzhebo replace-token red.token --new-token-file red-2.token --into /etc/nginx/broker-tokens

Status 0: done. Status 3: the proxy's file is as it was."""),
    Command("doctor", "Looks at what is usually wrong if something doesn't work", doctor, "doctor:doctor", """\
The address, the way to it, the certificate, the clock, the token, and whether a pacticipant is known. With --for also
what the token may do for it, as far as a question tells that changes nothing.

Example: holzhebo doctor shop --for live

Status 0: nothing is wrong. Status 3: the line that says wrong."""),
]  # fmt: skip
