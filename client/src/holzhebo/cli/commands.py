"""The commands of builds: their words, their options, their help."""
from typing import Dict

from holzhebo.cli.parser import Command, Parser, asks, lists, names, number, says_json, seconds
from holzhebo.cli.parser import some_seconds, which
from holzhebo.cli.people import PEOPLE


def program(parser: Parser) -> None:
    parser.add_argument("--program", metavar="PATH", help="The program broker, or HOLZHEBO_PROGRAM")


def run(parser: Parser) -> None:
    parser.add_argument("--run", metavar="RUN", help="The build: the same result sent again counts once")


def as_it_is(parser: Parser) -> None:
    parser.add_argument("--as-it-is", action="store_true", help="Take the bytes of the file, also what isn't kept")


def publish(parser: Parser) -> None:
    parser.add_argument("word", metavar="VERSION PACT", nargs="+", help="The version, as the commit that is built, and"
                        " pact files or folders of them")  # fmt: skip
    parser.add_argument("-a", "--consumer-app-version", dest="version", metavar="VERSION", help="The version, if all"
                        " words are files")  # fmt: skip
    parser.add_argument("--branch", metavar="BRANCH", help="The branch of the version")
    as_it_is(parser)
    program(parser)
    asks(parser)


def register(parser: Parser) -> None:
    names(parser, "pacticipant", "version")
    parser.add_argument("--branch", metavar="BRANCH", help="The branch of the version")
    asks(parser)


def explain(parser: Parser) -> None:
    parser.add_argument("pact", metavar="PACT", nargs="+", help="A pact file, or - for standard input")
    parser.add_argument("--replies", metavar="FILE", help="Recorded replies: what differs is said too")
    as_it_is(parser)
    program(parser)
    says_json(parser)


def verify(parser: Parser) -> None:
    which(parser)
    parser.add_argument("--version", metavar="VERSION", required=True, help="The provider's version")
    parser.add_argument("--url", metavar="URL", required=True, help="The running provider")
    parser.add_argument("--ready", metavar="URL", help="Wait until this answers, in place of a connection")
    parser.add_argument("--header-file", metavar="FILE", help="Headers of each request, a line each: name: value")
    parser.add_argument("--states-url", metavar="URL", help="Where states are set, by POST")
    parser.add_argument("--states-teardown", action="store_true", help="Take the states back after each request")
    parser.add_argument("--ignore-states", action="store_true", help="Play what has states without setting them")
    parser.add_argument("--timeout", metavar="SECONDS", type=some_seconds, default=30.0,
                        help="How long the provider may take to be there, and to answer; 30 if not given")  # fmt: skip
    parser.add_argument("--jobs", metavar="NUMBER", type=number, default=1, help="So many requests beside one another,"
                        " of those without states")  # fmt: skip
    parser.add_argument("--filter", metavar="TEXT", help="Only what has it in its description; nothing is sent then")
    parser.add_argument("--junit", metavar="FILE", help="Write a report in JUnit's format, in any case")
    parser.add_argument(
        "--record", metavar="DIR", help="Write each contract and its replies, as broker check reads them"
    )
    run(parser)
    program(parser)
    asks(parser)


def check(parser: Parser) -> None:
    parser.add_argument("contract", metavar="CONTRACT", help="A pact file")
    parser.add_argument(
        "replies", metavar="REPLIES", help="Recorded replies, as `holzhebo verify --record` writes them"
    )
    program(parser)
    says_json(parser)


def fetch(parser: Parser) -> None:
    which(parser)
    parser.add_argument("--into", metavar="DIR", required=True, help="The folder")
    asks(parser)


def result(parser: Parser) -> None:
    parser.add_argument("version", metavar="VERSION", help="The provider's version")
    parser.add_argument("outcome", metavar="OUTCOME", choices=["pass", "fail"], help="pass or fail")
    parser.add_argument("file", metavar="FILE", nargs="+", help="A file of `holzhebo fetch`, or its folder")
    run(parser)
    asks(parser)


def can_i_deploy(parser: Parser) -> None:
    names(parser, "pacticipant", "version", "environment")
    parser.add_argument("--wait", metavar="SECONDS", type=seconds, default=0.0, help="How long to wait while only"
                        " results are missing")  # fmt: skip
    parser.add_argument("--retry-while-unknown", metavar="TIMES", type=seconds, help="The same, as a number of times")
    parser.add_argument(
        "--retry-interval", metavar="SECONDS", type=seconds, default=10.0, help="Of these; 10 if not given"
    )
    asks(parser)


def instance(parser: Parser) -> None:
    text = "The instance, as canary; without it the one without a name"
    parser.add_argument("--instance", "--application-instance", metavar="NAME", type=str, help=text)


def deploy(parser: Parser) -> None:
    names(parser, "pacticipant", "version", "environment")
    text = "Then record that the version is no longer in this other instance"
    parser.add_argument("--then-undeploy", metavar="NAME", type=str, help=text)
    instance(parser)
    asks(parser)


def undeploy(parser: Parser) -> None:
    names(parser, "pacticipant", "version", "environment")
    instance(parser)
    asks(parser)


def undeployment(parser: Parser) -> None:
    names(parser, "pacticipant", "environment")
    instance(parser)
    asks(parser)


def release(parser: Parser) -> None:
    names(parser, "pacticipant", "version", "environment")
    asks(parser)


def status(parser: Parser) -> None:
    text = "The environment's name; with none, whether the broker knows the token"
    parser.add_argument("environment", metavar="ENVIRONMENT", nargs="*", help=text)
    parser.add_argument("--service", metavar="PACTICIPANT", help="Only this one")
    parser.add_argument("--provider", metavar="PROVIDER", help="List the consumers there that have a contract with it")
    parser.add_argument(
        "--branch", metavar="BRANCH", help="And whether their newest contract on this branch is another"
    )
    lists(parser)
    asks(parser)


def matrix(parser: Parser) -> None:
    names(parser, "pacticipant", "version")
    lists(parser)
    asks(parser)


BUILDS = [
    Command("publish", "Publishes pact files as contracts of a consumer's version", publish, "publish:publish", """\
The names of consumer and provider are those in the file. All files are looked at before the first is sent: if one has a
fault nothing is sent, since the gate knows nothing of a contract that isn't there. What isn't kept of a file and the
broker might refuse is left out, and that is said.

Example: holzhebo publish "$(git rev-parse HEAD)" --branch main pacts/*.json

Status 0: each contract is stored, now or before. Status 1: a file was refused, and its faults are explained.
Status 3: a file couldn't be sent."""),
    Command("register", "Names a version that has no contract and no result yet", register, "publish:register", """\
A contract and a result make their version by themselves.

Example: holzhebo register stock "$(git rev-parse HEAD)" --branch main

Status 0: it is there, now or before. Status 3: it isn't."""),
    Command("explain", "Lists all faults of pact files, each with its place and what to write instead", explain,
            "publish:explain", """\
The first fault is the one that the broker reports. It needs no broker. Look-around and back references are refused by
it; whether any other pattern is taken only the program knows: without --program they are counted as not judged.

Example: holzhebo explain pacts/shop-stock.json

Status 0: no fault is found. Status 1: a file has a fault, or a reply differs. Status 3: a file can't be read."""),
    Command("verify", "Plays the requests of contracts against a running provider, and sends its replies", verify,
            "verify:verify", """\
The broker compares the replies with the contract, and its result is checked. What differs is said place by place, as
this client reads the rules. A contract with an interaction that can't be played (its state can't be set, the provider
isn't there, its reply has a fraction that is asked for) isn't sent. The broker doesn't say which version has a branch's
newest contract: if no version found has it, --program judges it, and it isn't sent.

Example: holzhebo verify --provider stock --version "$(git rev-parse HEAD)" --url http://127.0.0.1:8080
  --states-url http://127.0.0.1:8080/states --for live --run "$BUILD"

Status 0: all passed. Status 1: a contract failed. Status 3: a contract couldn't be judged, or the command be done, or
this client finds surely otherwise than the broker says."""),
    Command("check", "Says where recorded replies differ from a contract", check, "verify:check", """\
It needs no broker, and reads the pact file as publish would send it. With --program the verdict is that of `broker
check`; without it, it is this client's own reading of the rules.

Example: holzhebo check got/shop-0123.pact.json got/shop-0123.replies.json

Status 0: all pass. Status 1: an interaction fails. Status 3: a file can't be read, or both disagree."""),
    Command("fetch", "Writes contracts with a provider as files for a library's own verifier", fetch,
            "verify:fetch", """\
Each file has the metadata of version 3, and says whose contract it is. Files of an earlier fetch into the same folder
are removed. Send the verifier's result by `holzhebo result`.

Example: holzhebo fetch --provider stock --for live --into contracts

Status 0: the files are written. Status 3: they couldn't be."""),
    Command("result", "Claims the result of a library's verifier for fetched contracts", result, "verify:result", """\
Send a failure too: without it an earlier pass counts on. Without --run the request isn't repeated once it was sent,
since it would count twice.

Example: holzhebo result "$(git rev-parse HEAD)" pass contracts --run "$BUILD"

Status 0: the results are stored. Status 3: one isn't."""),
    Command("can-i-deploy", "Says whether a version may be deployed to an environment, or who has to act", can_i_deploy,
            "gate:can_i_deploy", """\
Only a deployment decides: `holzhebo deploy` asks and records in one.

Example: holzhebo can-i-deploy shop 1.4.2 live --wait 600

Status 0: permitted. Status 1: not permitted. Status 3: that can't be said."""),
    Command("deploy", "Asks the gate, and records a deployment if it permits it", deploy, "gate:deploy", """\
Going back is a deployment too, of the version of before. It is sent again only if nothing else was deployed there
meanwhile.

Example: holzhebo deploy shop 1.4.2 live --instance canary
         holzhebo deploy shop 1.4.2 live --then-undeploy canary

Status 0: recorded, now or before. Status 1: not permitted, and nothing changed. Status 3: it couldn't be done."""),
    Command("undeploy", "Records that a version is no longer deployed in an environment", undeploy,
            "gate:undeploy", """\
No gate judges this, so what needs the version is missed only by the next deployment.

Example: holzhebo undeploy shop 1.4.2 live --instance canary

Status 0: recorded. Status 3: it couldn't be done, or it wasn't deployed there."""),
    Command("release", "Asks the gate, and records a release if it permits it", release, "gate:release", """\
Released versions stay until their support ends.

Example: holzhebo release app 7.0 store

Status 0: recorded, now or before. Status 1: not permitted, and nothing changed. Status 3: it couldn't be done."""),
    Command("end-support", "Records that a released version is no longer supported in an environment", release,
            "gate:end_support", """\
Example: holzhebo end-support app 6.0 store

Status 0: recorded. Status 3: it couldn't be done, or it wasn't released there."""),
    Command("status", "Lists what is deployed and released in environments", status, "listing:status", """\
The fields of --format are environment, state, pacticipant, version and instance; with --provider they are environment,
consumer, version and onBranch.

Example: holzhebo status test live
         holzhebo status live --service stock --format '{version}'
         holzhebo status live --provider stock --branch main

Status 0: listed. Status 3: it couldn't be."""),
    Command("matrix", "Lists the contracts of a version with their latest results", matrix, "listing:matrix", """\
The fields of --format are consumer, consumerVersion, provider, providerVersion, outcome, evidence and result.

Example: holzhebo matrix shop 1.4.2

Status 0: listed. Status 3: it couldn't be."""),
]  # fmt: skip

# Names that the Pact Broker's client has.
OTHER_NAMES = {
    "record-deployment": ("deploy", deploy, "gate:deploy"),
    "record-undeployment": ("undeploy", undeployment, "gate:record_undeployment"),
    "record-release": ("release", release, "gate:release"),
    "record-support-ended": ("end-support", release, "gate:end_support"),
}
MOVED = [
    Command(name, f"Is {other}, as the Pact Broker's client calls it", fill, place, f"""\
Example: holzhebo {name} --pacticipant shop --version 1.4.2 --environment live

Status 0: recorded. Status 1: not permitted, and nothing changed. Status 3: it couldn't be done.""".replace(
        *(" --version 1.4.2", "") if name == "record-undeployment" else ("", "")))
    for name, (other, fill, place) in OTHER_NAMES.items()
]  # fmt: skip

COMMANDS: Dict[str, Command] = {it.name: it for it in [*BUILDS, *PEOPLE, *MOVED]}
