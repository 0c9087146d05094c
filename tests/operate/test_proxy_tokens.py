"""Tokens at the proxies of examples/, nginx and Caddy. One leaks: with the lines of docs/OPERATING.md no spelling lets
it in, the new one is answered, and so is each token that is like the leaked one; so too for a token that only reads,
and for the office's. Who changed what is said by the log and `holzhebo who`."""
import json, os, re, signal, time
import pytest
from tests.operate.front import ALIKE, CLIENT, DENIED, FOLDED, LATEST, LEAKED, NAME, NEW, READER, UNREAD
from tests.operate.front import Front, Shown, among, asked, shown, who
from tests.kernel import has_come
from tests.process import Server, run, text_of
from tests.proxy import await_that
from tests.wire import OFFICE, same
from tests.world import BLUE, RED, pact

pytestmark = pytest.mark.needs("openssl")
LIVE = "/environments/live"
DEPLOYMENT = b'{"pacticipant":"shop","version":"1"}'


def lines_for(front: Front) -> list[str]:
    """The lines of docs/OPERATING.md for a token that leaks, with the tokens of this test."""
    lines = front.document("OPERATING.md", "A token leaks", "~")
    same("lines of docs/OPERATING.md", len(lines), 2)
    return [it.replace("NEW-TOKEN-OF-THE-TEAM", NEW).replace("shop-team-token-1", LEAKED) for it in lines]


def alike(front: Front) -> None:
    for number, token in enumerate([LEAKED, *ALIKE]):
        front.do("PUT", f"/teams/team-{number}", OFFICE, '{"token":"%s"}' % token)


def test_leaked(front: Front, fleet: Server) -> None:
    alike(front)
    live = shown(fleet.ask("GET", LIVE, RED))
    front.answers("before it leaks", LEAKED, live)
    front.refuses(LEAKED, UNREAD)
    front.answers("the new token before", NEW, DENIED)
    front.leak(lines_for(front))
    front.reload()
    front.answers("the leaked token", LEAKED, DENIED)
    front.refuses(LEAKED, [*UNREAD, FOLDED])
    front.answers("the new token", NEW, live)
    for token in ALIKE:
        front.answers(f"the token {token}", token, live)
    leaked_again(front, live)


def replaced(front: Front, token: str) -> str:
    """The new token of `holzhebo replace-token`, which blocks this one."""
    front.written("old", token)
    newest = f"{front.room}/newest"
    if os.path.exists(newest):
        os.remove(newest)
    words = [CLIENT, "replace-token", f"{front.room}/old", "--new-token-file", newest, "--into", f"{front.room}/tokens"]
    run([*words, *(["--caddy"] if not front.end else [])])
    front.reload()
    return front.log("newest").split()[-1]


def leaked_again(front: Front, live: Shown) -> None:
    """The new token leaks too: the client blocks it, and makes one that takes its place."""
    newest = replaced(front, NEW)
    for token in LEAKED, NEW:
        front.answers(f"the token {token}", token, DENIED)
    front.answers("the newest token", newest, live)
    for token in ALIKE:
        front.answers(f"the token {token}", token, live)


WRITES = ["PUT /teams/green", "PUT /pacticipants/shop/versions/1", "POST /environments/live/deployments"]
WRITES += ["DELETE /grants/team/red/environment/live"]


def with_reader(front: Front) -> None:
    """The token that only reads, by the line of docs/DESK.md."""
    lines = re.findall(r'(?m)^ +("~\^GET .*")(;?)$', text_of("docs/DESK.md"))
    line, = (line + end for line, end in lines if end == front.end)
    front.written("broker-readers", line.replace("desk-token-000001", READER).replace("office-token-0001", OFFICE) + "\n")
    front.reload()


def test_reading(front: Front, fleet: Server) -> None:
    """By GET it is the office's, and by nothing else; nor is one that is like it."""
    path = "/matrix?pacticipant=shop&version=1"
    same("a GET before", shown(front.ask("GET", path, READER)), DENIED)
    with_reader(front)
    same("a GET by it", shown(front.ask("GET", path, READER)), shown(fleet.ask("GET", path, OFFICE)))
    for change in WRITES:
        same(f"{change} by it", shown(asked(front, change, READER, "{}")), DENIED)
    same("another method by it", front.ask("OPTIONS", LIVE, READER).status, 501)
    for token in READER + "0", "x" + READER, READER.upper(), READER.replace(".", "x"), f"GET {READER}":
        same(f"a GET by {token}", shown(front.ask("GET", path, token)), DENIED)
    front.refuses(READER, UNREAD)
    front.answers("a team's token", RED, shown(fleet.ask("GET", LIVE, RED)))


def test_reader_leaks(front: Front, fleet: Server) -> None:
    """A token that only reads is blocked as any other, and the new one reads."""
    with_reader(front)
    live = shown(fleet.ask("GET", LIVE, OFFICE))
    front.answers("before it leaks", READER, live)
    newest = replaced(front, READER)
    front.answers("the leaked one", READER, DENIED)
    front.answers("the new one", newest, live)
    for change in WRITES:
        same(f"{change} by the new one", shown(asked(front, change, newest, "{}")), DENIED)


def test_office_leaks(front: Front, fleet: Server) -> None:
    """After the office's token is replaced, what only reads goes on, and the old one does nothing."""
    with_reader(front)
    live = shown(fleet.ask("GET", LIVE, OFFICE))
    newest = replaced(front, OFFICE)
    front.answers("the old token", OFFICE, DENIED)
    front.answers("the new one", newest, live)
    front.do("PUT", "/teams/green", newest, '{"token":"%s"}' % LATEST)
    front.answers("what only reads", READER, live)
    same("a change by it", shown(front.ask("PUT", "/teams/more", READER, '{"token":"another-token-001"}')), DENIED)


def test_where_tokens_are(front: Front) -> None:
    """In the files that docs/OPERATING.md names, and in no other of the proxy's own: Caddy keeps a third one."""
    with_reader(front)
    front.answers("once it is read", READER, shown(front.ask("GET", LIVE, OFFICE)))
    names = run(["grep", "-rlF", "-D", "skip", "-e", RED, "-e", OFFICE, "-e", READER, front.room]).split()
    third = {f"{front.room}/.config/caddy/autosave.json"} if not front.end else set()
    same("files", set(names), {f"{front.room}/{it}" for it in ("teams", "broker-readers")} | third)
    same("who may read it", {os.stat(it).st_mode & 0o077 for it in third}, {0} if third else set())


# A token for builds

OF_RED, OF_BLUE = "builds.of+red/=001", "builds-of-blue-0001"
PACTS = "/pacts/provider/stock/consumer/shop/version"
# What a build does: who asks, and what.
BUILDING = [
    (OF_RED, "PUT /pacticipants/shop/versions/b1", '{"branch":"main"}'),
    (OF_RED, f"PUT {PACTS}/b2", pact("a spoon")),
    (OF_BLUE, f"POST {PACTS}/b2/results", '{"providerApplicationVersion":"b3","success":true}'),
    (OF_BLUE, f"POST {PACTS}/b2/replies", '{"providerApplicationVersion":"b4","replies":[]}'),
]
READING = [LIVE, "/matrix?pacticipant=shop&version=1", f"{PACTS}/1"]
READING += ["/can-i-deploy?pacticipant=shop&version=1&environment=live"]
CHANGES_OF = [f"POST /environments/open/{it}" for it in ("deployments", "undeployments", "releases", "support-ended")]
OTHER_CHANGES = ["PUT /teams/green", "PUT /environments/green", "DELETE /grants/team/red/environment/live"]
# Paths that somebody between might take for one of those above, or for one that a build may ask.
ODD_PATHS = [
    "//environments/open/deployments",
    "/./environments/open/deployments",
    "/pacts/../environments/open/deployments",
    "/pacts/%2e%2e/environments/open/deployments",
    "/pacts/..%2fenvironments/open/deployments",
    "/pacts/?/../environments/open/deployments",
    "/pacts//environments/open/deployments",
    "/%65nvironments/open/deployments",
    "/ENVIRONMENTS/open/deployments",
    f"http://{NAME}/environments/open/deployments",
    f"http://{NAME}/pacts/../environments/open/deployments",
    "http:///pacts/environments/open/deployments",
]


def with_builds(front: Front) -> None:
    """The tokens for builds, by the line of docs/BUILDS.md."""
    line, = front.document("BUILDS.md", "A token for builds", "~")
    places = (OF_RED, RED), (OF_BLUE, BLUE)
    made = [line.replace("builds-token-0001", it).replace("shop-team-token-1", team) for it, team in places]
    front.written("broker-builds", "".join(f"{it}\n" for it in made))
    front.reload()


def test_builds(front: Front, fleet: Server) -> None:
    """By a token for builds a branch's build reads, publishes and verifies as its team, and changes no environment."""
    ask = READING[-1]
    same("before", shown(front.ask("GET", ask, OF_RED)), DENIED)
    with_builds(front)
    for path in READING:
        same(path, shown(front.ask("GET", path, OF_RED)), shown(fleet.ask("GET", path, RED)))
    for token, ask, body in BUILDING:
        same(f"{ask} by {token}", asked(front, ask, token, body).status, 200)
    before = shown(fleet.ask("GET", "/environments/open", OFFICE))
    shop = '{"pacticipant":"shop","version":"b2"}'
    for ask in [*CHANGES_OF, *OTHER_CHANGES]:
        same(f"{ask} by it", shown(asked(front, ask, OF_RED, shop)), DENIED)
    for path in ODD_PATHS:
        among(f"POST {path} by it", shown(front.ask("POST", path, OF_RED, shop)), [400, 401, 404, 405])
        among(f"PUT {path} by it", shown(front.ask("PUT", path, OF_RED, shop)), [400, 401, 404, 405])
    same("what is there", shown(fleet.ask("GET", "/environments/open", OFFICE)), before)
    for token in OF_RED + "0", "x" + OF_RED, OF_RED.upper(), OF_RED.replace(".", "x"), f"BUILD {OF_RED}":
        same(f"a GET by {token}", shown(front.ask("GET", LIVE, token)), DENIED)
    front.refuses(OF_RED, UNREAD)
    same("the release's", asked(front, CHANGES_OF[0], RED, shop).status, 200)
    same("who published", who(front, "--since", "2026-01-01")[0][:9], "red PUT /")


def test_builds_and_leaks(front: Front, fleet: Server) -> None:
    """One for builds that leaks is replaced by one that does no more; and it goes on if the team's is replaced."""
    with_builds(front)
    newest = replaced(front, OF_RED)
    same("the leaked one", shown(front.ask("GET", LIVE, OF_RED)), DENIED)
    same("the new one", front.ask("PUT", f"{PACTS}/b2", newest, pact("a spoon")).status, 200)
    deploy = CHANGES_OF[0], newest, '{"pacticipant":"shop","version":"b2"}'
    same("a change by it", shown(asked(front, *deploy)), DENIED)
    of_team = replaced(front, RED)
    same("the team's old one", shown(front.ask("GET", LIVE, RED)), DENIED)
    same("the one for builds", front.ask("PUT", f"{PACTS}/b5", newest, pact("a fork")).status, 200)
    same("a change by it then", shown(asked(front, *deploy)), DENIED)
    same("the team's new one", asked(front, CHANGES_OF[0], of_team, deploy[2]).status, 200)


# Who changed what

# What each caller sends for the log, with the status of the answer.
CHANGES = [
    (OFFICE, "PUT /teams/last", '{"token":"%s"}' % LATEST, 200),
    (OFFICE, "PUT /environments/a%2Fb", '{"gated":false}', 200),
    (OFFICE, "PUT /grants/team/red/environment/a%2Fb", "", 200),
    (RED, "POST /environments/a%2Fb/deployments", '{"pacticipant":"shop","version":"1","instance":"\u202e"}', 200),
    (RED, "POST /environments/a%2fb/deployments", '{"pacticipant":"shop","version":"2"}', 200),
    (BLUE, "POST /environments/a%2Fb/deployments", '{"pacticipant":"stock","version":"1"}', 403),
    (RED, "GET /environments/a%2Fb", "", 200),
    (OFFICE, "PUT /pacticipants/cart", '{"team":"team-0"}', 200),
    (NEW, "PUT /pacticipants/cart/versions/1", "", 200),
    (RED, "POST /environments/a%2Fb/undeployments", '{"pacticipant":"shop","version":"2"}', 200),
    (RED, "POST /environments/a%2Fb/deployments?x=/y", '{"pacticipant":"shop","version":"3"}', 200),
    (RED, "POST http://AT/environments/a%2Fb/deployments", '{"pacticipant":"shop","version":"1"}', 200),
]
IN_ENVIRONMENT = ["red deployments shop 1 \\u{202e}", "red deployments shop 2", "red undeployments shop 2"]
IN_ENVIRONMENT += ["red deployments shop 3", "red deployments shop 1"]
SINCE = [
    "office PUT /teams/last",
    'office PUT /environments/a%2Fb {"gated":false}',
    "office PUT /grants/team/red/environment/a%2Fb",
    'red POST /environments/a%2Fb/deployments {"pacticipant":"shop","version":"1","instance":"\\u{202e}"}',
    'red POST /environments/a%2fb/deployments {"pacticipant":"shop","version":"2"}',
    "office PUT /pacticipants/cart",
    "leaky PUT /pacticipants/cart/versions/1",
    'red POST /environments/a%2Fb/undeployments {"pacticipant":"shop","version":"2"}',
    'red POST /environments/a%2Fb/deployments?x=/y {"pacticipant":"shop","version":"3"}',
    'red POST /environments/a%2Fb/deployments {"pacticipant":"shop","version":"1"}',
]


def test_who(front: Front) -> None:
    """Who changed what, by the log: the new token is that of the leaked one's team. No spelling of a target hides it."""
    alike(front)
    front.leak(lines_for(front))
    front.reload()
    time.sleep(1)
    since = time.strftime("%Y-%m-%dT%H:%M:%S")
    for token, ask, body, status in CHANGES:
        ask = ask.replace("AT", f"{NAME}:{front.proxy.port}")
        same(ask, asked(front, ask, token, body).status, status)
    await_that(lambda: len(who(front, "--since", since)) >= len(SINCE), "the log has each request")
    same("holzhebo who --since", who(front, "--since", since), SINCE)
    same("holzhebo who of the environment", who(front, "a/b"), IN_ENVIRONMENT)
    counted = json.loads(run([CLIENT, "metrics", "--log", f"{front.room}/log", "--json"]))
    requests = front.log("log").splitlines()
    same("holzhebo metrics", counted["buckets"]['le="+Inf"'], len(requests))
    refused = sum('"status":403' in it for it in requests)
    same("those that were denied", counted["requests"]['method="POST",status="403"'], refused)


def test_client_that_is_gone(front: Front, fleet: Server) -> None:
    """A change whose client didn't wait for the answer, as of a broker that is paused, is done and in the log."""
    message = front.message(f"authorization: Bearer {RED}".encode(), f"POST {LIVE}/deployments", DEPLOYMENT)
    before = shown(fleet.ask("GET", LIVE, RED))
    fleet.process.send_signal(signal.SIGSTOP)
    try:
        with front.open() as peer:
            peer.sendall(message)
            await_that(lambda: has_come(fleet.port), "the broker is asked")
        time.sleep(0.5)
    finally:
        fleet.process.send_signal(signal.SIGCONT)
    await_that(lambda: front.log("log").count("\n") > 0, "the log has it")
    same("whether it is done", shown(fleet.ask("GET", LIVE, RED)) != before, True)
    same("who", who(front, "live"), ["red deployments shop 1"])


@pytest.mark.parametrize("old, new, of_nginx, of_caddy", [
    pytest.param(NAME, "Broker.EXAMPLE.org", 200, 421, id="capital letters"),
    pytest.param(f"{NAME}:PORT", f"[{NAME}]", 200, 421, id="brackets"),
    pytest.param("POST /", f"POST http://{'x' * 2000}@AT/", 400, 200, id="a name before the host"),
    # Of the letters, of two bytes, the thousandth byte of the target is the first one.
    pytest.param("deployments ", "deployments?" + 600 * "\u00e9" + " ", 200, 200, id="more than is logged"),
])
def test_spelled(front: Front, fleet: Server, old: str, new: str, of_nginx: int, of_caddy: int) -> None:
    """However a request is written, and as long as it may be, it hides no change: that is in the log, or isn't made."""
    message = front.message(f"authorization: Bearer {RED}".encode(), f"POST {LIVE}/deployments", DEPLOYMENT)
    before, wanted = shown(fleet.ask("GET", LIVE, RED)), of_nginx if front.end else of_caddy
    old, other = old.replace("PORT", str(front.proxy.port)), new.replace("AT", f"{NAME}:{front.proxy.port}")
    status, _ = front.exchange(message.replace(old.encode(), other.encode()))
    is_made = shown(fleet.ask("GET", LIVE, RED)) != before
    same("whether it is made", (status, is_made), (wanted, wanted == 200))
    if is_made:
        await_that(lambda: front.log("log").count("\n") > 0, "the log has it")
        same("who", who(front, "live"), ["red deployments shop 1"])
