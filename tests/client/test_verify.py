"""Tries `holzhebo verify`: a provider that keeps its contract, one that breaks it in each way, what can't be played."""
import glob, json, xml.etree.ElementTree
from typing import Any, Dict, List
import pytest
from tests.client.books import KEPT, book_pact, interaction, publish_book
from tests.client.tools import BOOK, HANGS, Client, Reply, Stock
from tests.process import Server, ran
from tests.wire import same
from tests.world import BLUE, RED, pact

# What a provider that keeps the contract is asked, in the order of the interactions: method, target, headers, body.
ASKED = [
    ("GET", "/books/1", {}, b""),
    ("POST", "/books", {"content-type": "application/json", "x-shop": "a, b"}, b'{"title": "Ada & Co"}'),
    ("PUT", "/a%20b/%2F/%C3%A9?q=1%20%26%202&q=%C3%BC&r=x", {"content-type": "text/plain"}, b"hello"),
    ("GET", "/old?a=1&b=%20", {}, b""),
    ("DELETE", "/books/9", {}, b""),
]


def book(**more: Any) -> Reply:
    return Reply(body=json.dumps({**BOOK, **more}).encode())


def without(key: str) -> Reply:
    return Reply(body=json.dumps({name: it for name, it in BOOK.items() if name != key}).encode())


PASSES, FAILS, UNPLAYED = "passed", "failed", "not played"
TEXT = (("Content-Type", "text/plain"),)
# The answer to the request of the book, and what becomes of that interaction: by the Pact Specification, version 3.
ANSWERS = {
    "as in the example": (Reply(), PASSES),
    "another id and title, as the rules allow": (book(id=7, title="Engines"), PASSES),
    "more keys": (book(pages=90), PASSES),
    "another order of keys": (Reply(body=json.dumps(dict(reversed(list(BOOK.items())))).encode()), PASSES),
    "slowly": (Reply(wait=0.3), PASSES),
    "in two headers of one name": (
        Reply(headers=(("Content-Type", "application/json"), ("X-A", "1"), ("X-A", "2"))),
        PASSES,
    ),
    "without a type": (Reply(headers=()), FAILS),
    "another status": (Reply(status=500), FAILS),
    "a redirect": (Reply(302, (("Location", "/books/1"),)), FAILS),
    "another header": (Reply(headers=TEXT), FAILS),
    "an id that is a text": (book(id="1"), FAILS),
    "a title that is a number": (book(title=1), FAILS),
    "another nested value": (book(author={"born": 1816, "name": "Ada"}), FAILS),
    "a nested key less": (book(author={"name": "Ada"}), FAILS),
    "a key less": (without("tags"), FAILS),
    "one item more": (book(tags=["a", "a"]), FAILS),
    "a list": (Reply(body=b"[]"), FAILS),
    "no body": (Reply(body=b""), FAILS),
    "no JSON": (Reply(body=b"<html>oops</html>"), FAILS),
    "half of the JSON": (Reply(body=b'{"id": 1'), FAILS),
    "nothing, and hangs": (Reply(wait=HANGS + 2), FAILS),
    "nothing, and closes": (Reply(status=0), FAILS),
    "and closes in the middle": (Reply(length=9), FAILS),
    "a fraction that nobody asks for": (book(pages=9.5), PASSES),
    "a fraction that is asked for": (book(id=9.5), UNPLAYED),
    "bytes that are no text": (Reply(headers=TEXT, body=b"\xff\xfe"), UNPLAYED),
}


# Why it fails or can't be sent, as it is said.
WHYS = {
    "without a type": "header content-type is missing",
    "another status": "status: 500; expected 200 (by the example)",
    "a redirect": "status: 302; expected 200 (by the example)",
    "a title that is a number": "$.title: the number 1; expected a text (by the rule $.title: type)",
    "no body": "body is missing",
    "nothing, and hangs": f"the provider doesn't answer within {HANGS} seconds",
    "nothing, and closes": "the provider closes without an answer",
    "and closes in the middle": "the provider closes in the middle of an answer",
    "a fraction that is asked for": "the provider's body has 9.5 at $.id, which the contract asks for, and replies are"
    " recorded without fractions: let the provider send a text, as 19.99 in quotes, or a smaller unit, as 1999 cents",
    "bytes that are no text": "the provider's body is no text",
}


STATES_SET = ("POST", "/states", {"content-type": "application/json"}, b"")


def verdict(program: str, room: str, name: str) -> List[int]:
    """Which interactions fail, as `broker check` says of the recorded files."""
    pacts, replies = (glob.glob(f"{room}/{name}/*.{it}.json") for it in ("pact", "replies"))
    done = ran([program, "check", "--pact", pacts[0], "--replies", replies[0]])
    return [int(it) for it in done.output.split()[1:]]


def play(room: str, client: Client, stock: Stock, version: str, status: int, *more: str) -> Any:
    """Verifies stock with the contract of a version of shop; the one contract, as JSON has it."""
    words = ["--provider", "stock", "--version", version, "--url", stock.url, "--contract", "shop", "10", "--json"]
    done = client.run("blue", "verify", *words, "--timeout", str(HANGS), "--record", f"{room}/{version}", *more)
    same(f"{version}: status", (done.status, done.errors), (status, ""))
    return json.loads(done.output)[0]


@pytest.mark.parametrize("name", ANSWERS)
def test_each_answer(name: str, program: str, fleet: Server, client: Client, room: str) -> None:
    """A provider that answers the request of the book so."""
    publish_book(fleet, "10", book_pact())
    number = list(ANSWERS).index(name)
    reply, wanted = ANSWERS[name]
    with Stock({**KEPT, "GET /books/1": reply, "POST /states": Reply(body=b"")}) as stock:
        status = {PASSES: 0, FAILS: 1, UNPLAYED: 3}[wanted]
        told = play(room, client, stock, f"b{number}", status, "--states-url", f"{stock.url}/states")
    others = {PASSES: PASSES, FAILS: PASSES, UNPLAYED: "played"}[wanted]
    same(name, [it["outcome"] for it in told["played"]], [wanted] + [others] * 4)
    if name in WHYS or wanted == PASSES:
        same(f"{name}: why", told["played"][0]["why"], WHYS.get(name, ""))
    same(f"{name}: sent", told["outcome"], "not sent" if wanted == UNPLAYED else wanted)
    rows = json.loads(fleet.ask("GET", f"/matrix?pacticipant=stock&version=b{number}", BLUE).body).get("rows")
    if wanted == UNPLAYED:
        same(f"{name}: the version isn't known", rows, None)
    else:
        failing = [at for at, it in enumerate(told["played"]) if it["outcome"] == FAILS]
        same(f"{name}: broker check", verdict(program, room, f"b{number}"), failing)
        same(
            f"{name}: stored",
            [(it["success"], it["evidence"], it["result"]) for it in rows],
            [(wanted == PASSES, "checked", told["result"])],
        )


def test_what_is_asked_and_told(fleet: Server, client: Client, room: str) -> None:
    answers = {**KEPT, "GET /books/1": Reply(), "POST /states": Reply(body=b"")}
    with Stock(answers) as stock:
        publish_book(fleet, "10", book_pact())
        more = ["--states-url", f"{stock.url}/states", "--junit", f"{room}/junit.xml", "--run", "build 1"]
        told = play(room, client, stock, "c1", 0, *more)
        state = json.loads(stock.asked[0][3])
        same(
            "the state",
            (stock.asked[0][:3], state),
            (STATES_SET[:3], {"consumer": "shop", "action": "setup", "state": "a shelf", "params": {"books": 2}}),
        )
        same("what was asked", stock.asked[1:], ASKED)
        again = play(room, client, stock, "c1", 0, *more)
        same("the run again", (again["result"], again["outcome"]), (told["result"], PASSES))
        suites = xml.etree.ElementTree.parse(f"{room}/junit.xml").getroot()
        same(
            "JUnit",
            [(it.get("name"), it.get("classname"), len(it)) for it in suites.iter("testcase")][0],
            ("a book (a shelf)", "shop 10", 0),
        )
        stock.answers["GET /books/1"] = Reply(status=500)
        told = play(room, client, stock, "c1", 3, *more)
        same(
            "another result of the run",
            told["why"],
            "this run sent another result for it before: give a rerun another --run",
        )
        play(room, client, stock, "c2", 1, *more[:4])
        suites = xml.etree.ElementTree.parse(f"{room}/junit.xml").getroot()
        same(
            "JUnit of a failure",
            [it.get("message") for it in suites.iter("failure")],
            ["status: 500; expected 200 (by the example)"],
        )
        words = f"verify --provider stock --version c2 --url {stock.url} --contract shop 10 --for live --ignore-states"
        lines = client.run("blue", *words.split()).output.split("\n")
        number = json.loads(fleet.ask("GET", "/matrix?pacticipant=stock&version=c2", BLUE).body)["rows"][0]["result"]
        same(
            "in sentences",
            lines[:3],
            [
                f"shop 10 (named): failed, result {number}",
                "  failed  a book (a shelf)  status: 500; expected 200 (by the example)",
                "  passed  a new book",
            ],
        )


UNPLAYABLE: Dict[str, Any] = {
    "its request has generators and the address of a mock server": {
        "generators": {"body": {"$.href": {"type": "MockServerURL", "example": "http://localhost", "regex": ".*"}}}
    },
    "its request has generators and values injected from states": {
        "generators": {"path": {"type": "ProviderState", "expression": "/${id}"}}
    },
    "its path isn't one": {"path": {"a": 1}},
    "its query has a value that isn't a text": {"query": {"a": [1]}},
    "it has a header that is no text": {"headers": {"a": 1}},
    "its method isn't one": {"method": 1},
    "its request can't be sent: Invalid header value b'a\\nb'": {"headers": {"a": "a\nb"}},
}


def test_what_can_t_be_played(fleet: Server, client: Client, room: str) -> None:
    """It is named, nothing is sent, and no result is stored."""
    answers = {**KEPT, "GET /books/1": Reply(), "POST /states": Reply(status=500)}
    with Stock(answers) as stock:
        publish_book(
            fleet, "10", book_pact(*(interaction(f"z{why}", {"path": "/", **it}, {}) for why, it in UNPLAYABLE.items()))
        )
        told = play(room, client, stock, "d1", 3, "--junit", f"{room}/junit.xml", "--ignore-states")
        whys = {it["description"][1:]: it["why"] for it in told["played"] if it["outcome"] == UNPLAYED}
        same("whys", whys, {it: it for it in UNPLAYABLE})
        same("of all", (told["outcome"], told["why"]), ("not sent", f"{len(UNPLAYABLE)} interactions can't be played"))
        suite = xml.etree.ElementTree.parse(f"{room}/junit.xml").getroot()[0]
        counts = [suite.get(it) for it in ("tests", "failures", "errors", "skipped")]
        same("JUnit: what was played and isn't sent is skipped", counts, ["12", "0", "7", "5"])
        publish_book(fleet, "11", book_pact())
        words = ["verify", "--provider", "stock", "--version", "d1", "--url", stock.url, "--contract", "shop", "11"]
        done = client.run("blue", *words, "--states-url", f"{stock.url}/states")
        same(
            "a state",
            done.output.split("\n")[:2],
            [
                "shop 11 (named): not sent: 1 interaction can't be played",
                "  not played  a book (a shelf)  the state a shelf can't be set: 500",
            ],
        )
        same("nothing stored", fleet.ask("GET", "/matrix?pacticipant=stock&version=d1", BLUE).status, 404)


def test_a_branch(program: str, fleet: Server, client: Client) -> None:
    """The newest contract of a branch has no version by the API: the program judges it, and no result is stored."""
    with Stock({"GET /": Reply(status=200)}) as stock:
        fleet.do("PUT", "/pacticipants/shop/versions/20", RED, '{"branch":"main"}')
        fleet.do("PUT", "/pacts/provider/stock/consumer/shop/version/20", RED, pact("a fork"))
        words = f"verify --provider stock --version e1 --url {stock.url} --branch main --consumer shop".split()
        why = "the broker doesn't say which version has it: name it by --contract shop VERSION"
        done = client.run("blue", *words)
        same(
            "without the program",
            (done.status, done.output.split("\n")[0]),
            (3, f"shop branch main (branch main): not sent: {why}"),
        )
        done = client.run("blue", *words, "--program", program)
        same(
            "with the program",
            (done.status, done.output.split("\n")[0]),
            (0, f"shop branch main (branch main): passed: {why}"),
        )
        stock.answers["GET /"] = Reply(status=404)
        same("a failure", client.run("blue", *words, "--program", program).status, 1)
        same("nothing stored", fleet.ask("GET", "/matrix?pacticipant=stock&version=e1", BLUE).status, 404)
        stock.answers["GET /"] = Reply(status=200)
        done = client.run("blue", *words, "--contract", "shop", "20")
        same("a version that has it", (done.status, done.output.split(":")[0]), (0, "shop 20 (named, branch main)"))
