"""`holzhebo verify` with several contracts, of which one can't be had or sent; its words; what differs."""
import json, os, time, xml.etree.ElementTree
from typing import List, Tuple
import pytest
from tests.client.books import KEPT, book_pact, publish_book
from tests.client.peers import BOOK_TEXT, JSON_TYPE, Judging, one, Refusing, rows, verified, words
from tests.client.tools import Client, Reply, Stock
from tests.process import Ended, Server
from tests.wire import OFFICE, Wrong, same
from tests.world import RED


# Several contracts, of which one can't be had or sent


def two_consumers(fleet: Server) -> None:
    """Shop and web, both live, with stock; and web also with depot, whose results only the team green may send."""
    fleet.do("PUT", "/pacticipants/web", OFFICE, '{"team":"red"}')
    for name in "shop", "web":
        text = json.dumps({**one(), "consumer": {"name": name}})
        fleet.do("PUT", f"/pacts/provider/stock/consumer/{name}/version/10", RED, text)
        fleet.do("POST", "/environments/open/deployments", RED, json.dumps({"pacticipant": name, "version": "10"}))


def test_one_that_isn_t_sent(fleet: Server, client: Client, room: str) -> None:
    """The broker refuses the second of three results: the third is sent, JUnit has all, and the end says which
    isn't."""
    two_consumers(fleet)
    fleet.do("PUT", "/pacticipants/zoo", OFFICE, '{"team":"red"}')
    fleet.do(
        "PUT", "/pacts/provider/stock/consumer/zoo/version/10", RED, json.dumps({**one(), "consumer": {"name": "zoo"}})
    )
    with Stock({"GET /1": Reply(headers=JSON_TYPE, body=BOOK_TEXT)}) as stock, Refusing(
        fleet, "/consumer/web/"
    ) as proxy:
        more = ["--contract", "web", "10", "--contract", "zoo", "10", "--junit", f"{room}/junit.xml"]
        done = Client(room, proxy.url).run("blue", *words(stock.url), *more)
    same("status", done.status, 3)
    names = [it["consumer"] for it in rows(fleet)]
    same("what is stored", names, ["shop", "zoo"])
    same("the last line", done.output.split("\n")[-2], "sent: 2 of 3 contracts; not sent: web 10")
    suites = xml.etree.ElementTree.parse(f"{room}/junit.xml").getroot()
    same(
        "JUnit",
        [(it.get("name"), it.get("errors")) for it in suites],
        [("shop 10", "0"), ("web 10", "1"), ("zoo 10", "0")],
    )


def test_one_that_can_t_be_read(fleet: Server, client: Client, room: str) -> None:
    """The contract of web is refused: shop's is verified, and web's is an error in the report."""
    two_consumers(fleet)
    with Stock({"GET /1": Reply(headers=JSON_TYPE, body=BOOK_TEXT)}) as stock, Refusing(
        fleet, "/consumer/web/", "GET"
    ) as proxy:
        line = ["verify", "--provider", "stock", "--version", "p1", "--url", stock.url, "--for", "open"]
        done = Client(room, proxy.url).run("blue", *line, "--junit", f"{room}/junit.xml")
    same("status", done.status, 3)
    same("what is stored", [(it["consumer"], it["success"]) for it in rows(fleet)], [("shop", True)])
    suites = xml.etree.ElementTree.parse(f"{room}/junit.xml").getroot()
    same("JUnit", [(it.get("name"), it.get("errors")) for it in suites], [("web 10", "1"), ("shop 10", "0")])


def test_one_that_isn_t_judged(program: str, fleet: Server, client: Client, room: str) -> None:
    """The broker gives up the patterns of one contract: that is said, the others are judged, and it ends with 3. So it
    does if the program gives up."""
    two_consumers(fleet)
    too_much = 500, '{"answer":"pattern"}'
    with Stock({"GET /1": Reply(headers=JSON_TYPE, body=BOOK_TEXT)}) as stock, Refusing(
        fleet, "/consumer/shop/", answer=too_much
    ) as proxy:
        both = Client(room, proxy.url)
        more = ["--contract", "web", "10", "--junit", f"{room}/junit.xml"]
        done = both.run("blue", *words(stock.url), *more)
        told = json.loads(both.run("blue", *words(stock.url, "p2"), *more, "--json").output)
        with open(f"{room}/broker", "w", encoding="utf-8") as it:
            it.write("#!/bin/sh\necho check 2 >&2\nexit 3\n")
        os.chmod(f"{room}/broker", 0o755)
        here = client.run("blue", *words(stock.url), *more[:3], "--filter", "book", "--program", f"{room}/broker")
    same("status", (done.status, done.errors), (3, ""))
    lines = [it for it in done.output.split("\n") if not it.startswith(" ")]
    same("its line", lines[0], "shop 10 (named): not judged: too much work for patterns")
    same("the other", lines[1].startswith("web 10 (named): passed, result "), True)
    same("the last line", lines[2], "sent: 1 of 2 contracts; not judged: shop 10")
    outcomes = [("shop 10", "not judged", None), ("web 10", "passed", True)]
    same("JSON", [(it["contract"], it["outcome"], it["result"] and True) for it in told], outcomes)
    same("what is stored", [(it["consumer"], it["success"]) for it in rows(fleet)], [("web", True)])
    suites = xml.etree.ElementTree.parse(f"{room}/junit.xml").getroot()
    same("JUnit", [(it.get("name"), it.get("errors")) for it in suites], [("shop 10", "1"), ("web 10", "0")])
    message = [it.get("message") for it in suites.iter("error")]
    same("its error", message, ["too much work for patterns"])
    why = f"not judged: {room}/broker: too much work for patterns"
    same("by the program", (here.status, here.output.count(why)), (3, 2))


def test_junit_in_any_case(fleet: Server, client: Client, room: str) -> None:
    """Also if nothing can be verified: a token that isn't known, a provider that isn't there."""
    publish_book(fleet, "10", one())
    cases: List[Tuple[str, List[str], str]] = [
        ("nobody", [], "the broker doesn't know this token"),
        ("blue", ["--timeout", "0.3"], "the provider doesn't listen: Connection refused"),
    ]
    for caller, more, why in cases:
        done = client.run(caller, *words("http://127.0.0.1:1"), "--junit", "junit.xml", *more)
        same("status", (done.status, done.errors), (3, f"holzhebo: {why}\n"))
        errors = [it.get("message") for it in xml.etree.ElementTree.parse(f"{room}/junit.xml").iter("error")]
        same("JUnit", errors, [why])


@pytest.mark.parametrize("more", [["--junit", "file/junit.xml"], ["--record", "file/kept"]], ids="junit record".split())
def test_reports_that_can_t_be_written(more: List[str], fleet: Server, client: Client, room: str) -> None:
    """It is said, and each contract is verified and told nevertheless. The status is 3, or 1 if a contract fails."""
    two_consumers(fleet)
    with open(f"{room}/file", "w", encoding="utf-8"):
        pass
    for body, version, status in (BOOK_TEXT, "p1", 3), (b'{"id":2}', "p2", 1):
        with Stock({"GET /1": Reply(headers=JSON_TYPE, body=body)}) as stock:
            line = ["verify", "--provider", "stock", "--version", version, "--url", stock.url, "--for", "open", "--json"]
            done = client.run("blue", *line, *more)
        passes = status == 3
        outcomes = [(it["contract"], it["outcome"]) for it in json.loads(done.output)]
        wanted = [(name, "passed" if passes else "failed") for name in ("shop 10", "web 10")]
        same("status, and what is told", (done.status, outcomes), (status, wanted))
        same("what is stored", [it["success"] for it in rows(fleet, version)], [passes] * 2)
        said = [it.startswith(f"holzhebo: {more[1]}") for it in done.errors.splitlines()]
        same("why, of each file", said, [True] * {"--junit": 1, "--record": 4}[more[0]])
    done = client.run("nobody", *words("http://127.0.0.1:1"), "--junit", more[1])
    same("with another reason", done.status, 3)
    same("both are said", [it in done.errors for it in ("doesn't know this token", f"{more[1]} can't")], [True, True])


# Names and words


def test_a_misspelt_provider(fleet: Server, client: Client) -> None:
    """It is no success, also if the environment is empty."""
    for environment in "live", "vault":
        line = ["verify", "--provider", "stok", "--version", "1", "--url", "http://127.0.0.1:1", "--for", environment]
        same(
            environment,
            client.run("blue", *line),
            Ended(3, "", "holzhebo: the broker doesn't know the pacticipant stok\n"),
        )
    done = client.run("blue", "fetch", "--provider", "stok", "--for", "live", "--into", "got")
    same("fetch", (done.status, done.errors), (3, "holzhebo: the broker doesn't know the pacticipant stok\n"))
    done = client.run("blue", "status", "live", "--provider", "stok")
    same("status", (done.status, done.errors), (3, "holzhebo: the broker doesn't know the pacticipant stok\n"))


def test_no_contract(fleet: Server, client: Client) -> None:
    line = ["verify", "--provider", "shop", "--version", "9", "--url", "http://127.0.0.1:1", "--for", "live"]
    same("none", client.run("red", *line), Ended(0, "there is no contract with shop\n", ""))
    same("--fail-if-none", client.run("red", *line, "--fail-if-none"), Ended(3, "there is no contract with shop\n", ""))
    same("JSON", client.run("red", *line, "--json"), Ended(0, "[]\n", ""))


def test_seconds(fleet: Server, client: Client) -> None:
    """A time of nothing for an answer is a wrong command line."""
    same("--timeout 0", client.run("blue", *words("http://127.0.0.1:1"), "--timeout", "0").status, 2)


def test_jobs(fleet: Server, client: Client) -> None:
    """Those without states are played beside one another: eight that take a second each take less than four."""
    names = [f"book {number}" for number in range(8)]
    publish_book(fleet, "10", {**book_pact(), "interactions": [one(it)["interactions"][0] for it in names]})
    with Stock({"GET /1": Reply(headers=JSON_TYPE, body=BOOK_TEXT, wait=1)}) as stock:
        began = time.monotonic()
        status, told = verified(client, stock.url, "--jobs", "8")
        took = time.monotonic() - began
    same("all pass, in their order", (status, [it["description"] for it in told["played"]]), (0, names))
    if took > 6:
        raise Wrong(f"it took {took:.1f} seconds")


def test_filter(program: str, fleet: Server, client: Client) -> None:
    """Only what has the text is played. Nothing is sent; the program judges."""
    publish_book(
        fleet, "10", {**book_pact(), "interactions": [one(it)["interactions"][0] for it in ("a pen", "a cup")]}
    )
    with Stock({"GET /1": Reply(headers=JSON_TYPE, body=BOOK_TEXT)}) as stock:
        status, told = verified(client, stock.url, "--filter", "cup", "--program", program)
        same(
            "the one",
            (status, [(it["description"], it["outcome"]) for it in told["played"]]),
            (0, [("a cup", "passed")]),
        )
        stock.answers["GET /1"] = Reply(status=500)
        same("it fails", verified(client, stock.url, "--filter", "cup", "--program", program)[0], 1)
        same("without the program", verified(client, stock.url, "--filter", "cup")[0], 3)
        done = client.run("blue", *words(stock.url), "--filter", "tea")
        same("none", (done.status, done.errors), (3, "holzhebo: no interaction has tea in its description\n"))
    same("what is stored", rows(fleet), None)


# What differs


WRONG_BOOK = {"author": {"born": "1815"}, "id": "x", "tags": [], "title": 1}
DIFFERENCES = [
    '$.author.born: the text "1815"; expected the number 1815 (by the example)',
    "$.author.name is missing",
    '$.id: the text "x"; expected a whole number (by the rule $.id: integer)',
    "$.tags has 0 items; expected 1 (by the example)",
    "$.title: the number 1; expected a text (by the rule $.title: type)",
]


def test_what_differs(program: str, fleet: Server, client: Client, room: str) -> None:
    """Each place is said: in the table, in JSON, in JUnit, and by `holzhebo check` and `explain` of what was
    recorded."""
    publish_book(fleet, "10", book_pact())
    answers = {**KEPT, "GET /books/1": Reply(body=json.dumps(WRONG_BOOK).encode())}
    with Stock(answers) as stock:
        more = ["--ignore-states", "--junit", f"{room}/junit.xml", "--record", f"{room}/kept"]
        done = client.run("blue", *words(stock.url), *more)
        status, told = verified(client, stock.url, "--ignore-states")
    same("status", (done.status, status), (1, 1))
    same("in the table", [it.strip() for it in done.output.split("\n") if "$." in it][1:], DIFFERENCES[1:])
    same("its first line", DIFFERENCES[0] in done.output.split("\n")[1], True)
    same("in JSON", told["played"][0]["differences"], DIFFERENCES)
    failure = next(xml.etree.ElementTree.parse(f"{room}/junit.xml").iter("failure"))
    same("in JUnit", (failure.get("message"), failure.text), (f"{DIFFERENCES[0]} (and 4 more)", "\n".join(DIFFERENCES)))
    files = sorted(files_in(f"{room}/kept"))
    for line in (["check", *files], ["explain", files[0], "--replies", files[1]]):
        for asks in list[str](), ["--program", program]:
            done = client.run("none", *line, *asks)
            same(f"{line[0]} {asks}", done.status, 1)
            same(f"{line[0]}: all places", [it for it in DIFFERENCES if it not in done.output], [])


def files_in(folder: str) -> List[str]:
    return [os.path.join(folder, it) for it in os.listdir(folder)]


def test_a_disagreement(fleet: Server, client: Client, room: str) -> None:
    """A broker that says pass of what surely differs, or fail of what doesn't: that is said, and the status is 3."""
    publish_book(fleet, "10", one())
    for body, verdict, line in (
        (b'{"id":2}', '"failing":[],"result":1,"success":true', "passes; this client finds differences"),
        (BOOK_TEXT, '"failing":[0],"result":1,"success":false', "fails; this client finds no difference"),
    ):
        with Stock({"GET /1": Reply(headers=JSON_TYPE, body=body)}) as stock, Judging(fleet, verdict) as proxy:
            done = Client(room, proxy.url).run("blue", *words(stock.url), "--junit", f"{room}/junit.xml")
        same("status", done.status, 3)
        same("it is said", f"the broker says it {line}" in done.output, True)
        same(
            "in one line",
            done.errors,
            "holzhebo: shop 10: the broker and this client disagree; the broker's verdict counts\n",
        )
        same("in JUnit", len(list(xml.etree.ElementTree.parse(f"{room}/junit.xml").iter("error"))), 1)
