"""What is sent of pact files and what isn't; fetched files; results."""
import json, os, re
from typing import Any, List, Tuple
import pytest
from tests.client.flaky import EMPTY, MANY, FlakyBroker, flaky  # the fixture
from tests.client.tools import Asked, Client, Reply, Serving
from tests.process import Ended, Server, ran
from tests.wire import OFFICE, same
from tests.world import BLUE, RED, pact

__all__ = ["flaky"]


def write(room: str, name: str, value: Any) -> str:
    with open(f"{room}/{name}", "w", encoding="utf-8") as it:
        it.write(value if isinstance(value, str) else json.dumps(value))
    return name


def priced(price: str, **more: Any) -> str:
    """A pact file with this number in a response."""
    file = json.loads(pact("a price"))
    file["interactions"][0]["response"]["body"] = {"price": "PRICE"}
    file.update(more)
    return json.dumps(file).replace('"PRICE"', price)


def test_half_of_a_version(fleet: Server, client: Client, room: str) -> None:
    """A version of which one contract is refused isn't there at all, so the gate can't take it for whole."""
    fleet.do("PUT", "/pacticipants/pay", OFFICE, '{"team":"blue"}')
    write(room, "a.json", pact("a book"))
    write(room, "z.json", priced("19.99").replace('"stock"', '"pay"'))
    done = client.run("red", "publish", "7", "--branch", "main", "a.json", "z.json")
    same(
        "status",
        (done.status, done.output.split("\n")[0]),
        (1, "not sent  a.json: shop 7 with stock: another file is refused, and nothing is sent"),
    )
    same(
        "the version",
        fleet.ask("GET", "/matrix?pacticipant=shop&version=7", RED)[::2],
        (404, '{"answer":"unknown","what":"version"}'),
    )
    same("so it can't be deployed", client.run("red", "deploy", "shop", "7", "open").status, 3)


def test_the_rest_of_a_version(flaky: FlakyBroker, room: str) -> None:
    """The second of three files has no answer: the first and the third are said, in a table and in JSON."""
    files = [write(room, f"{name}.json", pact(name).replace("stock", name)) for name in ("a", "b", "c")]
    for more in list[str](), ["--json"]:
        flaky.set([200, 500, 200])
        done = Client(room, flaky.url).run("red", "publish", "7", *files, *more)
        same("status, and what was sent", (done.status, flaky.count), (3, 3))
        if more:
            outcomes = [(it["path"], it["outcome"]) for it in json.loads(done.output)]
        else:
            outcomes = [(path, outcome) for outcome, path in re.findall(r"(?m)^(new|not sent) +(\S+):", done.output)]
            same("how many", done.output.split("\n")[-2], "stored, and this stays: 2 of 3 contracts")
        same("all are said", outcomes, [("a.json", "new"), ("b.json", "not sent"), ("c.json", "new")])


@pytest.mark.parametrize("status", [0, 502, MANY])
@pytest.mark.parametrize("words", [("publish", "7"), ("result", "1", "pass", "--run", "7")], ids="publish result".split())
def test_a_broker_that_goes(words: Tuple[str, ...], status: int, flaky: FlakyBroker, room: str) -> None:
    """It closes at the second file and at all after it, or a proxy answers: what was stored is said, and the third one
    is tried once."""
    metadata = {"holzhebo": {"consumerVersion": "1"}}
    texts = {name: json.loads(pact(name).replace("stock", name)) for name in ("a", "b", "c")}
    files = [write(room, f"{name}.json", {"metadata": metadata, **it}) for name, it in texts.items()]
    flaky.set([200] + [status] * 50)
    done = Client(room, flaky.url).run("red", *words, *files, "--patience", "2", "--json")
    outcomes = [it.get("outcome", it.get("answer")) for it in json.loads(done.output)]
    new = "new" if words[0] == "publish" else "done"
    same("status, and what is said", (done.status, outcomes), (3, [new, "not sent", "not sent"]))
    tries = [flaky.bodies.count(it) for it in dict.fromkeys(flaky.bodies)]
    same("the first, the second and the third", (tries[0], tries[1] > 1, tries[2:]), (1, True, [1]))


def test_contracts_behind_a_proxy(room: str) -> None:
    """A proxy that doesn't reach the broker is waited for once, and not for each contract that is looked for."""
    asked: List[str] = []
    there: Any = [{"pacticipant": it, "version": "1", "instance": ""} for it in ("a", "b", "c")]
    said = {"/environments/live": {**EMPTY, "deployed": there}, "/matrix": {"answer": "unknown", "what": "version"}}

    def answers(it: Asked) -> Reply:
        asked.append(it.path.partition("?")[0])
        body = said.get(asked[-1])
        return Reply(502 if body is None else 404 if asked[-1] == "/matrix" else 200, body=json.dumps(body).encode())

    with Serving(answers) as it:
        words = ["fetch", "--provider", "stock", "--for", "live", "--into", "got", "--patience", "2"]
        done = Client(room, it.url).run("blue", *words)
    tries = [asked.count(f"/pacts/provider/stock/consumer/{it}/version/1") for it in ("a", "b", "c")]
    same("status, and how often", (done.status, tries[0] > 1, tries[1:]), (3, True, [1, 1]))


def test_a_misspelt_name(fleet: Server, client: Client, room: str) -> None:
    """Of the two sides it is said which the broker doesn't know."""
    for old, new in ("stock", "stok"), ("shop", "shp"):
        write(room, "a.json", pact("a book").replace(f'"{old}"', f'"{new}"'))
        done = client.run("red", "publish", "7", "a.json")
        same(new, (done.status, f"the broker doesn't know the pacticipant {new}\n" in done.output), (3, True))


def test_a_folder(fleet: Server, client: Client, room: str) -> None:
    os.mkdir(f"{room}/pacts")
    write(room, "pacts/a.json", pact("a book"))
    os.mkdir(f"{room}/none")
    same("its files", client.done("red", "publish", "7", "pacts")[:25], "new       pacts/a.json: s")
    same("no file", client.run("red", "publish", "7", "none"), Ended(3, "", "holzhebo: none has no file of JSON\n"))


# What of a file is sent: it, the plain file with which it shares a content, and what is said to be written.
METADATA = {"pactSpecification": {"version": "3.0.0"}, "ratio": 0.5}
PLAIN: List[Tuple[str, str, str]] = [
    (priced("20.0"), priced("20"), "$.interactions[0].response.body.price is 20 and not 20.0"),
    (priced("2E+1"), priced("20"), "$.interactions[0].response.body.price is 20 and not 2E+1"),
    (priced("-0.0"), priced("0"), "$.interactions[0].response.body.price is 0 and not -0.0"),
    (priced("1", metadata=METADATA), priced("1"), "$.metadata is left out"),
    (priced("1", comments={"a": [1.5]}), priced("1"), "$.comments is left out"),
    (
        priced("1").replace('"body"', '"matchingRules":{"status":{},"body":{}},"body"'),
        priced("1").replace('"body"', '"matchingRules":{"body":{}},"body"'),
        "$.interactions[0].response.matchingRules.status is left out",
    ),
    (
        priced("1").replace('"description"', '"comments":{"at":2.5},"description"'),
        priced("1"),
        "$.interactions[0].comments is left out",
    ),
]


@pytest.mark.parametrize("file, plain, said", PLAIN, ids=[it[2] for it in PLAIN])
def test_what_of_a_file_is_sent(file: str, plain: str, said: str, fleet: Server, client: Client, room: str) -> None:
    """What the broker doesn't keep is left out, and a whole number is written in its digits: the content is the same as
    that of the plain file. --as-it-is sends the bytes, which the broker refuses."""
    write(room, "a.json", file)
    write(room, "plain.json", plain)
    done = client.run("red", "publish", "7", "--as-it-is", "a.json")
    same("as it is", (done.status, done.output[:8]), (1, "refused "))
    same("by the broker too", fleet.ask("PUT", "/pacts/provider/stock/consumer/shop/version/7", RED, file).status, 422)
    first = client.done("red", "publish", "7", "plain.json")
    done = client.run("red", "publish", "8", "a.json")
    same("status", (done.status, done.errors), (0, ""))
    number = re.findall(r"content (\d+)", first)
    same("the content's number", re.findall(r"content (\d+)", done.output), number)
    same(
        "what is said",
        f"    written for the broker: {said} (--as-it-is sends the file's bytes)" in done.output.split("\n"),
        True,
    )
    same("explain", client.run("none", "explain", "a.json").status, 0)
    same("explain of the bytes", client.run("none", "explain", "--as-it-is", "a.json").status, 1)


def test_a_version_isn_t_left_out(fleet: Server, client: Client, room: str) -> None:
    """Of metadata with a fraction the version stays, so that a file of version 2 is refused."""
    write(room, "a.json", priced("1", metadata={"pactSpecification": {"version": "2.0.0"}, "ratio": 0.5}))
    done = client.run("red", "publish", "7", "a.json")
    same("version 2", (done.status, "pact 4" in done.output), (1, True))


@pytest.mark.parametrize("price", ["19.99", "1e-99999999999999999999"])
def test_a_fraction_in_an_example(price: str, fleet: Server, client: Client, room: str) -> None:
    write(room, "a.json", priced(price))
    done = client.run("red", "publish", "7", "a.json")
    same("refused", (done.status, "pact 6.1  $.interactions[0].response.body.price" in done.output), (1, True))


def test_a_fraction_that_is_sent(client: Client, program: str, room: str) -> None:
    """In a request, or in a state's parameter: the program refuses it too, and a rule of the response is no way out."""
    for part, value in (
        ("request", {"method": "POST", "path": "/1", "body": {"price": "PRICE"}}),
        ("providerStates", [{"name": "a price", "params": {"price": "PRICE"}}]),
    ):
        file = json.loads(pact("a price"))
        file["interactions"][0][part] = value
        text = json.dumps(file).replace('"PRICE"', "19.99")
        same(f"the program on {part}", ran([program, "normalise"], text), (3, "", "pact 6.1\n"))
        write(room, "a.json", text)
        lines = client.run("none", "explain", "a.json", "--program", program).output.split("\n")
        same(part, (lines[0], lines[1].split()[:2]), ("a.json: 1 fault", ["pact", "6.1"]))
        remedy = "write a text, as 19.99 in quotes, or a smaller unit, as 1999 cents, if the provider takes one of these"
        same(f"the remedy for {part}", lines[3].strip(), remedy)


# The remedy for a date is the pattern of its own format.
FORMATS = {
    "yyyy-MM-dd'T'HH:mm:ssXXX": r"^\\d{4}-\\d{2}-\\d{2}T\\d{2}:\\d{2}:\\d{2}(Z|[+-]\\d{2}:\\d{2})$",
    "dd.MM.yy": r"^\\d{2}\\.\\d{2}\\.\\d{2}$",
    "HH:mm:ss.SSS": r"^\\d{2}:\\d{2}:\\d{2}\\.\\d{3}$",
    "yyyyMMddZ": r"^\\d{4}\\d{2}\\d{2}[+-]\\d{4}$",
    "yyyy 'o''clock'": r"^\\d{4} o'clock$",
}


@pytest.mark.parametrize("text", [*FORMATS, "EEE, d MMM yyyy"])
def test_the_remedy_for_a_date(text: str, client: Client, room: str) -> None:
    file = json.loads(pact("a date"))
    rules = {"body": {"$": {"matchers": [{"match": "timestamp", "timestamp": text}]}}}
    file["interactions"][0]["response"].update(body="x", matchingRules=rules)
    write(room, "a.json", file)
    remedy = client.run("none", "explain", "a.json").output.split("\n")[3].strip()
    wanted = (
        f'write a regex, as {{"match":"regex","regex":"{FORMATS[text]}"}}:'
        if text in FORMATS
        else "write a regex for this format:"
    )
    same(text, remedy.startswith(wanted), True)


def test_rules_of_a_text(client: Client, room: str) -> None:
    """Rules of places in a body of XML can't apply, which is no fault."""
    file = json.loads(pact("a text"))
    rules = {"body": {"$.a": {"matchers": [{"match": "type"}]}, "$": {"matchers": [{"match": "type"}]}}}
    file["interactions"][0]["response"].update(body="<a/>", matchingRules=rules)
    write(room, "a.json", file)
    lines = client.done("none", "explain", "a.json").split("\n")
    same(
        "no effect",
        lines[1:3],
        [
            "  no effect  $.interactions[0].response.matchingRules.body['$.a']",
            "      the body is a text, which has no such place; it is no fault",
        ],
    )


# Fetched files


def files_in(folder: str) -> List[str]:
    return sorted(it for it in os.listdir(folder) if it.endswith(".json"))


def test_files_of_an_earlier_fetch(fleet: Server, client: Client, room: str) -> None:
    """They go, and so no result is claimed for a contract that is no longer there; other files stay."""
    fetch = ["fetch", "--provider", "stock", "--into", "got"]
    client.done("blue", *fetch, "--contract", "shop", "1", "--contract", "shop", "2")
    write(room, "got/own.json", "{}")
    before = files_in(f"{room}/got")
    client.done("blue", *fetch, "--contract", "shop", "2", "--contract", "shop", "3")
    after = files_in(f"{room}/got")
    same("how many", (len(before), len(after), len(set(before) & set(after))), (3, 3, 2))
    same("its own file", "own.json" in after, True)
    done = client.run("blue", "result", "2", "pass", "got")
    same("of a folder", (done.status, done.output.count("pass is claimed")), (0, 2))
    client.done("blue", *fetch, "--for", "vault")
    same("none", files_in(f"{room}/got"), ["own.json"])
    same("results of none", client.run("blue", "result", "3", "pass", "got"), Ended(0, "", ""))
    same("another folder", client.run("blue", "result", "3", "pass", room).status, 3)


def test_the_rest_of_the_results(fleet: Server, client: Client, room: str) -> None:
    """A file that can't be sent doesn't stop the others, and JSON has all of them."""
    client.done(
        "blue", "fetch", "--provider", "stock", "--into", "got", "--contract", "shop", "1", "--contract", "shop", "3"
    )
    one, two = (f"got/{it}" for it in files_in(f"{room}/got"))
    write(room, "wrong.json", pact("a book"))
    done = client.run("blue", "result", "2", "pass", one, "wrong.json", two, "--json")
    told = json.loads(done.output)
    same("status", (done.status, [it["answer"] for it in told]), (3, ["done", "not sent", "done"]))
    same(
        "what is stored", len(json.loads(fleet.ask("GET", "/matrix?pacticipant=stock&version=2", BLUE).body)["rows"]), 2
    )


def test_a_result_that_was_sent_before(fleet: Server, client: Client, room: str) -> None:
    """A rerun of an old run corrects nothing: it is told from a new result."""
    client.done("blue", "fetch", "--provider", "stock", "--into", "got", "--contract", "shop", "1")
    (file,) = (f"got/{it}" for it in files_in(f"{room}/got"))
    claim = ["result", "2", "pass", file, "--run", "build 1"]
    same("new", client.done("blue", *claim), f"{file}: pass is claimed, result 3\n")
    wanted = f"{file}: pass was claimed by this run before, as result 3: a later result counts\n"
    same("again", client.done("blue", *claim), wanted)
