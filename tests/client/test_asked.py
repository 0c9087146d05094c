"""What `holzhebo verify` asks a provider: the request as the pact has it, headers of its own, states."""
import json, os
from typing import Any, Dict, List, Tuple
import pytest
from tests.client.books import STATE, publish_book
from tests.client.peers import BOOK_TEXT, JSON_TYPE, nothing_is_stored, one, verified, words
from tests.client.tools import Asked, Client, Reply, Serving, Stock
from tests.process import Ended, Server
from tests.wire import same


def asked(fleet: Server, client: Client, request: Any, *more: str) -> List[Tuple[str, str, Dict[str, str], bytes]]:
    publish_book(fleet, "10", one(request={"path": "/1", **request}))
    with Stock({f"{request.get('method', 'GET')} /1": Reply(headers=JSON_TYPE, body=b'{"id":1}')}) as stock:
        same("it passes", verified(client, stock.url, *more)[0], 0)
    return stock.asked


def test_generators(fleet: Server, client: Client) -> None:
    """What a generator would make is the example; only values of states and a mock server's address need more."""
    generators = {
        "body": {"$.id": {"type": "RandomInt", "min": 0, "max": 9}},
        "header": {"X-Shop": {"type": "Uuid"}},
        "query": {"at": [{"type": "DateTime", "format": "yyyy"}]},
        "path": {"type": "Regex", "regex": "/[0-9]"},
    }
    request: Any = {"method": "POST", "query": {"at": ["2026"]}, "headers": {"X-Shop": "a"}, "body": {"id": 5}}
    got = asked(fleet, client, {**request, "generators": generators})
    wanted = ("POST", "/1?at=2026", {"x-shop": "a", "content-type": "application/json"}, b'{"id": 5}')
    same("what is asked", got, [wanted])


@pytest.mark.parametrize(
    "generator, why",
    [
        (
            {"type": "ProviderState", "expression": "/${id}"},
            "its request has generators and values injected from states",
        ),
        (
            {"type": "MockServerURL", "example": "http://x", "regex": ".*"},
            "its request has generators and the address of a mock server",
        ),
    ],
)
def test_generators_that_need_more(generator: Any, why: str, fleet: Server, client: Client) -> None:
    publish_book(fleet, "10", one(request={"path": "/1", "generators": {"body": {"$.a": generator}}}))
    with Stock({"GET /1": Reply()}) as stock:
        status, told = verified(client, stock.url)
    nothing_is_stored(fleet, status, told, why)
    same("what was asked", stock.asked, [])


def test_a_body_in_base64(fleet: Server, client: Client) -> None:
    request = {"path": "/1", "method": "PUT", "headers": {"Content-Type": "image/png"}, "body": "iVBORw0KGgo="}
    publish_book(fleet, "10", one(request=request))
    with Stock({"PUT /1": Reply()}) as stock:
        status, told = verified(client, stock.url)
    nothing_is_stored(fleet, status, told, "its body is of image/png, which a pact has in base64")


def test_a_text_of_json(fleet: Server, client: Client) -> None:
    """A body that a file keeps as the text of JSON is sent as that; another text as JSON's text."""
    headers: Any = {"method": "PUT", "headers": {"Content-Type": "application/json"}}
    same("an object", asked(fleet, client, {**headers, "body": '{"a": [1]}'})[0][3], b'{"a": [1]}')


def test_another_text(fleet: Server, client: Client) -> None:
    headers: Any = {"method": "PUT", "headers": {"Content-Type": "application/json"}}
    same("a text", asked(fleet, client, {**headers, "body": "7 books"})[0][3], b'"7 books"')


SECRET = "key-of-the-provider-0001"


def test_header_file(fleet: Server, client: Client, room: str) -> None:
    """Its headers are sent with each request, in the place of the pact's, and are shown nowhere."""
    with open(f"{room}/headers", "w", encoding="utf-8") as it:
        it.write(f"Authorization: Bearer {SECRET}\n\nX-Shop: own\n")
    seen: List[Any] = []

    def keeps(it: Asked) -> Reply:
        seen.append((it.path, it.headers.get_all("authorization"), it.headers.get_all("x-shop")))
        return Reply(204, (), b"") if it.method == "POST" else Reply(headers=JSON_TYPE, body=BOOK_TEXT)

    publish_book(
        fleet,
        "10",
        one(request={"path": "/1", "headers": {"authorization": "Bearer example", "X-Shop": "a"}}, states=STATE),
    )
    with Serving(keeps) as peer:
        more = ["--header-file", "headers", "--states-url", f"{peer.url}/states"]
        more += ["--record", "kept", "--junit", "junit.xml"]
        done = client.run("blue", *words(peer.url), *more)
    same("it passes", done.status, 0)
    same("what was sent", seen, [(path, [f"Bearer {SECRET}"], ["own"]) for path in ("/states", "/1")])
    kept = [done.output, done.errors, *(open(f"{room}/{it}", encoding="utf-8").read() for it in files_of(room))]
    same("where it is seen", [it[:80] for it in kept if SECRET in it], [])
    for text in "authorization", "a b: 1", "x: \x01":
        with open(f"{room}/wrong", "w", encoding="utf-8") as it:
            it.write(f"x-a: {SECRET}\n{text}\n")
        done = client.run("blue", *words(peer.url, "p2"), "--header-file", "wrong")
        same("a file of something else", done, Ended(3, "", "holzhebo: wrong: line 2 is no header, as name: value\n"))


def test_addresses_and_headers_of_any_letters(fleet: Server, client: Client, room: str) -> None:
    """Where the provider says that it is ready, where its states are set, and what is sent with each request."""
    with open(f"{room}/headers", "w", encoding="utf-8") as it:
        it.write("X-Shop: \u2192\n")
    seen: List[Any] = []

    def keeps(it: Asked) -> Reply:
        seen.append((it.path, it.headers["x-shop"].encode("latin-1").decode()))
        return Reply(headers=JSON_TYPE, body=BOOK_TEXT)

    publish_book(fleet, "10", one(states=STATE))
    with Serving(keeps) as peer:
        more = ["--header-file", "headers", "--ready", f"{peer.url}/\u00e9?q=\u00fc", "--states-url", f"{peer.url}/\u00e0"]
        same("it passes", verified(client, f"{peer.url}/\u00ea", *more)[0], 0)
    wanted = ["/%C3%A9?q=%C3%BC", "/%C3%A0", "/%C3%AA/1"]
    same("what is asked", seen, [(path, "\u2192") for path in wanted])


def files_of(room: str) -> List[str]:
    return [f"kept/{it}" for it in os.listdir(f"{room}/kept")] + ["junit.xml"]


# States


def test_states_and_their_end(fleet: Server, client: Client) -> None:
    """They are set in their order, with --states-teardown taken back in the other one, with their parameters."""
    states = [{"name": "a shelf", "params": {"books": 2}}, {"name": "a reader"}]
    publish_book(fleet, "10", one(states=states))
    answers = {
        "GET /1": Reply(headers=JSON_TYPE, body=BOOK_TEXT),
        "POST /states": Reply(status=204, headers=(), body=b""),
    }
    with Stock(answers) as stock:
        more = ["--states-url", f"{stock.url}/states", "--states-teardown"]
        same("it passes", verified(client, stock.url, *more)[0], 0)
    sent: List[Any] = [json.loads(body) for method, _, _, body in stock.asked if method == "POST"]
    own: Any = {"consumer": "shop"}
    shelf: Any = {**own, "state": "a shelf", "params": {"books": 2}}
    reader: Any = {**own, "state": "a reader", "params": {}}
    wanted = [{**it, "action": "setup"} for it in (shelf, reader)] + [
        {**it, "action": "teardown"} for it in (reader, shelf)
    ]
    same("the states", sent, wanted)
    same("the request is between them", [it[0] for it in stock.asked], ["POST", "POST", "GET", "POST", "POST"])


SHELF, READER = "a shelf", "a reader"
# What the provider answers, what of the states is answered 500, and how they are taken back.
ENDS: List[Tuple[bytes, Tuple[str, str], List[str]]] = [
    (b'{"id":1.5}', ("", ""), [READER, SHELF]),  # it can't be recorded
    (BOOK_TEXT, ("setup", READER), [SHELF]),
    (BOOK_TEXT, ("teardown", READER), [READER, SHELF]),
]


@pytest.mark.parametrize("reply, wrong, ends", ENDS, ids=str)
def test_states_end_in_any_case(
    reply: bytes, wrong: Tuple[str, str], ends: List[str], fleet: Server, client: Client
) -> None:
    """What can't be played has its states taken back too: those that were set, and no other; also those after one that
    can't be taken back."""
    publish_book(fleet, "10", one(states=[{"name": SHELF}, {"name": READER}]))
    sent = []

    def answers(it: Asked) -> Reply:
        said = json.loads(it.body)
        sent.append((said["action"], said["state"]))
        return Reply(500 if sent[-1] == wrong else 204, (), b"")

    with Serving(answers) as states, Stock({"GET /1": Reply(headers=JSON_TYPE, body=reply)}) as stock:
        status, told = verified(client, stock.url, "--states-url", states.url, "--states-teardown")
    same("it isn't played", (status, told["played"][0]["outcome"]), (3, "not played"))
    taken = [("teardown", it) for it in ends]
    same("what was set and taken back", sent, [("setup", SHELF), ("setup", READER), *taken])


def test_states_without_an_address(fleet: Server, client: Client) -> None:
    publish_book(fleet, "10", one(states=STATE))
    with Stock({"GET /1": Reply(headers=JSON_TYPE, body=BOOK_TEXT)}) as stock:
        status, told = verified(client, stock.url)
        nothing_is_stored(fleet, status, told, "it has a state: give --states-url, or --ignore-states")
        same("what was asked", stock.asked, [])
        same("ignored", verified(client, stock.url, "--ignore-states")[0], 0)
