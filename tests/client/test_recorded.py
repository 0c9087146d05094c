"""What `holzhebo verify` records of what a provider answers."""
import gzip, zlib
from typing import Any, Dict, Tuple
import pytest
from tests.client.books import publish_book
from tests.client.peers import BOOK_TEXT, JSON_TYPE, one, rows, verified, WANTED, words
from tests.client.tools import Client, Reply, Stock
from tests.process import Server
from tests.wire import same


def packed(body: bytes, coding: str) -> Reply:
    return Reply(headers=(*JSON_TYPE, ("Content-Encoding", coding)), body=body)


def book(more: bytes) -> Reply:
    """The book, with more members."""
    return Reply(headers=JSON_TYPE, body=b'{"id":1,' + more + b"}")


RAW = zlib.compressobj(wbits=-15)
UTF_8 = "f\u00fcr Ada".encode().decode("latin-1")
TITLED: Any = {**WANTED, "headers": {"X-Title": "f\u00fcr Ada"}}
# A reply, the response that is expected, and what becomes of the interaction.
REPLIES: Dict[str, Tuple[Reply, Any, str]] = {
    "gzip": (packed(gzip.compress(BOOK_TEXT), "gzip"), WANTED, "passed"),
    "deflate": (packed(zlib.compress(BOOK_TEXT), "deflate"), WANTED, "passed"),
    "raw deflate": (packed(RAW.compress(BOOK_TEXT) + RAW.flush(), "deflate"), WANTED, "passed"),
    "gzip that is asked for": (
        packed(gzip.compress(BOOK_TEXT), "gzip"),
        {**WANTED, "headers": {"Content-Encoding": "gzip"}},
        "passed",
    ),
    "gzip in two parts": (packed(gzip.compress(b'{"id"') + gzip.compress(b":1}"), "gzip"), WANTED, "passed"),
    "gzip without its end": (packed(gzip.compress(BOOK_TEXT)[:-1], "gzip"), WANTED, "not played"),
    "gzip, of which the second part has no end": (
        packed(gzip.compress(BOOK_TEXT) + gzip.compress(b" ")[:-9], "gzip"),
        WANTED,
        "not played",
    ),
    "deflate without its end": (packed(zlib.compress(BOOK_TEXT)[:-1], "deflate"), WANTED, "not played"),
    "gzip that isn't": (packed(b"{}", "gzip"), WANTED, "not played"),
    "another coding": (packed(b"{}", "br"), WANTED, "not played"),
    "gzip of 3 MB": (packed(gzip.compress(b" " * 3000000), "gzip"), WANTED, "not played"),
    "gzip of 3 MB in parts": (packed(gzip.compress(b" " * 600000) * 5, "gzip"), WANTED, "not played"),
    "a byte order mark": (Reply(headers=JSON_TYPE, body=b"\xef\xbb\xbf" + BOOK_TEXT), WANTED, "passed"),
    "a header in UTF-8": (Reply(headers=(*JSON_TYPE, ("X-Title", UTF_8)), body=BOOK_TEXT), TITLED, "passed"),
    "a header in Latin-1": (Reply(headers=(*JSON_TYPE, ("X-Title", "f\u00fcr Ada")), body=BOOK_TEXT), TITLED, "passed"),
    "a picture": (Reply(headers=(("Content-Type", "image/png"),), body=b"abc"), {"status": 200}, "not played"),
    "depth that nobody asks for": (
        Reply(headers=JSON_TYPE, body=b'{"id":1,"deep":' + b"[" * 120 + b"]" * 120 + b"}"),
        WANTED,
        "passed",
    ),
    "depth that is asked for": (
        Reply(headers=JSON_TYPE, body=b"[" * 120 + b"]" * 120),
        {**WANTED, "body": [[1]]},
        "not played",
    ),
    "depth without an end": (Reply(headers=JSON_TYPE, body=b"[" * 5000 + b"]" * 5000), WANTED, "not played"),
    "a number that is too large": (Reply(headers=JSON_TYPE, body=b'{"id":1,"n":1e30}'), WANTED, "passed"),
    "a number that is too large for any reader": (book(b'"n":1e400'), WANTED, "passed"),
    "a whole one": (book(b'"n":[1%s]' % (b"0" * 400)), WANTED, "passed"),
    "one that is asked for": (Reply(headers=JSON_TYPE, body=b'{"id":1e400}'), WANTED, "not played"),
    "half of a character": (book(b'"bio":{"first":"hello \\ud83d"}'), WANTED, "passed"),
    "half of a character in a key": (book(b'"\\ud83d":1,"a":{"\\ude00":1}'), WANTED, "passed"),
    "two halves in their order": (book(b'"bio":"\\ud83d\\ude00"'), {**WANTED, "body": {"bio": "\U0001f600"}}, "passed"),
    "half of a character that is asked for": (book(b'"bio":"\\ud83d"'), {**WANTED, "body": {"bio": "a"}}, "not played"),
    "half of a character in a key by an equality": (
        book(b'"\\ud83d":1'),
        {**WANTED, "matchingRules": {"body": {"$": {"matchers": [{"match": "equality"}]}}}},
        "not played",
    ),
    "a fraction that isn't compared": (
        Reply(headers=JSON_TYPE, body=b'{"id":1,"price":19.99,"at":{"lat":52.5}}'),
        WANTED,
        "passed",
    ),
    "a fraction that is compared": (Reply(headers=JSON_TYPE, body=b'{"id":1.5}'), WANTED, "not played"),
    "a fraction by an equality": (
        Reply(headers=JSON_TYPE, body=b'{"id":1,"price":19.99}'),
        {**WANTED, "matchingRules": {"body": {"$": {"matchers": [{"match": "equality"}]}}}},
        "not played",
    ),
}


@pytest.mark.parametrize("name", REPLIES)
def test_what_it_answers(name: str, fleet: Server, client: Client) -> None:
    reply, response, outcome = REPLIES[name]
    publish_book(fleet, "10", one(response=response))
    with Stock({"GET /1": reply}) as stock:
        status, told = verified(client, stock.url)
    same(name, (status, told["played"][0]["outcome"]), ({"passed": 0, "not played": 3}[outcome], outcome))
    stored = rows(fleet)
    same("what is stored", stored and stored[0]["success"], True if outcome == "passed" else None)


def test_what_was_left_out(fleet: Server, client: Client) -> None:
    """Members that nobody asks for and the broker can't take are named, in JSON, and in the table as a terminal may get
    them."""
    publish_book(fleet, "10", one())
    with Stock({"GET /1": book(b'"price":19.99,"at":{"lat":52.5},"\\u001bc":0.5')}) as stock:
        told = verified(client, stock.url)[1]
        output = client.done("blue", *words(stock.url, "p2"))
    same("in JSON", told["played"][0]["leftOut"], ["$.price", "$.at", "$.\x1bc"])
    wanted = "  left out, since the contract doesn't ask for it and the broker can't take it: a book: $.price; a book: "
    same("in the table", output.split("\n")[2], wanted + "$.at; a book: $.\\u{1b}c")


def test_a_fraction_that_is_asked_for(fleet: Server, client: Client) -> None:
    """It is said where it is, and what can be written instead."""
    publish_book(fleet, "10", one())
    with Stock({"GET /1": Reply(headers=JSON_TYPE, body=b'{"id":0.5}')}) as stock:
        told = verified(client, stock.url)[1]
    why = told["played"][0]["why"]
    same("the place", why.startswith("the provider's body has 0.5 at $.id, which the contract asks for"), True)
    same("what to write", "a text, as 19.99 in quotes, or a smaller unit, as 1999 cents" in why, True)
