"""A contract of shop with stock, and a provider that keeps it."""
import json
from typing import Any
from tests.client.tools import BOOK, Reply
from tests.process import Server
from tests.world import RED

RULES = {"body": {"$.id": {"matchers": [{"match": "integer"}]}, "$.title": {"matchers": [{"match": "type"}]}}}
STATE = [{"name": "a shelf", "params": {"books": 2}}]


def interaction(description: str, request: Any, response: Any, states: Any = ()) -> Any:
    return {"description": description, "providerStates": list(states), "request": request, "response": response}


def book_pact(*more: Any) -> Any:
    """A contract of shop with stock, with requests of each form."""
    json_type = {"Content-Type": "application/json"}
    text_type, headers = {"Content-Type": "text/plain"}, {"X-Shop": ["a", "b"], "Content-Type": "application/json"}
    response = {"body": BOOK, "headers": json_type, "matchingRules": RULES}
    new_book = {"method": "POST", "path": "/books", "headers": headers, "body": {"title": "Ada & Co"}}
    note = {"method": "put", "path": "/a b/%2F/é", "query": {"q": ["1 & 2", "ü"], "r": ["x"]}, "headers": text_type}
    moved = {"status": 301, "headers": {"Location": "/new"}}
    interactions = [
        interaction("a book", {"path": "/books/1"}, response, STATE),
        interaction("a new book", new_book, {"status": 201}),
        interaction("a note", {**note, "body": "hello"}, {"status": 204}),
        interaction("an old path", {"path": "/old", "query": "a=1&b=%20"}, moved),
        interaction("no book", {"method": "DELETE", "path": "/books/9"}, {"status": 404, "body": None}),
    ]
    return {"consumer": {"name": "shop"}, "provider": {"name": "stock"}, "interactions": [*interactions, *more]}


KEPT = {
    "POST /books": Reply(201, (), b""),
    "PUT /a%20b/%2F/%C3%A9": Reply(204, (), b""),
    "GET /old": Reply(301, (("Location", "/new"),), b""),
    "DELETE /books/9": Reply(404, (), b""),
}


def publish_book(server: Server, version: str, file: Any) -> None:
    server.do("PUT", f"/pacts/provider/stock/consumer/shop/version/{version}", RED, json.dumps(file))
