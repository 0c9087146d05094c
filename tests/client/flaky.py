"""A broker that answers by a list of statuses."""
import json, socket, threading
from collections.abc import Iterator
from typing import Any, Dict, List
import pytest
from tests.client.tools import Asked, Reply, Serving

EMPTY = {"answer": "shown", "environment": "live", "gated": True, "deployed": [], "released": []}
PROXY, MANY = b"<html>a proxy</html>", 429
SAID = {200: b'{"answer":"done","result":1,"content":1}', 404: b'{"answer":"unknown","what":"deployed"}'}


class FlakyBroker(Serving):
    """A broker that answers changes by a list: a status, or 0 to close without an answer. After each of them it calls
    what is to happen meanwhile. What is in an environment it says as `there` has it."""

    def __init__(self, port: int = 0) -> None:
        super().__init__(self.next, port)
        self.list: List[int] = []
        self.headers: Dict[str, str] = {}
        self.there: List[Dict[str, str]] = []
        self.bodies: List[bytes] = []
        self.count = 0
        self.meanwhile: Any = lambda: None

    def set(self, statuses: List[int], **more: Any) -> None:
        self.list, self.count, self.bodies = list(statuses), 0, []
        self.headers, self.there, self.meanwhile = {}, [], lambda: None
        self.__dict__.update(more)

    def next(self, it: Asked) -> Reply:
        status, said = 200, json.dumps({**EMPTY, "deployed": self.there}).encode()
        if it.method != "GET":
            status = self.list.pop(0) if self.list else 200
            self.count += 1
            self.bodies.append(it.body)
            self.meanwhile()
            said = SAID.get(status, PROXY)
        return Reply(status, tuple(self.headers.items()), said)

    def goes(self) -> None:
        """Its port is closed for a moment."""
        self.shutdown()
        self.server_close()
        threading.Timer(0.5, self.comes_back).start()

    def comes_back(self) -> None:
        self.socket = socket.create_server(("127.0.0.1", self.port))
        self.__enter__()


@pytest.fixture
def flaky() -> Iterator[FlakyBroker]:
    with FlakyBroker() as it:
        yield it
