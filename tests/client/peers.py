"""Who answers `holzhebo verify` in the tests: contracts of one interaction, peers that answer by a function,
proxies."""
import json, socket, threading
from collections.abc import Callable
from typing import Any, List, Optional, Tuple, TypeVar
from tests.client.books import book_pact, interaction
from tests.client.tools import Asked, Client, Reply, Serving
from tests.process import Server
from tests.wire import same
from tests.world import BLUE

JSON_TYPE = (("Content-Type", "application/json"),)
BOOK_TEXT = b'{"id":1}'
WANTED: Any = {"status": 200, "headers": {"Content-Type": "application/json"}, "body": {"id": 1}}


def one(description: str = "a book", request: Any = None, response: Any = None, states: Any = ()) -> Any:
    """A contract of one interaction."""
    return {
        **book_pact(),
        "interactions": [interaction(description, request or {"path": "/1"}, response or WANTED, states)],
    }


def words(url: str, version: str = "p1", *more: str) -> List[str]:
    return ["verify", "--provider", "stock", "--version", version, "--url", url, "--contract", "shop", "10", *more]


def verified(client: Client, url: str, *more: str) -> Tuple[int, Any]:
    """The status, and the one contract as JSON has it."""
    done = client.run("blue", *words(url), "--json", *more)
    return done.status, json.loads(done.output)[0]


def rows(fleet: Server, version: str = "p1") -> Any:
    """The results of a version of stock; None if the broker doesn't know it."""
    return json.loads(fleet.ask("GET", f"/matrix?pacticipant=stock&version={version}", BLUE).body).get("rows")


def nothing_is_stored(fleet: Server, status: int, told: Any, why: str) -> None:
    same(
        "it is not played",
        (status, told["outcome"], [it["outcome"] for it in told["played"]]),
        (3, "not sent", ["not played"]),
    )
    same("why", told["played"][0]["why"], why)
    same("what is stored", rows(fleet), None)


Itself = TypeVar("Itself", bound="Peer")


class Peer:
    """What answers each connection by a function of it, and counts them."""

    def __init__(self, answer: Callable[[socket.socket, int], None], port: int = 0) -> None:
        self.socket = socket.create_server(("127.0.0.1", port))
        self.answer, self.count = answer, 0
        self.url = f"http://127.0.0.1:{self.socket.getsockname()[1]}"

    def __enter__(self: Itself) -> Itself:
        threading.Thread(target=self.loop, daemon=True).start()
        return self

    def loop(self) -> None:
        while True:
            try:
                line = self.socket.accept()[0]
            except OSError:
                return
            self.count += 1
            threading.Thread(target=self.serve, args=(line, self.count), daemon=True).start()

    def serve(self, line: socket.socket, number: int) -> None:
        with line:
            try:
                self.answer(line, number)
            except OSError:
                return

    def __exit__(self, *_: Any) -> None:
        self.socket.shutdown(socket.SHUT_RDWR)
        self.socket.close()


def head(fields: str, status: str = "200 OK") -> bytes:
    return f"HTTP/1.1 {status}\r\n{fields}\r\n".encode()


RIGHT = head("content-type: application/json\r\ncontent-length: 8\r\nconnection: close\r\n") + b'{"id":1}'


def closes(line: socket.socket, _: int) -> None:
    """Takes a connection and closes it without a word, as a port of a container whose program isn't up does."""
    if line.recv(1):
        line.shutdown(socket.SHUT_RDWR)


class Proxy(Serving):
    """A proxy that hands requests on to a broker, unless it has an answer of its own."""

    def __init__(self, broker: Server) -> None:
        super().__init__(self.handed)
        self.broker = broker

    def handed(self, it: Asked) -> Reply:
        found = self.answers(it.method, it.path, it.headers["authorization"].split(" ")[1], it.body)
        return Reply(found[0], (), found[1].encode()) if found else Reply(0)

    def answers(self, method: str, path: str, token: str, body: bytes) -> Optional[Tuple[int, str]]:
        """The status and the text of the answer; None to close without one."""
        status, _, text = self.broker.ask(method, path, token, body)
        return status, text


DENIED = 403, '{"answer":"denied","rule":"A4"}'


class Refusing(Proxy):
    """One that has an answer of its own to results of one consumer, or to what else is asked of it by a method."""

    def __init__(self, broker: Server, part: str, method: str = "POST", answer: Tuple[int, str] = DENIED) -> None:
        super().__init__(broker)
        self.part, self.method, self.own = part, method, answer

    def answers(self, method: str, path: str, token: str, body: bytes) -> Optional[Tuple[int, str]]:
        if self.part in path and method == self.method:
            return self.own
        return super().answers(method, path, token, body)


class Judging(Proxy):
    """A broker that judges otherwise."""

    def __init__(self, broker: Server, verdict: str) -> None:
        super().__init__(broker)
        self.verdict = verdict

    def answers(self, method: str, path: str, token: str, body: bytes) -> Optional[Tuple[int, str]]:
        if method == "POST":
            return 200, f'{{"answer":"done",{self.verdict}}}'
        return super().answers(method, path, token, body)
