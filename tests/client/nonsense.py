"""A broker, and a provider, that answers at random: statuses, shapes, bytes, half of an answer, late or not at all."""
import json, random, socket, time
from collections.abc import Callable
from typing import Any, List, Tuple
from tests.client.peers import Peer

SLOW = 0.4  # how many seconds a slow answer takes
STATUSES = [200] * 12 + [100, 204, 301, 400, 401, 403, 404, 404, 409, 409, 413, 422, 429, 500, 502, 503, 504, 599]
WORDS = ["done", "already", "shown", "denied", "unknown", "taken", "not permitted", "bad form", "full", 7, None, []]
WORDS += ["\u202e\x1b[31m"]
KEYS = """answer content result success failing deployed released environment gated strict faults permitted rows rule
what fault interactions consumer provider consumerVersion providerVersion kind evidence pacticipant version
instance""".split()
SCALARS: List[Any] = [None, True, False, 0, 1, -1, 2**70, 1.5, "", "a", "shop", "1", "\x1b[0m", "\ud83d\ude00", [], {}]
LACK = {"consumer": "shop", "consumerVersion": "1", "kind": "missing", "provider": "stock", "providerVersion": "1"}
THERE = {"instance": "", "pacticipant": "shop", "version": "1"}
ONE = {"description": "a", "providerStates": [], "request": {"path": "/1"}, "response": {"body": {"a": 1}}}
RIGHT: List[Any] = [
    {"answer": "done"},
    {"answer": "already"},
    {"answer": "done", "content": 1},
    {"answer": "done", "result": 1},
    {"answer": "done", "failing": [], "result": 1, "success": True},
    {"answer": "done", "failing": [0, 9], "result": 1, "success": False},
    {"answer": "shown", "environment": "live", "faults": [LACK], "gated": True, "permitted": False},
    {"answer": "shown", "rows": [{**LACK, "evidence": None, "result": None, "success": None}]},
    {"answer": "shown", "deployed": [THERE], "environment": "live", "gated": True, "released": []},
    {"answer": "denied", "rule": "A1"},
    {"answer": "unknown", "what": "contract"},
    {"answer": "unknown", "what": "environment"},
    {"answer": "unknown", "what": "pacticipant"},
    {"answer": "taken", "what": "name"},
    {"answer": "not permitted", "faults": [LACK]},
    {"answer": "bad form", "fault": "pact 6.1"},
    {"consumer": {"name": "shop"}, "provider": {"name": "stock"}, "interactions": [ONE]},
]


def value(rng: random.Random, levels: int = 3) -> Any:
    if levels == 0 or rng.random() < 0.3:
        return rng.choice(SCALARS)
    if rng.random() < 0.3:
        return [value(rng, levels - 1) for _ in range(rng.randrange(3))]
    return {rng.choice(KEYS): value(rng, levels - 1) for _ in range(rng.randrange(5))}


def changed(rng: random.Random, given: Any) -> Any:
    """The value with something in it changed."""
    if isinstance(given, dict) and given and rng.random() < 0.8:
        key = rng.choice(list(given))
        kept = {name: it for name, it in given.items() if name != key or rng.random() < 0.7}
        return {**kept, key: changed(rng, given[key])} if rng.random() < 0.7 else kept
    if isinstance(given, list) and given and rng.random() < 0.7:
        return [changed(rng, given[0]), *given[1:]]
    return rng.choice([rng.choice(WORDS), value(rng, 2)])


def head_of(status: int, body: bytes, fields: str = "content-type: application/json\r\n") -> bytes:
    return f"HTTP/1.1 {status} X\r\n{fields}connection: close\r\ncontent-length: {len(body)}\r\n\r\n".encode() + body


def answer_of(rng: random.Random, asked: bytes) -> bytes:
    """The bytes of an answer: a right one, one that is changed, or bytes of any kind."""
    choice = rng.random()
    if choice < 0.03:
        return b""
    if choice < 0.06:
        return bytes(rng.randrange(256) for _ in range(rng.randrange(200)))
    said = rng.choice(RIGHT)
    if choice > 0.6:
        said = changed(rng, said) if rng.random() < 0.7 else value(rng)
    whole = head_of(rng.choice(STATUSES), json.dumps(said).encode(), field(rng))
    if rng.random() < 0.06:
        at = rng.randrange(len(whole))
        return whole[:at] if rng.random() < 0.5 else whole[:at] + bytes([rng.randrange(256)]) + whole[at + 1 :]
    return whole


def field(rng: random.Random) -> str:
    kinds = ["application/json", "text/html", "text/event-stream", "application/json; charset=x", "image/png", ""]
    text = f"content-type: {rng.choice(kinds)}\r\n" if rng.random() < 0.5 else "content-type: application/json\r\n"
    return text + rng.choice(
        [""] * 8 + ["content-encoding: gzip\r\n", "retry-after: 0\r\n", "location: /x\r\n", "date: nonsense\r\n"]
    )


class Nonsense(Peer):
    """Who answers each request by a function of its bytes, and closes; or sends half of it, and the rest too late. It
    keeps what it was asked and what it answered since it began."""

    def __init__(self) -> None:
        super().__init__(self.talk)
        self.begin(lambda _: b"")

    def begin(self, said: Callable[[bytes], bytes], is_slow: Callable[[], bool] = lambda: False) -> None:
        self.said, self.is_slow, self.told = said, is_slow, list[Tuple[bytes, bytes]]()

    def talk(self, line: socket.socket, _: int) -> None:
        line.settimeout(5)
        if asked := request_on(line):
            answer = self.said(asked)
            half = len(answer) // 2 if self.is_slow() else 0
            self.told.append((asked, answer))
            line.sendall(answer[:half])
            time.sleep(SLOW if half else 0)
            line.sendall(answer[half:])


def request_on(line: socket.socket) -> bytes:
    """The bytes of a request, with its body."""
    text = b""
    while b"\r\n\r\n" not in text:
        more = line.recv(65536)
        if not more:
            return text
        text += more
    head, _, body = text.partition(b"\r\n\r\n")
    lines = [it.partition(b": ") for it in head.lower().split(b"\r\n")[1:]]
    fields = {name: text for name, _, text in lines}
    while len(body) < int(fields.get(b"content-length", b"0")):
        more = line.recv(65536)
        if not more:
            break
        body += more
    return head + body
