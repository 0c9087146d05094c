"""The one request: its bytes and those of an answer, who asks, and how what came differs from what was wanted."""
import difflib, http.client, pprint, re, socket
from typing import NamedTuple

# How many seconds anything is waited for.
PATIENCE = 120
Address = tuple[str, int]
OFFICE = "office-token-0001"
PHRASES = {
    200: "OK",
    400: "Bad Request",
    401: "Unauthorized",
    403: "Forbidden",
    404: "Not Found",
    405: "Method Not Allowed",
    409: "Conflict",
    413: "Payload Too Large",
    422: "Unprocessable Entity",
    431: "Request Header Fields Too Large",
    500: "Internal Server Error",
    501: "Not Implemented",
    503: "Service Unavailable",
}


class Wrong(AssertionError):
    """What is otherwise than it has to be."""


class NotRun(Exception):
    """Why something can't be tried here: it fails, or with --allow-not-run is skipped."""


class Answer(NamedTuple):
    """An answer: its status, its fields by their names in small letters, and its body."""

    status: int
    headers: dict[str, str]
    body: str


# What differs


def lines_of(value: object) -> list[str]:
    """A value in lines that can be compared one by one: those of a text or a message, JSON cut after each comma and
    bracket."""
    if isinstance(value, bytes):
        value = value.decode(errors="backslashreplace")
    text = value if isinstance(value, str) else pprint.pformat(value, width=100)
    return re.sub(r"(?<=[,{\[])(?=[\"{\[])", "\n", text.replace("\r\n", "\n")).split("\n")


def difference(wanted: object, got: object) -> str:
    """How what came differs from what was wanted, line by line, each cut at 300 characters."""
    if type(wanted) is not type(got):
        return f"wanted {wanted!r:.600}\ngot    {got!r:.600}"
    rows = difflib.unified_diff(lines_of(wanted), lines_of(got), "wanted", "got", lineterm="", n=2)
    shown = [it if len(it) <= 300 else f"{it[:300]}.. ({len(it)} characters)" for it in rows]
    more = [f".. and {len(shown) - 60} more lines"] if len(shown) > 60 else []
    return "\n".join(shown[:60] + more) or f"wanted {wanted!r:.600}\ngot    {got!r:.600}"


def same(what: object, got: object, wanted: object) -> None:
    """Fails with the difference, unless what came of this is what was wanted."""
    __tracebackhide__ = True
    if got != wanted:
        raise Wrong(f"{what}:\n{difference(wanted, got)}")


# Messages


def request(method: str, path: str, token: str | None = OFFICE, body: str | bytes = b"", fields: str = "") -> bytes:
    """The bytes of a request by this token, if there is one; `fields` are others of its head, each with its CRLF."""
    text = body.encode() if isinstance(body, str) else body
    caller = f"authorization: Bearer {token}\r\n" if token is not None else ""
    head = f"{method} {path} HTTP/1.1\r\nhost: b\r\n{caller}{fields}content-length: {len(text)}\r\n\r\n"
    return head.encode() + text


def answer(status: int, body: str | bytes, fields: list[str] | None = None) -> bytes:
    """The bytes of an answer, with these fields beside those of each."""
    text = body.encode() if isinstance(body, str) else body
    lines = [f"HTTP/1.1 {status} {PHRASES[status]}", "content-type: application/json", f"content-length: {len(text)}"]
    lines += ["www-authenticate: Bearer"] if status == 401 else []
    return "".join(it + "\r\n" for it in [*lines, *(fields or []), ""]).encode() + text


def head_in(text: bytes) -> tuple[Answer, int]:
    """The answer with which a stream begins, without its body, and the length of its head."""
    head, end, _ = text.partition(b"\r\n\r\n")
    if not end:
        raise Wrong(f"an answer that is cut: {text[:500]!r}")
    first, *lines = head.decode().split("\r\n")
    headers = {name.lower(): value.strip() for name, _, value in (it.partition(":") for it in lines)}
    return Answer(int(first.split(" ")[1]), headers, ""), len(head + end)


def answers_in(text: bytes) -> list[Answer]:
    """The answers that follow one another in a stream, each of the length that its head says."""
    found = []
    while text:
        head, begin = head_in(text)
        end = begin + int(head.headers.get("content-length", 0))
        if end > len(text):
            raise Wrong(f"an answer that is cut: {text[:500]!r}")
        found.append(head._replace(body=text[begin:end].decode()))
        text = text[end:]
    return found


def bodies(text: bytes) -> list[str]:
    return [it.body for it in answers_in(text)]


def all_of(peer: socket.socket) -> bytes:
    """What comes until the other end closes the connection."""
    text = b""
    try:
        while more := peer.recv(1 << 16):
            text += more
    except ConnectionResetError:
        pass
    return text


def next_answer(peer: socket.socket) -> Answer:
    """The next answer, which has to come whole, before anything else is asked there."""
    text = b""
    while True:
        head, end, rest = text.partition(b"\r\n\r\n")
        length = re.search(rb"(?i)\r\ncontent-length: *(\d+)", head)
        if end and len(rest) >= int(length[1] if length else 0):
            return answers_in(text)[0]
        if not (more := peer.recv(1 << 16)):
            raise ConnectionResetError(f"the connection is closed after {text!r}")
        text += more


# Who asks


class Caller:
    """Who asks a broker, at an address of this machine, with a connection for each request."""

    address: Address
    office = OFFICE

    def open(self) -> socket.socket:
        it = socket.create_connection(self.address, PATIENCE)
        it.setsockopt(socket.IPPROTO_TCP, socket.TCP_NODELAY, 1)
        return it

    def ask(self, method: str, path: str, token: str | None = OFFICE, body: str | bytes = b"") -> Answer:
        """The answer to a request."""
        with self.open() as peer:
            peer.sendall(request(method, path, token, body))
            came = http.client.HTTPResponse(peer, method=method)
            came.begin()
            return Answer(came.status, {name.lower(): it for name, it in came.getheaders()}, came.read().decode())

    def gives(
        self, wanted: tuple[int, str], method: str, path: str, token: str | None = OFFICE, body: str = ""
    ) -> None:
        """Fails with the request and the difference, unless its answer has this status and this body."""
        __tracebackhide__ = True
        status, _, text = self.ask(method, path, token, body)
        same(f"{method} {path} {body}".strip(), (status, text), wanted)

    def do(self, method: str, path: str, token: str | None = OFFICE, body: str = "") -> None:
        """Asks for what has to be done: it is answered 200, and that it is done."""
        __tracebackhide__ = True
        status, _, text = self.ask(method, path, token, body)
        if status != 200 or not text.startswith('{"answer":"done"'):
            raise Wrong(f"{method} {path} {body}: it isn't done, but answered {status} {text}")

    def send(self, *messages: bytes) -> list[str]:
        """The bodies of the answers to these messages, on one connection."""
        with self.open() as peer:
            peer.sendall(b"".join(messages))
            peer.shutdown(socket.SHUT_WR)
            return bodies(all_of(peer))
