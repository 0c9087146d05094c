"""The page on this machine: a small server that gives its files, and hands each GET on to a broker.

It listens on 127.0.0.1 only. A token that only reads becomes the office's, of GET and of nothing else; any other token
goes through as it is. What isn't a GET, isn't asked of this address, or is asked by another site's page is refused, so
that such a page can't ask by way of the browser. Nothing is logged. It is for one machine: for a network there are the
proxies of examples/."""
import hmac, http.client, re, socket, socketserver, sys, threading, time
from typing import Any, Callable, Dict, List, NamedTuple, Tuple

from holzhebo.api.address import Address, Way
from holzhebo.api.http import Request as Asked
from holzhebo.api.http import by_way, line_to

HOST = "127.0.0.1"
# The broker's own limit of a head; and how much of an answer, or of a body that nobody wants, is read.
MOST_HEAD, MOST_ANSWER, MOST_BODY = 16384, 64 << 20, 2 << 20
# How many requests are worked on at once, and the seconds for a head, for an answer, and for a client to close.
MOST_AT_ONCE, HEAD_TIME, ANSWER_TIME, CLOSE_TIME = 32, 10.0, 60.0, 2.0
POLICY = (
    "default-src 'none'; script-src 'self'; style-src 'self'; connect-src 'self';"
    " frame-ancestors 'none'; base-uri 'none'; form-action 'none'"
)
Fields = List[Tuple[str, str]]
SAFE: Fields = [
    ("content-security-policy", POLICY),
    ("x-content-type-options", "nosniff"),
    ("referrer-policy", "no-referrer"),
]
# The files of the page by their endings, and nothing else of its folder.
KINDS = {"html": "text/html", "js": "text/javascript", "css": "text/css", "json": "application/json"}
ASKS = re.compile(r"([!-~]+) ([!-~]+) HTTP/1\.[01]")
FIELD = re.compile(r"([\w!#$%&'*+.^`|~-]+):[ \t]*([\t -~\x80-\xff]*?)[ \t]*", re.ASCII)


class Answer(NamedTuple):
    """What is answered."""

    status: int
    kind: str
    body: bytes
    fields: Fields


class Refused(Exception):
    """Why a request isn't answered as it wants: a status, and a sentence."""

    def __init__(self, status: int, why: str) -> None:
        super().__init__(why)
        self.answer = Answer(status, "text/plain; charset=utf-8", f"{why}\n".encode(), [("cache-control", "no-store")])
        if status == 405:
            self.answer.fields.append(("allow", "GET"))


class Closed(Exception):
    """The client has closed its connection, or was silent."""


class Request(NamedTuple):
    """The head of a request."""

    method: str
    target: str
    fields: Fields

    def all(self, name: str) -> List[str]:
        return [value for key, value in self.fields if key.lower() == name]


def pages(files: Dict[str, bytes]) -> Dict[str, Answer]:
    """What is at each path of the page."""
    found = {}
    for name, content in files.items():
        ending = name.rpartition(".")[2]
        if ending in KINDS:
            kind = f"{KINDS[ending]}; charset=utf-8"
            found[f"/desk/{name}"] = Answer(200, kind, content, [("cache-control", "no-cache")])
    found["/desk/"] = found["/desk/index.html"]
    found["/"] = found["/desk"] = Answer(302, "text/plain; charset=utf-8", b"", [("location", "/desk/")])
    return found


# Requests, and the bytes of an answer


def head_of(line: socket.socket) -> bytes:
    """The bytes of a head, all of which come in time."""
    got, until = b"", time.monotonic() + HEAD_TIME
    while b"\r\n\r\n" not in got:
        line.settimeout(max(0.001, until - time.monotonic()))
        try:
            more = line.recv(4096)
        except socket.timeout:
            raise Refused(408, "The request didn't come whole in time.") if got else Closed() from None
        if not more:
            raise Closed()
        got += more
        if len(got.split(b"\r\n\r\n")[0]) > MOST_HEAD:
            raise Refused(431, f"The head of the request has more than {MOST_HEAD} bytes.")
    return got.split(b"\r\n\r\n")[0]


def request_of(head: bytes) -> Request:
    first, *rest = head.decode("latin-1").split("\r\n")
    asks, fields = ASKS.fullmatch(first), [FIELD.fullmatch(it) for it in rest]
    if not asks or not all(fields):
        raise Refused(400, "This isn't a request of HTTP/1.1.")
    return Request(asks[1], asks[2], [(it[1], it[2]) for it in fields if it])


def text_of(answer: Answer, is_head: bool) -> bytes:
    """The bytes of an answer; one to HEAD has no body."""
    fields = [*SAFE, *answer.fields, ("content-type", answer.kind), ("content-length", str(len(answer.body)))]
    lines = [f"HTTP/1.1 {answer.status} {http.client.responses.get(answer.status, '')}", "connection: close"]
    text = "\r\n".join([*lines, *(f"{name}: {value}" for name, value in fields), "", ""])
    return text.encode("latin-1") + (b"" if is_head else answer.body)


def close_by(line: socket.socket) -> None:
    """Reads what the client still sends, since closing before that may lose it the answer."""
    line.shutdown(socket.SHUT_WR)
    left, until = MOST_BODY, time.monotonic() + CLOSE_TIME
    while left > 0 and time.monotonic() < until:
        line.settimeout(max(0.001, until - time.monotonic()))
        got = line.recv(65536)
        if not got:
            return
        left -= len(got)


class Connection(socketserver.BaseRequestHandler):
    """One request and its answer."""

    request: socket.socket
    server: "Desk"

    def handle(self) -> None:
        method = ""
        try:
            request = request_of(head_of(self.request))
            method = request.method
            answer = self.server.answer(request)
        except Refused as why:
            answer = why.answer
        except Closed:
            return
        self.request.settimeout(ANSWER_TIME)
        self.request.sendall(text_of(answer, method == "HEAD"))
        close_by(self.request)


class Desk(socketserver.ThreadingTCPServer):
    """The server. It listens once it is made, and hands GETs on while `is_there` says that the broker is."""

    allow_reuse_address, daemon_threads, request_queue_size = True, True, 64

    def __init__(self, port: int, files: Dict[str, bytes], broker: Address, way: Way = Way()) -> None:
        super().__init__((HOST, port), Connection)
        self.port, self.pages, self.broker, self.way = port, pages(files), broker, way
        # A token that only reads, and the office's, which the broker gets in its place.
        self.reading = self.office = ""
        self.is_there: Callable[[], bool] = lambda: True
        self.names = [f"{it}:{port}" for it in (HOST, "localhost")] + ([HOST, "localhost"] if port == 80 else [])
        self.free = threading.Semaphore(MOST_AT_ONCE)

    def give_names(self, names: bytes) -> None:
        """Gives the page this desk.json."""
        usual = self.pages["/desk/desk.json"]
        self.pages["/desk/desk.json"] = usual._replace(body=names)

    def fields_for(self, request: Request) -> List[str]:
        """What the broker gets as authorization."""
        return [self.exchanged(it) for it in request.all("authorization")]

    def process_request(self, request: Any, client_address: Any) -> None:
        """Begins with a connection; the next one waits while there are as many as may be."""
        self.free.acquire()
        try:
            super().process_request(request, client_address)
        except BaseException:
            self.free.release()
            raise

    def process_request_thread(self, request: Any, client_address: Any) -> None:
        try:
            super().process_request_thread(request, client_address)
        finally:
            self.free.release()

    def handle_error(self, request: Any, client_address: Any) -> None:
        """Of a fault only its kind is written, since its text may have a token; a client that goes away is none."""
        kind = sys.exc_info()[0]
        if kind and not issubclass(kind, OSError):
            print(f"the page's server: {kind.__name__}", file=sys.stderr, flush=True)

    def answer(self, request: Request) -> Answer:
        self.permits(request)
        path = request.target.split("?")[0]
        if path in self.pages:
            return self.pages[path]
        if path.startswith("/desk/"):
            raise Refused(404, "The page has no such file.")
        return self.handed_on(request)

    def permits(self, request: Request) -> None:
        """Refuses what another site's page, or anybody who isn't here, may have asked, and what isn't a plain GET."""
        hosts, sites = request.all("host"), request.all("sec-fetch-site")
        if len(hosts) != 1 or hosts[0].lower() not in self.names:
            raise Refused(421, f"This is http://{self.names[0]}/desk/, and no other address.")
        if any(it.lower() != f"http://{hosts[0].lower()}" for it in request.all("origin")):
            raise Refused(403, "A page of another origin may not ask here.")
        is_own = all(it in ("same-origin", "none") for it in sites) or request.all("sec-fetch-mode") == ["navigate"]
        if not is_own:
            raise Refused(403, "A page of another site may not ask here.")
        if request.method != "GET":
            raise Refused(405, "Here one can only read: ask the broker itself to change something.")
        if request.all("transfer-encoding") or any(it != "0" for it in request.all("content-length")):
            raise Refused(400, "A GET has no body here.")
        if not request.target.startswith("/"):
            raise Refused(400, "This isn't a path.")

    def exchanged(self, field: str) -> str:
        """What the broker gets as authorization: of the token that only reads the office's."""
        reads = hmac.compare_digest(field.encode("latin-1"), f"Bearer {self.reading}".encode("latin-1"))
        return f"Bearer {self.office}" if reads and self.reading else field

    def handed_on(self, request: Request) -> Answer:
        if not self.is_there():
            raise Refused(502, "The broker isn't there yet, or no longer.")
        line, target = line_to(self.broker, ANSWER_TIME, self.way), self.broker.path.rstrip("/") + request.target
        asked = by_way(Asked("GET", target, {}, None), self.broker, self.way)
        try:
            line.putrequest(asked.method, asked.target, skip_accept_encoding=True)
            for name, it in [*asked.headers.items(), *(("authorization", it) for it in self.fields_for(request))]:
                line.putheader(name, it)
            line.putheader("connection", "close")
            line.endheaders()
            return whole(line.getresponse())
        except socket.timeout:
            raise Refused(504, "The broker doesn't answer in time.") from None
        except (OSError, http.client.HTTPException):
            raise Refused(502, "The broker doesn't answer, or not as a broker does.") from None
        finally:
            line.close()


def whole(reply: http.client.HTTPResponse) -> Answer:
    """The answer of the broker, with its body and what it says of that."""
    if reply.length is None or reply.length > MOST_ANSWER:
        raise Refused(502, "The broker's answer has no length, or is too long for here.")
    kept = [(name, value) for name in ("allow", "www-authenticate") for value in reply.headers.get_all(name, [])]
    kind = reply.headers.get("content-type", "application/octet-stream")
    fields = [(name, " ".join(value.split())) for name, value in kept]
    return Answer(reply.status, " ".join(kind.split()), reply.read(), [*fields, ("cache-control", "no-store")])
