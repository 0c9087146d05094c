"""Requests over HTTP/1.1, each with an end by the clock; no redirect is followed."""
import contextlib, http.client, socket, ssl, threading
from typing import Any, Dict, Iterator, List, NamedTuple, Optional

from holzhebo.api.address import Address, Way
from holzhebo.faults import Json
from holzhebo.text import reason

MOST_BYTES = 1048576


class Answer(NamedTuple):
    """An answer; `was_repeated` if an earlier attempt may have arrived too; `is_open` if it was a POST, and an attempt of
    it may have arrived."""

    status: int
    headers: http.client.HTTPMessage
    content: bytes
    was_repeated: bool = False
    is_open: bool = False

    def json(self) -> Json:
        """What the body says, None if it isn't JSON."""
        import json

        try:
            return json.loads(self.content)
        except (ValueError, RecursionError):
            return None

    def text(self) -> str:
        return self.content.decode("utf-8", "replace")


class NoAnswer(Exception):
    """Why there is no answer. `was_sent`: the request may have arrived; `is_closed`: the other side closed without a
    word; `is_limit`: there is one, and it is more than this client reads."""

    def __init__(self, why: str, was_sent: bool, is_closed: bool = False, is_limit: bool = False) -> None:
        super().__init__(why)
        self.was_sent, self.is_closed, self.is_limit = was_sent, is_closed, is_limit


class Untrusted(NoAnswer):
    """The certificate of the other side isn't trusted: nothing was sent, and it is no use to try it again."""


class Request(NamedTuple):
    method: str
    target: str
    headers: Dict[str, str]
    body: Optional[bytes]

    def in_utf_8(self) -> Dict[str, str]:
        """The headers, with a letter for each byte of UTF-8, as http.client sends them."""
        return {key: it.encode("utf-8", "surrogatepass").decode("latin-1") for key, it in self.headers.items()}


class Response(http.client.HTTPResponse):
    """An answer, after the hints that may come before it: those of a status from 102 to 199."""

    def _read_status(self) -> Any:
        while True:
            found = getattr(super(), "_read_status")()
            if not 102 <= found[1] <= 199:
                return found
            http.client.parse_headers(self.fp)


def ask_for_life(peer: socket.socket) -> None:
    """Asks the other end each five seconds whether it is there. A machine that is lost says nothing more; the one that
    has its address then resets the connection, and the request may be repeated."""
    peer.setsockopt(socket.SOL_SOCKET, socket.SO_KEEPALIVE, 1)
    for name, value in ("TCP_KEEPIDLE", 5), ("TCP_KEEPINTVL", 5), ("TCP_KEEPCNT", 100):
        if hasattr(socket, name):
            peer.setsockopt(socket.IPPROTO_TCP, getattr(socket, name), value)


class Watched(http.client.HTTPConnection):
    """A connection whose other end is asked for life."""

    def connect(self) -> None:
        super().connect()
        ask_for_life(self.sock)


class SecureWatched(Watched):
    """The same with TLS, by the name of the other end: it is asked for life while it shakes hands too."""

    default_port = http.client.HTTPS_PORT

    def __init__(self, host: str, port: int, timeout: float, context: ssl.SSLContext, name: str) -> None:
        super().__init__(host, port, timeout=timeout)
        self.context, self.name = context, name

    def connect(self) -> None:
        super().connect()
        self.sock = self.context.wrap_socket(self.sock, server_hostname=self.name)


def line_to(address: Address, seconds: float, way: Way = Way()) -> http.client.HTTPConnection:
    """A connection that isn't open yet."""
    proxy = way.between()
    first = proxy or address
    line: http.client.HTTPConnection
    if address.is_https:
        line = SecureWatched(first.host, first.port, seconds, way.context(), address.host)
        if proxy:
            line.set_tunnel(address.host, address.port, proxy.fields)
    else:
        line = Watched(first.host, first.port, timeout=seconds)
    line.response_class = Response
    return line


def by_way(request: Request, address: Address, way: Way) -> Request:
    """The request as this way takes it: a proxy that reads it gets the whole address, and who asks."""
    proxy = way.between()
    if proxy is None or address.is_https:
        return request
    target = f"http://{address.name()}{request.target}"
    return request._replace(target=target, headers={**request.headers, **proxy.fields})


@contextlib.contextmanager
def ended_after(line: http.client.HTTPConnection, seconds: float) -> Iterator[threading.Event]:
    """Ends what goes on over the connection after this time, however slowly the other side answers."""
    is_over = threading.Event()

    def end() -> None:
        is_over.set()
        with contextlib.suppress(OSError, AttributeError):
            line.sock.shutdown(socket.SHUT_RDWR)

    timer = threading.Timer(seconds, end)
    timer.daemon = True
    timer.start()
    try:
        yield is_over
    finally:
        timer.cancel()


class Line:
    """A connection to an address, which is kept from one request to the next if the other side keeps it."""

    def __init__(self, address: Address, way: Way = Way()) -> None:
        self.address, self.way = address, way
        self.line: Optional[http.client.HTTPConnection] = None

    def close(self) -> None:
        if self.line is not None:
            self.line.close()
        self.line = None

    def exchange(self, request: Request, seconds: float, most: int = MOST_BYTES, is_new: bool = False) -> Answer:
        """Sends a request; the answer may have so many bytes. What was kept may have been closed meanwhile: then the
        request is sent once more on a new connection, unless it has to be a new one from the beginning."""
        was_kept = self.line is not None and not is_new
        try:
            return self.attempt(request, seconds, most, is_new)
        except NoAnswer as why:
            if not (was_kept and why.is_closed):
                raise
        try:
            return self.attempt(request, seconds, most, True)._replace(was_repeated=True)
        except NoAnswer as why:  # the first of the two may have arrived
            raise NoAnswer(str(why), True, why.is_closed or not why.was_sent, why.is_limit) from None

    def attempt(self, request: Request, seconds: float, most: int, is_new: bool) -> Answer:
        if is_new:
            self.close()
        line = self.line or line_to(self.address, seconds, self.way)
        self.line = None
        try:
            answer, is_kept = exchange_on(line, by_way(request, self.address, self.way), seconds, most)
        except BaseException:
            line.close()
            raise
        if is_kept:
            self.line = line
        else:
            line.close()
        return answer


def connect(line: http.client.HTTPConnection) -> None:
    """Opens a connection within its time. Names, several addresses and TLS can't be ended together from outside, so
    they have a thread of their own, which is left if it is late."""
    ended: List[Optional[BaseException]] = []
    is_left = threading.Event()

    def attempt() -> None:
        try:
            line.connect()
            ended.append(None)
        except BaseException as why:
            ended.append(why)
        if is_left.is_set():
            line.close()

    worker = threading.Thread(target=attempt, daemon=True)
    worker.start()
    worker.join(line.timeout)
    if not ended or isinstance(ended[0], socket.timeout):
        is_left.set()
        raise NoAnswer(f"doesn't answer within {line.timeout:g} seconds", False)
    why = ended[0]
    if isinstance(why, ssl.SSLCertVerificationError):
        raise Untrusted(reason(why), False) from None
    if isinstance(why, (OSError, http.client.HTTPException, UnicodeError)):
        is_refused = isinstance(why, ConnectionRefusedError)
        raise NoAnswer("refuses the connection" if is_refused else reason(why), False) from None
    if why is not None:
        raise why


def exchange_on(line: http.client.HTTPConnection, request: Request, seconds: float, most: int) -> "tuple[Answer, bool]":
    """The answer to a request on a connection, and whether the connection can be used again."""
    late = f"doesn't answer within {seconds:g} seconds"
    has_head = False
    with ended_after(line, seconds) as is_over:
        try:
            if line.sock is None:
                connect(line)
            line.request(request.method, request.target, request.body, request.in_utf_8())
            answer = line.getresponse()
            has_head = True
            if answer.headers.get_content_type() == "text/event-stream":
                raise NoAnswer("answers a stream of events", True, False, True)
            content = answer.read(most + 1)
        except NoAnswer:
            if is_over.is_set():
                raise NoAnswer(late, False) from None
            raise
        except (OSError, http.client.HTTPException) as why:
            if is_over.is_set() or isinstance(why, socket.timeout):
                raise late_one(late, has_head) from None
            raise broken_off(why) from None
    if is_over.is_set():
        raise late_one(late, has_head)
    if len(content) > most:
        raise NoAnswer(f"answers more than {most} bytes", True, False, True)
    if answer.length:
        raise NoAnswer("closes in the middle of an answer", True, True)
    return Answer(answer.status, answer.msg, content), not answer.will_close and answer.isclosed()


def late_one(late: str, has_head: bool) -> NoAnswer:
    if has_head:
        return NoAnswer("sends an answer without an end, or too slowly", True, False, True)
    return NoAnswer(late, True)


CLOSED = (ConnectionError, ssl.SSLEOFError, http.client.RemoteDisconnected, http.client.IncompleteRead)


def broken_off(why: Exception) -> NoAnswer:
    if isinstance(why, CLOSED):
        middle = isinstance(why, http.client.IncompleteRead)
        return NoAnswer("closes in the middle of an answer" if middle else "closes without an answer", True, True)
    is_limit = isinstance(why, http.client.LineTooLong) or "headers" in str(why)
    return NoAnswer(reason(why), True, False, is_limit)


def exchange(address: Address, request: Request, seconds: float, most: int = MOST_BYTES) -> Answer:
    """Sends a request on a connection of its own."""
    line = Line(address)
    try:
        return line.exchange(request, seconds, most, True)
    finally:
        line.close()
