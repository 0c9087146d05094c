"""What the tests of the client share: the client as a build runs it, and who answers it, as a provider by a table.

The callers are those of world.py. No test prints a token: what the client prints is looked through. CLIENT_PYTHON names
another Python that runs the client, as one of a version that is to be tried."""
import http.server, json, os, sys, threading, time
from collections.abc import Callable, Sequence
from email.message import Message
from typing import Any, Dict, List, NamedTuple, Tuple, TypeVar
from tests.process import TOP, Ended, ran
from tests.wire import OFFICE, Wrong, same
from tests.world import BLUE, RED

CLIENT = f"{TOP}/client/holzhebo"
# Without the machine's own packages.
PYTHON = [os.environ.get("CLIENT_PYTHON", sys.executable), "-S", "-W", "error"]
SOURCES = f"{TOP}/client/src"
TOKENS = {"red": RED, "blue": BLUE, "office": OFFICE, "nobody": "nobody-has-this-token", "short": "short", "none": ""}
TOKENS["line"] = f"authorization: Bearer {RED}"


# The client


def secret(text: str) -> None:
    """No token is in the text."""
    for token in RED, BLUE, OFFICE:
        if token in text:
            raise Wrong(f"a token is shown: {text[:300]}")


def sound(errors: str) -> None:
    """The client shows no fault of its own."""
    if "Traceback" in errors or "a fault of this program" in errors:
        raise Wrong(f"a fault of the client: {errors[-2000:]}")


def told(words: Sequence[str], text: "str | bytes" = b"", **settings: Any) -> Ended:
    """How these words, which run the client, end; what is printed has no token, and no fault of the client's own."""
    done = ran(words, text, **settings)
    secret(done.output + done.errors)
    sound(done.errors)
    return done


class Client:
    """The client, as a build or a person at this room runs it."""

    def __init__(self, room: str, url: str) -> None:
        self.room, self.url = room, url
        for name, token in TOKENS.items():
            with open(f"{room}/{name}.token", "w", encoding="utf-8") as it:
                it.write(token + "\n")

    def env(self, caller: str) -> Dict[str, str]:
        lost = ("HOLZHEBO_", "PACT_BROKER_", "XDG_CONFIG_HOME")
        kept = {
            key: it for key, it in os.environ.items() if not key.startswith(lost) and not key.lower().endswith("_proxy")
        }
        kept["HOME"] = self.room
        return {**kept, "HOLZHEBO_BROKER": self.url, "HOLZHEBO_TOKEN_FILE": f"{self.room}/{caller}.token"}

    def run(self, caller: str, *words: str, **env: str) -> Ended:
        """Runs the client."""
        return told([*PYTHON, CLIENT, *words], cwd=self.room, env={**self.env(caller), **env})

    def done(self, caller: str, *words: str, **env: str) -> str:
        """What it prints; it ends with 0 and reports nothing."""
        done = self.run(caller, *words, **env)
        same(f"{' '.join(words)}", (done.status, done.errors), (0, ""))
        return done.output


# A provider


BOOK = {"author": {"born": 1815, "name": "Ada"}, "id": 1, "tags": ["a"], "title": "Notes"}
HANGS = 6  # how many seconds the provider has for an answer


class Reply(NamedTuple):
    """How a provider answers: status, or 0 for no answer, headers, body; what it does before, or instead."""

    status: int = 200
    headers: Tuple[Tuple[str, str], ...] = (("Content-Type", "application/json; charset=utf-8"),)
    body: bytes = json.dumps(BOOK).encode()
    wait: float = 0
    length: int = 0  # how many bytes more are said than are sent


class Asked(NamedTuple):
    """A request; its headers are found without regard to case."""

    method: str
    path: str
    headers: Message
    body: bytes


class Handler(http.server.BaseHTTPRequestHandler):
    """A request to who answers by a function."""

    def setup(self) -> None:
        server: Any = self.server
        super().setup()
        self.protocol_version = "HTTP/1.1" if server.is_kept else "HTTP/1.0"

    def answer(self) -> None:
        server: Any = self.server
        body = self.rfile.read(int(self.headers.get("content-length", 0)))
        reply: Reply = server.reply(Asked(self.command, self.path, self.headers, body))
        time.sleep(reply.wait)
        self.close_connection = not (server.is_kept and reply.status)
        if reply.status and reply.wait < HANGS:
            self.send_response(reply.status)
            length = ("Content-Length", str(len(reply.body) + reply.length))
            for key, it in [*reply.headers, *([length] if reply.status != 204 else [])]:
                self.send_header(key, it)
            self.end_headers()
            self.wfile.write(reply.body)

    do_GET = do_POST = do_PUT = do_DELETE = do_CONNECT = answer

    def log_message(self, format: str, *words: Any) -> None:
        """Is silent."""


Itself = TypeVar("Itself", bound="Serving")


class Serving(http.server.ThreadingHTTPServer):
    """Who answers requests at a port of this machine by a function of them, while it is entered. `is_kept`: connections
    are kept, as the broker does."""

    daemon_threads, is_kept = True, False

    def __init__(self, reply: Callable[[Asked], Reply], port: int = 0) -> None:
        super().__init__(("127.0.0.1", port), Handler)
        self.reply, self.port = reply, int(self.server_address[1])
        self.url = f"http://127.0.0.1:{self.port}"

    def handle_error(self, request: Any, client_address: Any) -> None:
        """Is silent about one that is gone, since its test has ended it."""
        if not isinstance(sys.exc_info()[1], ConnectionError):
            super().handle_error(request, client_address)

    def __enter__(self: Itself) -> Itself:
        threading.Thread(target=self.serve_forever, args=(0.02,), daemon=True).start()
        return self

    def __exit__(self, *_: Any) -> None:
        self.shutdown()
        self.server_close()


class Stock(Serving):
    """A provider: it answers by its table, and keeps what it was asked."""

    def __init__(self, answers: Dict[str, Reply]) -> None:
        super().__init__(self.by_table)
        self.answers, self.asked = answers, []  # type: Dict[str, Reply], List[Tuple[str, str, Dict[str, str], bytes]]

    def by_table(self, it: Asked) -> Reply:
        headers = {key.lower(): text for key, text in it.headers.items() if key.lower() in ("content-type", "x-shop")}
        secret(f"{it.path} {it.headers}")
        self.asked.append((it.method, it.path, headers, it.body))
        return self.answers.get(f"{it.method} {it.path.partition('?')[0]}", Reply(599))
