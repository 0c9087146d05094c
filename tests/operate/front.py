"""A proxy of examples/ before a broker: real nginx or real Caddy, which serve examples/nginx.conf or examples/Caddyfile
over TLS, with nothing in them replaced but addresses, certificate and paths."""
import http.client, re, socket, ssl
from collections.abc import Sequence
from tests import proxy
from tests.operate.pages import section
from tests.process import TOP, run
from tests.wire import OFFICE, PATIENCE, Answer, Caller, Wrong, same
from tests.world import BLUE, RED

CLIENT = f"{TOP}/client/holzhebo"

NAME = "broker.example.org"
LEAKED, NEW, LATEST = "red.team+token/1=", "new~token.of+red=", "token-of-the-last-1"
READER = "one.that+only/reads="
# Each is like the leaked token, and is another team's: it begins with it, ends with it, has other letters, or another
# byte in the place of the point.
ALIKE = [LEAKED + "0", "x" + LEAKED, LEAKED.upper(), LEAKED.replace(".", "x")]
TEAMS = {OFFICE: "office", RED: "red", BLUE: "blue", LEAKED: "leaky"}
# How the broker reads a token (docs/API.md, Callers): `%s` is the token.
READ = [
    b"authorization: Bearer %s",
    b"Authorization:Bearer %s",
    b"AUTHORIZATION: bearer   %s",
    b"authorization: BEARER %s ",
    b"authorization: Bearer %s\t",
    b"authorization:\tBearer %s",
    b"authorization:  \t bEaReR  %s \t ",
]
# A field on two lines, which a proxy may join (RFC 9112, 5.2).
FOLDED = b"authorization: Bearer\r\n %s"
# How it isn't read.
UNREAD = [
    b"authorization: Bearer\t%s",
    b"authorization: Bearer \t%s",
    b"authorization: Bearer%s",
    b"authorization: Bearer %s,",
    b"authorization: Bearer %s x",
    b'authorization: Bearer "%s"',
    b"authorization: Bearer %s, Bearer %s",
    b"authorization: %s",
    b"authorization: Basic %s",
    b"authorization: Bearer \x0b%s",
    b"authorization: Bearer %s\xa0",
    b"authorization: Bearer %s\x00",
    b"authorization : Bearer %s",
    b"authorization: Bearer %s\r\nauthorization: Bearer %s",
    b"authorization: Bearer other-token-0001\r\nauthorization: Bearer %s",
    b"proxy-authorization: Bearer %s",
]
DENIED = (401, '{"answer":"denied","rule":"A1"}')
Shown = tuple[int, str]


def written(spelling: bytes, token: str) -> bytes:
    return spelling.replace(b"%s", token.encode())


def among(what: str, answer: Shown, statuses: list[int]) -> None:
    if answer[0] not in statuses:
        raise Wrong(f"{what}: {answer} and none of {statuses}")


def shown(answer: Answer) -> Shown:
    return answer.status, answer.body


def answered(peer: socket.socket) -> Shown:
    """The status and the body of an answer."""
    answer = http.client.HTTPResponse(peer)
    answer.begin()
    return answer.status, answer.read().decode()


def certificate(room: str) -> None:
    """One for the name, signed by itself."""
    subject = ["-subj", f"/CN={NAME}", "-addext", f"subjectAltName=DNS:{NAME}", "-days", "2"]
    key = ["-newkey", "ec", "-pkeyopt", "ec_paramgen_curve:prime256v1", "-nodes", "-keyout", f"{room}/key.pem"]
    run(["openssl", "req", "-x509", *key, "-out", f"{room}/cert.pem", *subject])


class Front(Caller):
    """A proxy before a broker: what it is called, how a line of its files of tokens ends, and its answers to a body
    that is too large and to one in chunks."""

    title: str
    end: str
    too_large: list[int]
    in_chunks: list[int]
    proxy: proxy.Proxy

    def __init__(self, room: str, broker: str) -> None:
        self.room = room
        certificate(room)
        self.trust = ssl.create_default_context(cafile=f"{room}/cert.pem")
        self.leak([])
        self.written("teams", "".join(self.line(token, team) for token, team in TEAMS.items()))
        self.start(broker)
        self.address = ("127.0.0.1", self.proxy.port)

    def start(self, broker: str) -> None:
        """Starts the proxy for a broker at this address."""
        raise NotImplementedError

    def reload(self) -> None:
        """Lets it read its files again."""
        raise NotImplementedError

    def stop(self) -> None:
        self.proxy.stop()

    def line(self, token: str, place: str) -> str:
        return f'"~^\\Q{token}\\E$" "{place}"{self.end}\n'

    def written(self, name: str, text: str) -> None:
        with open(f"{self.room}/{name}", "w", encoding="utf-8") as it:
            it.write(text)

    def changed(self, example: str, changes: dict[str, str]) -> str:
        """The example with these texts replaced, each of which it has to have."""
        with open(f"{TOP}/examples/{example}", encoding="utf-8") as it:
            text = "".join(line for line in it if not line.startswith("#"))
        for old, new in changes.items():
            if old not in text:
                raise Wrong(f"examples/{example} has no {old}")
            text = text.replace(old, new)
        return text

    def leak(self, lines: Sequence[str]) -> None:
        """What the file of the tokens that leaked says."""
        self.written("tokens", "# tokens that leaked\n" + "".join(f"{line}\n" for line in lines))

    def log(self, name: str) -> str:
        return self.proxy.log(name)

    def plain(self, source: str = "127.0.0.1") -> socket.socket:
        return socket.create_connection(self.address, PATIENCE, (source, 0))

    def open(self, source: str = "127.0.0.1") -> ssl.SSLSocket:
        """A connection from this address, by the proxy's own name."""
        return self.trust.wrap_socket(self.plain(source), server_hostname=NAME)

    def message(self, field: bytes, ask: str, body: bytes = b"") -> bytes:
        """A request with this field, or these, for its caller."""
        own = f"host: {NAME}:{self.proxy.port}\r\nconnection: close\r\ncontent-length: {len(body)}\r\n"
        return f"{ask} HTTP/1.1\r\n{own}".encode() + field + b"\r\n\r\n" + body

    def exchange(self, message: bytes, source: str = "127.0.0.1") -> Shown:
        with self.open(source) as peer:
            peer.sendall(message)
            return answered(peer)

    def ask(self, method: str, path: str, token: str | None = OFFICE, body: str | bytes = b"") -> Answer:
        text = body.encode() if isinstance(body, str) else body
        caller = f"authorization: Bearer {token}".encode() if token is not None else b"accept: */*"
        status, said = self.exchange(self.message(caller, f"{method} {path}", text))
        return Answer(status, {}, said)

    def answers(self, what: str, token: str, wanted: Shown) -> None:
        """Asks with the token in each spelling that the broker reads: the answer has to be this one."""
        for spelling in READ:
            message = self.message(written(spelling, token), "GET /environments/live")
            same(f"{what} as {spelling!r}", self.exchange(message), wanted)

    def refuses(self, token: str, spellings: list[bytes]) -> None:
        """Asks with the token in each of these spellings: no answer is one to a team."""
        for spelling in spellings:
            answer = self.exchange(self.message(written(spelling, token), "GET /environments/live"))
            among(f"the token {token} as {spelling!r}", answer, [400, 401])

    def document(self, page: str, name: str, pattern: str) -> list[str]:
        """The lines of a section that are for this proxy, by the ends of lines in its files."""
        lines = re.findall(rf'(?m)^ +("{pattern}.*")(;?)$', section(page, name))
        return [line + end for line, end in lines if end == self.end]


class Nginx(Front):
    title, end, too_large, in_chunks = "nginx", ";", [413], [200]
    proxy: proxy.Nginx

    def start(self, broker: str) -> None:
        self.proxy = proxy.Nginx(self.room)
        changes = {"listen 443 ssl": f"listen 127.0.0.1:{self.proxy.port} ssl", "127.0.0.1:9292": broker}
        changes["/etc/ssl/certs/broker.pem"] = f"{self.room}/cert.pem"
        changes["/etc/ssl/private/broker.key"] = f"{self.room}/key.pem"
        changes["/etc/nginx/broker-teams"] = f"{self.room}/teams"
        changes["/var/log/nginx/broker.log"] = f"{self.room}/log"
        for name in "reader[s]", "build[s]", "des[k]":
            changes[f"/etc/nginx/broker-{name}"] = f"{self.room}/broker-{name}"
        self.proxy.start(self.changed("nginx.conf", {**changes, "/etc/nginx/broker-tokens": f"{self.room}/tokens"}))

    def reload(self) -> None:
        self.proxy.reload()


class Caddy(Front):
    title, end, too_large, in_chunks = "Caddy", "", [413, 502], [501, 502]
    proxy: proxy.Caddy

    def start(self, broker: str) -> None:
        self.proxy = proxy.Caddy(self.room)
        own = f"\tbind 127.0.0.1\n\ttls {self.room}/cert.pem {self.room}/key.pem"
        changes = {f"{NAME} {{": f"{NAME} {{\n{own}", "127.0.0.1:9292": broker}
        changes["/etc/caddy/broker-tokens"] = f"{self.room}/tokens"
        changes["/etc/caddy/broker-teams"] = f"{self.room}/teams"
        changes["/var/log/caddy/broker.log"] = f"{self.room}/log"
        for name in "reader?", "build?", "des?":
            changes[f"/etc/caddy/broker-{name}"] = f"{self.room}/broker-{name}"
        # The port is said here, and not with the name, by which Caddy finds the log.
        admin = f"unix/{self.room}/admin.sock\n\tauto_https disable_redirects\n\thttps_port {self.proxy.port}"
        self.proxy.start(self.changed("Caddyfile", {**changes, "unix//var/lib/caddy/admin.sock": admin}))

    def reload(self) -> None:
        self.proxy.reload()


def asked(caller: Caller, ask: str, token: str, body: str = "") -> Answer:
    method, path = ask.split(" ")
    return caller.ask(method, path, token, body)


def who(front: Front, *words: str) -> list[str]:
    """What `holzhebo who` says, without the times."""
    lines = run([CLIENT, "who", *words, "--log", f"{front.room}/log"]).splitlines()
    return [it.split(" ", 1)[1] for it in lines]
