"""What the page's server of ./run answers, for test_run.py: the files of desk/, GETs that are handed on to the
broker, and what it refuses."""
import contextlib, json, os, socket, time
from concurrent.futures import ThreadPoolExecutor

from tests.desk.running import Running, asks, by, sent
from tests.desk.world import DENIED, PAGE, POLICY, READER, RED
from tests.process import text_of
from tests.wire import OFFICE, Caller, same

LISTING = "GET /environments/live"
SAFE = {
    "content-security-policy": POLICY,
    "x-content-type-options": "nosniff",
    "referrer-policy": "no-referrer",
    "connection": "close",
}
KINDS = {"html": "text/html", "js": "text/javascript", "css": "text/css", "json": "application/json"}


def safe(what: str, fields: dict[str, str]) -> None:
    same(f"the fields of {what}", {it: fields.get(it) for it in SAFE}, SAFE)


def files(it: Running) -> None:
    """The four files with their kinds and the policy, and nothing else of the repository."""
    for name in "", *PAGE, "desk.json", "?a=b":
        file = f"desk/{name if name in PAGE else 'index.html'}" if name != "desk.json" else "examples/demo-desk.json"
        status, fields, body = asks(it.page, f"GET /desk/{name}")
        wanted = 200, f"{KINDS[file.rpartition('.')[2]]}; charset=utf-8", "no-cache"
        same(f"/desk/{name}", (status, fields["content-type"], fields["cache-control"]), wanted)
        same(f"the text of /desk/{name}", body, text_of(file))
        same(f"the length of /desk/{name}", fields["content-length"], str(len(body.encode())))
        safe(f"/desk/{name}", fields)
    for path in "/", "/desk", "/?a":
        status, fields, _ = asks(it.page, f"GET {path}")
        same(path, (status, fields.get("location")), (302, "/desk/"))
    for path in "../README.md", "..%2fREADME.md", "%2e%2e/run", "desk.js/", "./desk.js", "x", "/desk.js", "desk.js%00":
        same(f"/desk/{path}", asks(it.page, f"GET /desk/{path}")[0], 404)
    for path in "/desk%2fdesk.js", "/../README.md", "/README.md", "//desk/desk.js", "/desk/../../README.md":
        status, fields, body = asks(it.page, f"GET {path}", by(OFFICE))
        same(f"{path}, which isn't the page's", (status, "Holzhebo" in body), (404, False))


def caller(it: Running) -> Caller:
    """Who asks its broker itself."""
    broker = Caller()
    broker.address = "127.0.0.1", it.port
    return broker


def tokens(it: Running) -> None:
    """The token that only reads is the office's, of GET; any other is the broker's own matter."""
    status, _, text = caller(it).ask(*LISTING.split(" "))
    shown = status, text
    same("the broker's own answer", (shown[0], '"answer":"shown"' in shown[1]), (200, True))
    for host in "127.0.0.1", "localhost", "LOCALHOST":
        status, fields, body = asks(it.page, LISTING, by(READER), host=f"{host}:{it.page}")
        same(f"the listing by the token that reads, of {host}", (status, body), shown)
        safe("an answer of the broker", fields)
        kinds = fields["content-type"], fields["cache-control"]
        same("its kind", kinds, ("application/json", "no-store"))
    same("the office's own token", asks(it.page, LISTING, by(OFFICE))[::2], shown)
    gate = "GET /can-i-deploy?pacticipant=pay&version=7&environment=live"
    same("the gate by the token that reads", asks(it.page, gate, by(READER))[0], 200)
    same("the gate by another team's token", asks(it.page, gate, by(RED))[0], 403)
    bearer = by(READER)
    for field in f"{bearer}x", f"{bearer}, {by(OFFICE)[15:]}", bearer.upper(), by(""), f"Authorization: Basic {READER}":
        status, fields, body = asks(it.page, LISTING, field)
        same(f"the listing by {field}", (status, body, fields.get("www-authenticate")), (401, DENIED, "Bearer"))
    same("the listing by nobody", asks(it.page, LISTING)[::2], (401, DENIED))
    same("by two fields", asks(it.page, LISTING, bearer, bearer)[0] in (400, 401), True)


WRITES = "PUT /teams/green", "POST /environments/live/undeployments", "DELETE /grants/team/red/environment/dev"
OTHERS = "HEAD", "OPTIONS", "PATCH", "TRACE", "CONNECT", "get", "G"


def methods(it: Running) -> None:
    """Nothing but GET, by any token; and the broker hasn't seen it."""
    before = asks(it.page, LISTING, by(READER))[2]
    undeploys = '{"pacticipant":"shop","version":"1.3"}'
    for ask in *WRITES, *(f"{method} /environments/live" for method in OTHERS), "PUT /desk/desk.js":
        for token in READER, OFFICE, RED:
            sized = f"Content-Length: {len(undeploys)}"
            status, fields, body = asks(it.page, ask, by(token), sized, body=undeploys)
            same(f"{ask} by {token}", (status, fields.get("allow")), (405, "GET"))
            safe(ask, fields)
            same(f"whether {ask} has a sentence", body != "", not ask.startswith("HEAD"))
            same("what a page of another origin may", [each for each in fields if each.startswith("access-")], [])
    long = f"PUT /teams/green HTTP/1.1\r\nHost: 127.0.0.1:{it.page}\r\nContent-Length: 1000000\r\n\r\n".encode()
    same("PUT with a long body", sent(it.page, long + b"x" * 1000000)[:12], b"HTTP/1.1 405")
    same("the listing afterwards", asks(it.page, LISTING, by(READER))[2], before)
    caller(it).gives((200, '{"answer":"already"}'), "PUT", "/grants/team/red/environment/dev")


def strangers(it: Running) -> None:
    """What another name of this machine, another page, or what isn't a plain request has asked."""
    port, bearer = it.page, by(READER)
    local = f"127.0.0.1:{port}"
    names = "127.0.0.1", "127.0.0.1:1", f"{local}1", f"{local}.example.org", f"127.0.0.1.example.org:{port}", "[::1]"
    for host in "example.org", f"example.org:{port}", *names:
        for ask in LISTING, "GET /desk/":
            same(f"{ask} of {host}", asks(port, ask, bearer, host=host)[0], 421)
    same("two hosts", asks(port, LISTING, bearer, "Host: example.org")[0], 421)
    same("no host", sent(port, f"{LISTING} HTTP/1.1\r\n{bearer}\r\n\r\n".encode())[:12], b"HTTP/1.1 421")
    own = f"http://127.0.0.1:{port}"
    for origin in "null", "http://example.org", f"http://localhost:{port}", own[:-1], own.replace("http", "https"):
        same(f"from a page of {origin}", asks(port, LISTING, bearer, f"Origin: {origin}")[0], 403)
    same("from its own page", asks(port, LISTING, bearer, f"Origin: {own}")[0], 200)
    for site, mode, status in (
        ("same-origin", "cors", 200),
        ("none", "navigate", 200),
        ("cross-site", "navigate", 200),
        ("cross-site", "cors", 403),
        ("cross-site", "no-cors", 403),
        ("same-site", "cors", 403),
    ):
        fetch = f"Sec-Fetch-Site: {site}", f"Sec-Fetch-Mode: {mode}"
        same(f"{mode} from {site}", asks(port, LISTING, bearer, *fetch)[0], status)
        same(f"the page, {mode} from {site}", asks(port, "GET /desk/", *fetch)[0], status)


def heads(it: Running) -> None:
    """Bodies, long heads, and what isn't HTTP."""
    port, bearer = it.page, by(READER)
    host = f"Host: 127.0.0.1:{port}"
    for field in "Content-Length: 5", "Transfer-Encoding: chunked", "Content-Length: -1", "Content-Length: ":
        same(f"GET with {field}", asks(port, LISTING, bearer, field, body="hello")[0], 400)
    same("GET with an empty body", asks(port, LISTING, bearer, "Content-Length: 0")[0], 200)
    most = 16384 - len(f"{LISTING} HTTP/1.1\r\n{host}\r\n{bearer}\r\nX: ")
    same("the longest head", asks(port, LISTING, bearer, f"X: {'x' * most}")[0], 200)
    same("one byte more", asks(port, LISTING, bearer, f"X: {'x' * (most + 1)}")[0], 431)
    same("a head without an end", sent(port, b"GET / HTTP/1.1\r\n" + b"x: y\r\n" * 9000)[:12], b"HTTP/1.1 431")
    for text in (
        "GET /\r\n\r\n",
        f"GET / HTTP/2.0\r\n{host}\r\n\r\n",
        f"GET  / HTTP/1.1\r\n{host}\r\n\r\n",
        f"GET / HTTP/1.1\r\n{host}\r\n folded: x\r\n\r\n",
        f"GET / HTTP/1.1\r\n{host}\r\nno colon\r\n\r\n",
        f"GET / HTTP/1.1\r\n{host}\r\nname : x\r\n\r\n",
        f"GET / HTTP/1.1\r\n{host}\r\na: b\nHost: c\r\n\r\n",
        f"GET http://127.0.0.1:{port}/desk/ HTTP/1.1\r\n{host}\r\n\r\n",
        f"GET * HTTP/1.1\r\n{host}\r\n\r\n",
        "\x16\x03\x01\r\n\r\n",
    ):
        same(repr(text), sent(port, text.encode("latin-1"))[:12], b"HTTP/1.1 400")
    two = f"GET / HTTP/1.1\r\n{host}\r\n\r\n".encode() * 2
    same("answers to two requests at once", sent(port, two).count(b"HTTP/1.1"), 1)


def threads(process: int) -> int:
    with open(f"/proc/{process}/status", encoding="ascii") as it:
        return int(next(row.split()[1] for row in it if row.startswith("Threads:")))


def drips(port: int) -> tuple[bytes, float]:
    """How a client is answered that sends a byte each half second, and after how many seconds."""
    began = time.monotonic()
    with socket.create_connection(("127.0.0.1", port), 0.5) as line:
        while time.monotonic() - began < 60:
            line.sendall(b"x")
            with contextlib.suppress(TimeoutError):
                return line.recv(12), time.monotonic() - began
    return b"", 60.0


def slow(it: Running) -> None:
    """Clients that send nothing, or a head byte after byte, are closed after ten seconds, and are few at once."""
    began, port = time.monotonic(), it.page
    with ThreadPoolExecutor() as pool, contextlib.ExitStack() as ends:
        dripped = pool.submit(drips, port)
        time.sleep(0.5)
        silent = [ends.enter_context(socket.create_connection(("127.0.0.1", port), 60)) for _ in range(60)]
        time.sleep(1)
        same("whether more than 32 are worked on", threads(it.process.pid) > 36, False)
        same("a client that waits for its turn", asks(port, LISTING, by(READER))[0], 200)
        took = time.monotonic() - began
        same(f"whether it waits for ten seconds ({took:.1f})", 8 < took < 20, True)
        for each in silent:
            same("what a silent client gets", each.recv(12), b"")
        answer, took = dripped.result()
    same(f"a head that comes slowly ({took:.1f})", (answer, 8 < took < 15), (b"HTTP/1.1 408", True))


def odd(it: Running) -> None:
    """What a broker gets, and what isn't a broker's answer."""
    fields = f"{by('x' * 16)}", "Cookie: a=b", "X-Forwarded-For: c", "Accept: d", "If-None-Match: e"
    status, answered, body = asks(it.page, "GET /echo/a%2Fb/%C3%A9/..?x=%20&y=z+1", *fields)
    wanted = ["GET /echo/a%2Fb/%C3%A9/..?x=%20&y=z+1 HTTP/1.1", f"Host: 127.0.0.1:{it.port}"]
    wanted += ["authorization: Bearer " + "x" * 16, "connection: close"]
    same("what the broker gets", (status, json.loads(body)), (200, wanted))
    same("what it says of cookies", answered.get("set-cookie"), None)
    for path in "/cut", "/endless", "/other", "/closed":
        status, answered, body = asks(it.page, f"GET {path}")
        same(path, (status, "half" in body, "unmeasured" in body, "220" in body), (502, False, False, False))
        same(f"its kind for {path}", answered["content-type"], "text/plain; charset=utf-8")


def a_silent_broker(it: Running) -> None:
    began = time.monotonic()
    same("a silent broker", asks(it.page, "GET /silent")[0], 504)
    took = time.monotonic() - began
    same(f"whether that takes a minute ({took:.1f})", 55 < took < 80, True)


def alone_on_loopback(it: Running) -> None:
    """Whatever listens, of all its processes, does so on 127.0.0.1, at the two ports."""
    inodes = set()
    for process in it.processes():
        for descriptor in os.listdir(f"/proc/{process}/fd"):
            inodes.add(os.readlink(f"/proc/{process}/fd/{descriptor}"))
    found = []
    for table in "tcp", "tcp6", "udp", "udp6":
        with open(f"/proc/net/{table}", encoding="ascii") as rows:
            for row in list(rows)[1:]:
                _, here, _, state, *rest = row.split()
                if f"socket:[{rest[5]}]" in inodes and (state == "0A" or table[:3] == "udp"):
                    found.append((table, here))
    wanted = [("tcp", f"0100007F:{port:04X}") for port in (it.port, it.page)]
    same("what is listened on", sorted(found), sorted(wanted))
