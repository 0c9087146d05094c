"""Without a typed token: `holzhebo desk`, which serves the page for a broker that may be elsewhere, and the recipe for a
proxy before which a sign-on is."""
from __future__ import annotations

import contextlib, json, re, signal, socket, subprocess, threading
from collections.abc import Iterator

import pytest

from tests.client.tools import Reply, Serving
from tests.desk.browser import Browser
from tests.desk.running import asks, by
from tests.desk.seen import cells, settled, texts
from tests.desk.shown import BOARD
from tests.desk.world import DENIED, RED, World, write
from tests.process import TOP, free_port, ran, run, text_of
from tests.proxy import Nginx
from tests.wire import OFFICE, same

pytestmark = [pytest.mark.needs("chromium", "nginx", "curl", "ss"), pytest.mark.xdist_group("desk")]
LISTING = "GET /environments/live"


@contextlib.contextmanager
def served(broker: str, room: str) -> Iterator[tuple[int, str, subprocess.Popen[str]]]:
    """The command for the broker of this address, with the office's token in a file: its port, its key, its process."""
    write(f"{room}/token", f"authorization: Bearer {OFFICE}\n")
    port = free_port()
    words = [f"{TOP}/client/holzhebo", "desk", "--broker", broker, "--token-file", f"{room}/token"]
    words += ["--page-port", str(port), "--names", f"{TOP}/examples/demo-desk.json"]
    process = subprocess.Popen(words, stdout=subprocess.PIPE, text=True)
    try:
        line = process.stdout.readline() if process.stdout else ""
        found = re.fullmatch(rf"the page: http://127\.0\.0\.1:{port}/desk/\?([\w-]{{32}})\n", line)
        assert found, line
        yield port, found[1], process
    finally:
        process.send_signal(signal.SIGINT)
        same("its status", process.wait(30), 0)


def test_by_its_key(world: World, room: str) -> None:
    """Whoever has the key gets what the broker answers to GETs; nobody else, and nothing else."""
    shown = world.server.ask("GET", "/environments/live")
    with served(world.server.url, room) as (port, key, process):
        cookie = f"Cookie: a=b; desk-{port}={key}"
        status, fields, _ = asks(port, f"GET /desk/?{key}")
        same("the address", (status, fields["location"], fields["set-cookie"]), (302, "/desk/", OWN.format(port, key)))
        same("the listing", asks(port, LISTING, cookie)[::2], (shown.status, shown.body))
        same("with another token", asks(port, LISTING, cookie, by(RED))[::2], (shown.status, shown.body))
        own = f"Cookie: desk-{port}"
        for other in "", f"{own}={key}x", f"{own}={key[:-1]}", f"{own}=", f"{own}1={key}", f"Cookie: desk={key}":
            for ask in LISTING, "GET /desk/", "GET /desk/desk.json", f"GET /desk/?{key}x":
                same(f"{ask} with {other}", asks(port, ask, other or "X: y")[0], 403)
        for method in "PUT", "POST", "DELETE", "HEAD", "OPTIONS":
            same(method, asks(port, f"{method} /environments/live", cookie, "Content-Length: 0")[0], 405)
        for host in "example.org", f"example.org:{port}", f"127.0.0.1:{port}1", "[::1]":
            same(f"of {host}", asks(port, LISTING, cookie, host=host)[0], 421)
        for origin in "null", "http://example.org", f"https://127.0.0.1:{port}":
            same(f"from a page of {origin}", asks(port, LISTING, cookie, f"Origin: {origin}")[0], 403)
        same(
            "from another site",
            asks(port, LISTING, cookie, "Sec-Fetch-Site: cross-site", "Sec-Fetch-Mode: cors")[0],
            403,
        )
        rows = [row.split()[3] for row in run(["ss", "-Hltnp"]).splitlines() if f"pid={process.pid}," in row]
        same("what it listens on, by ss", rows, [f"127.0.0.1:{port}"])
        words = text_of(f"/proc/{process.pid}/cmdline")
        same("its command line has the token or the key", (OFFICE in words, key in words), (False, False))


OWN = "desk-{}={}; Path=/; HttpOnly; SameSite=Strict"


def test_a_host_in_brackets(room: str) -> None:
    """A broker at an address of IPv6, which http.client takes without the brackets if a port is given, is found."""
    line = socket.create_server(("::1", 0), family=socket.AF_INET6)

    def answer() -> None:
        came = line.accept()[0]
        with came:
            came.recv(65536)
            came.sendall(b"HTTP/1.1 200 OK\r\ncontent-length: 5\r\nconnection: close\r\n\r\nshown")

    with line, served(f"http://[::1]:{line.getsockname()[1]}", room) as (port, key, _):
        threading.Thread(target=answer, daemon=True).start()
        same("the listing", asks(port, LISTING, f"Cookie: desk-{port}={key}")[::2], (200, "shown"))


def test_in_a_browser(world: World, room: str) -> None:
    """The address is opened, and the board is there: no token is asked for."""
    with served(world.server.url, room) as (port, key, _), Browser(room) as page:
        page.go(f"http://127.0.0.1:{port}/desk/?{key}")
        settled(page)
        same("the board", cells(page), BOARD)
        same("where", page.js("location.href"), f"http://127.0.0.1:{port}/desk/")
        same("a field for a token", page.js("document.querySelectorAll('.secret').length"), 0)


def test_two_in_a_browser(world: World, room: str) -> None:
    """Pages at two ports keep their keys beside each other."""
    with served(world.server.url, room) as (port, key, _), served(world.server.url, room) as (other, theirs, _):
        with Browser(room) as page:
            page.go(f"http://127.0.0.1:{port}/desk/?{key}")
            page.go(f"http://127.0.0.1:{other}/desk/?{theirs}")
            for each in port, other:
                page.go(f"http://127.0.0.1:{each}/desk/")
                same(f"whether the page at {each} is there", page.js("document.title").endswith("Release desk"), True)
                settled(page)
                same(f"the board at {each}", cells(page), BOARD)


def test_its_words(world: World, room: str) -> None:
    write(f"{room}/short", "short\n")
    write(f"{room}/token", f"{OFFICE}\n")
    write(f"{room}/names", "[]")
    good = {"--broker": world.server.url, "--token-file": f"{room}/token"}
    empty = "error: argument --broker/-b/--broker-base-url: it is empty\n\nFor more information, try '--help'.\n"
    same("no broker", ran([f"{TOP}/client/holzhebo", "desk", "--broker", ""]), (2, "", empty))
    for words, said in (
        (
            {"--broker": "http://broker.example.org"},
            "over http the token is read on the way to broker.example.org: use https, or give --plain",
        ),
        (
            {"--token-file": f"{room}/short"},
            "token: it isn't 16 to 128 ASCII letters, digits and -._~+/=",
        ),
        ({"--names": f"{room}/names"}, f"{room}/names can't be read, or names no environments"),
        (
            {"--page-port": str(world.nginx.port)},
            f"port {world.nginx.port} can't be used (Address already in use): --page-port N takes another",
        ),
    ):
        line = [it for two in {**good, **words}.items() for it in two]
        same(str(words), ran([f"{TOP}/client/holzhebo", "desk", *line]), (3, "", f"holzhebo: {said}\n"))


# A proxy before which a sign-on is


def sign_on() -> Serving:
    """A service of a sign-on: it answers 204 to whoever has the cookie, and else 401."""
    return Serving(lambda it: Reply(204 if "session=known" in it.headers.get("cookie", "") else 401, (), b""))


def recipe(world: World, nginx: Nginx, sign_on_port: int) -> str:
    """examples/desk-nginx.conf with the lines of docs/DESK.md."""
    text = re.search(r"### Without a typed token\n(.*?)\n## ", text_of("docs/DESK.md"), re.S)
    assert text
    blocks = re.findall(r"(?:^    .*\n)+", text[1], re.M)
    same("blocks", len(blocks), 2)
    usual = text_of("examples/desk-nginx.conf").replace("127.0.0.1:9393", f"127.0.0.1:{nginx.port}")
    usual = usual.replace("127.0.0.1:9292", f"127.0.0.1:{world.server.port}")
    usual = usual.replace("/usr/local/share/broker/desk", world.page)
    table = re.search(r"(?ms)^map .*?^}\n", usual)
    *where, asked = blocks[1].strip().split("\n")
    assert table and asked.strip() == "auth_request /signed-in;"
    usual = usual.replace(table[0], blocks[0]).replace("location / {", f"location / {{ {asked}")
    usual = usual.replace("location /desk/ {", f"location /desk/ {{ {asked}")
    own = "\n".join(where).replace("127.0.0.1:4180", f"127.0.0.1:{sign_on_port}")
    return usual.replace("location = /desk {", f"{own}\nlocation = /desk {{")


def test_a_sign_on(world: World, nginx: Nginx, room: str) -> None:
    """Whoever is signed in reads without a token; nobody else does, and nobody changes anything by a cookie."""
    demo = json.loads(text_of("examples/demo-desk.json"))
    write(f"{world.page}/desk.json", json.dumps({**demo, "signedIn": True}))
    cookie = "Cookie: session=known"
    shown = world.server.ask("GET", "/environments/live")
    with sign_on() as known:
        nginx.start(recipe(world, nginx, known.port))
        same("the listing", asks(nginx.port, LISTING, cookie, "Connection: close")[::2], (shown.status, shown.body))
        for ask in LISTING, "GET /desk/", "GET /desk/desk.json", "PUT /teams/green":
            same(f"{ask} by nobody", asks(nginx.port, ask, "Connection: close")[0], 401)
        change = asks(nginx.port, "PUT /teams/green", cookie, "Connection: close", "Content-Length: 0")
        same("a change by a cookie", change[::2], (401, DENIED))
        grant = asks(
            nginx.port, "PUT /pacticipants/shop/versions/1.4", by(RED), "Connection: close", "Content-Length: 0"
        )
        same("a build with its token", grant[::2], (200, '{"answer":"already"}'))
        with Browser(room) as page:
            page.call("Network.setCookie", name="session", value="known", url=f"http://127.0.0.1:{nginx.port}/")
            page.go(f"http://127.0.0.1:{nginx.port}/desk/")
            settled(page)
            same("the board", cells(page), BOARD)
            page.call("Network.clearBrowserCookies")
            page.js("document.querySelector('#view > *').dataset.old = ''; location.hash = '#/board/today'")
            settled(page)
            over = ["You aren’t signed in any more: load this page again."]
            same("once it is over", texts(page, "[role=alert]"), over)
