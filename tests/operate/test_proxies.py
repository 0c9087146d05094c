"""The proxies of examples/ before a broker: real nginx and real Caddy. Through each, ordinary requests are answered as
by the broker itself, names keep their escapes, a body of the limit passes and a larger one doesn't, slow clients hold
up nobody, and a broker that isn't there is 502 until it is there again. What one address can do to the others is
little, and what is in the log. No line of a log has a token (conftest.py)."""
import contextlib, http.client, re, socket, ssl, threading, time
from collections.abc import Sequence
import pytest
from tests import proxy
from tests.desk.world import by_nginx
from tests.operate.carry_state import opened
from tests.operate.front import DENIED, Front, Nginx, among, answered, asked, shown, who
from tests.process import TOP, Server, free_port
from tests.proxy import await_that
from tests.wire import Wrong, same
from tests.world import DONE, RED, pact

pytestmark = pytest.mark.needs("openssl")
NAMES = ["feat%2F1", "100%25", "%252F", "a%20b", "a+b", "caf%C3%A9", "a%3Fb%23c", "%2E%2E", "a%2F%2F%2E%2Fb", "%5C"]
LIMIT, RATE, WAITING = 1_048_576, 50, 100
LIVE = "/environments/live"


def only_nginx(front: Front) -> None:
    if not isinstance(front, Nginx):
        pytest.skip("Caddy has no such limit")


def test_ordinary(front: Front, fleet: Server) -> None:
    """What is asked is answered as by the broker itself."""
    front.do("PUT", "/pacticipants/shop/versions/9", RED)
    for ask in f"GET {LIVE}", "GET /matrix?pacticipant=shop&version=1", "GET /no/route", "DELETE /teams/red":
        same(ask, shown(asked(front, ask, RED)), shown(asked(fleet, ask, RED)))
    same("whether it is alive", shown(front.ask("GET", "/", "")), (404, '{"answer":"no route"}'))
    same("a method that isn't served", front.ask("OPTIONS", "/", "").status, 501)
    front.do("POST", f"{LIVE}/deployments", RED, '{"pacticipant":"shop","version":"1"}')
    same("without a token", shown(front.ask("GET", LIVE, None)), DENIED)


def test_names(front: Front, fleet: Server) -> None:
    for name in NAMES:
        path = f"/pacticipants/shop/versions/{name}"
        same(f"{path} through it", shown(front.ask("PUT", path, RED)), (200, DONE))
        same(f"{path} to the broker", shown(fleet.ask("PUT", path, RED)), (200, '{"answer":"already"}'))


def sized(size: int) -> str:
    """A pact file of so many bytes."""
    text = pact("a size")
    return text + " " * (size - len(text))


def test_bodies(front: Front) -> None:
    path = "/pacts/provider/stock/consumer/shop/version/size"
    answer = shown(front.ask("PUT", path, RED, sized(LIMIT)))
    same("a body of the limit", answer, (200, '{"answer":"done","content":4}'))
    among("a body over the limit", shown(front.ask("PUT", path, RED, sized(LIMIT + 1))), front.too_large)
    front.do("POST", f"{LIVE}/deployments", RED, '{"pacticipant":"shop","version":"1"}')
    deployment = '{"pacticipant":"shop","version":"1","more":"%s"}' % ("x" * 9_000)
    answer = shown(front.ask("POST", f"{LIVE}/deployments", RED, deployment))
    same("a deployment with another long key", answer, (200, '{"answer":"already"}'))
    head, text = front.message(f"authorization: Bearer {RED}".encode(), f"PUT {path}"), pact("a size").encode()
    head = head.replace(b"content-length: 0", b"transfer-encoding: chunked")
    among("a body in chunks", front.exchange(head + b"%x\r\n%s\r\n0\r\n\r\n" % (len(text), text)), front.in_chunks)


def test_long_change(front: Front) -> None:
    """A change is in the log with what it changes, or it is refused: nginx takes a long one, Caddy doesn't."""
    deployment = '{"pacticipant":"shop","version":"1","more":"%s"}' % ("x" * 200_000)
    answer = front.ask("POST", f"{LIVE}/deployments", RED, deployment)
    same("a long deployment", answer.status, 200 if isinstance(front, Nginx) else 413)
    await_that(lambda: len(front.log("log").splitlines()) > 0, "the log has it")
    same("who", who(front, "live"), ["red deployments shop 1"] if isinstance(front, Nginx) else [])


def test_change_in_chunks(front: Front, fleet: Server) -> None:
    """A change of which the log wouldn't have the body, as it is cut into bytes, is refused, and isn't made."""
    before = shown(fleet.ask("GET", LIVE, RED))
    deployment = b'{"pacticipant":"shop","version":"1"}' + b" " * 200_000
    head = front.message(f"authorization: Bearer {RED}".encode(), f"POST {LIVE}/deployments?x")
    head = head.replace(b"content-length: 0", b"transfer-encoding: chunked")
    message = head + b"".join(b"1\r\n%c\r\n" % it for it in deployment) + b"0\r\n\r\n"
    among("a change in chunks", front.exchange(message), [411] if isinstance(front, Nginx) else front.in_chunks)
    same("what is there", shown(fleet.ask("GET", LIVE, RED)), before)
    same("who", who(front, "live"), [])


def page_of(front: Front) -> str:
    """What docs/OPERATING.md has as the proxy's file broker-desk."""
    if isinstance(front, Nginx):
        return front.changed("broker-desk", {"/usr/local/share/broker/desk/": f"{TOP}/desk/"})
    lines = re.search(r"(?ms)^    redir .*?^    }\n", front.changed("desk.Caddyfile", {"{$FOLDER:desk}": f"{TOP}/desk"}))
    assert lines
    return lines[0]


def test_page(front: Front) -> None:
    """With one file more it serves the page beside the broker, and has nothing to say against that file."""
    front.written("broker-desk", page_of(front))
    front.reload()
    same("the page", front.ask("GET", "/desk/", None).status, 200)
    same("its place", front.ask("GET", "/desk", None).status // 100, 3)
    same("the broker", front.ask("GET", LIVE, RED).status, 200)
    same("nginx's warnings", [it for it in front.log("errors").splitlines() if "[warn]" in it or "duplicate" in it], [])


def test_page_by_itself(nginx: proxy.Nginx) -> None:
    """nginx has nothing to say against the recipe of the page."""
    by_nginx(nginx, free_port(), f"{TOP}/desk")
    nginx.reload()
    same("nginx's warnings", [it for it in nginx.log("errors").splitlines() if "[warn]" in it], [])


def is_answered(front: Front) -> bool:
    with contextlib.suppress(OSError, http.client.HTTPException):
        return front.ask("GET", LIVE, RED).status == 200
    return False


def another_is_answered(front: Front, most: float, peers: Sequence[socket.socket]) -> None:
    """Within so many seconds, beside these."""
    began = time.monotonic()
    same("another client", front.ask("GET", LIVE, RED).status, 200)
    took = time.monotonic() - began
    for peer in peers:
        peer.close()
    if took > most:
        raise Wrong(f"another client waits {took:.1f} s")


@pytest.mark.timing
def test_slow(front: Front) -> None:
    """Clients that stop in the middle of a head or of a body hold up nobody."""
    message = front.message(b"authorization: Bearer x", "PUT /pacticipants/shop/versions/slow", b'{"branch":"main"}')
    peers = [front.open() for _ in range(10)]
    for number, peer in enumerate(peers):
        peer.sendall(message[: 30 if number % 2 else -5])
    time.sleep(0.3)
    another_is_answered(front, 5, peers)


def test_restart(front: Front, fleet: Server) -> None:
    before = shown(front.ask("GET", LIVE, RED))
    fleet.stop()
    same("without a broker", front.ask("GET", LIVE, RED).status, 502)
    same("a probe without a broker", front.ask("GET", "/alive", None).status, 502)
    fleet.restart()
    same("with it again", shown(front.ask("GET", LIVE, RED)), before)


def test_alive(front: Front) -> None:
    """A probe without a token is answered 200, by GET and by HEAD; it leaves no line in nginx's log."""
    same("GET", shown(front.ask("GET", "/alive", None))[0], 200)
    with front.open() as peer:
        peer.sendall(front.message(b"accept: */*", "HEAD /alive"))
        assert peer.recv(100).startswith(b"HTTP/1.1 200 ")
    if isinstance(front, Nginx):
        same("the log", front.log("log"), "")


# More than is wanted


@pytest.mark.timing
def test_limited(front: Front) -> None:
    """At once more requests from one address than may wait: the rest is 429. Another address isn't limited by it."""
    only_nginx(front)
    message = front.message(f"authorization: Bearer {RED}".encode(), "GET /environments/live")
    peers = [front.open() for _ in range(WAITING + 150)]
    began = time.monotonic()
    for peer in peers:
        peer.sendall(message)
    asked = time.monotonic()
    same("another address", front.exchange(message, "127.0.0.2")[0], 200)
    other = time.monotonic() - asked
    statuses = [answered(peer)[0] for peer in peers]
    took = time.monotonic() - began
    for peer in peers:
        peer.close()
    longest = WAITING / RATE
    if set(statuses) != {200, 429} or statuses.count(200) < WAITING or took < 0.9 * longest or other > 0.75 * longest:
        said = f"{statuses.count(200)} of {len(statuses)} are answered 200 in {took:.1f} s"
        raise Wrong(f"{said}, and another address after {other:.1f} s")
    same("whether nginx's own log has a line for each", "limiting" in front.log("errors"), False)


# More than the 1,024 connections that this nginx has.
SLOW = 1200
# What a head may take, with the beginning of TLS.
HEADS = 5


@pytest.mark.timing
def test_slow_heads(front: Front) -> None:
    """One address without a token begins heads, and TLS, and sends no more, on more connections than nginx has for all.
    Each is closed in time, and then another address is answered, by Caddy at once."""
    half = front.message(b"authorization: Bearer x", "GET /environments/live")[:60]
    with contextlib.ExitStack() as held:
        peers = []
        for number in range(2 * SLOW):
            with contextlib.suppress(OSError):
                peer = held.enter_context((front.plain if number % 10 else front.open)("127.0.0.3"))
                peer.sendall(b"\x16\x03\x01" if number % 10 else half)
                peers.append(peer)
            if number > SLOW and number % 10 == 0 and not (isinstance(front, Nginx) and is_answered(front)):
                break
        else:
            raise Wrong("nginx always has a connection left")
        began = time.monotonic()
        await_that(lambda: is_answered(front), "another address is answered")
        took = time.monotonic() - began
        for peer in peers:
            with contextlib.suppress(ConnectionError, ssl.SSLError):
                same("what is sent to who never ends a head", peer.recv(1000), b"")
        closed = time.monotonic() - began
    if took > (HEADS + 2 if isinstance(front, Nginx) else 2) or closed > HEADS + 2:
        raise Wrong(f"another address waits {took:.1f} s, and the last head is open for {closed:.1f} s")


@pytest.mark.timing
def test_slow_bodies(front: Front) -> None:
    """One address without a token sends bodies that never end, on more connections than nginx has for all: another
    address is answered. Who did it before has its connections closed."""
    ends, sent = threading.Event(), [0]
    head = front.message(b"authorization: Bearer x", "PUT /pacticipants/shop/versions/slow", b"x" * 900_000)[:-899_999]

    def one() -> None:
        while not ends.is_set():
            try:
                with front.open("127.0.0.3") as peer:
                    peer.sendall(head)
                    sent[0] += 1
                    while not ends.wait(3):
                        peer.sendall(b"x")
            except OSError:
                ends.wait(2)

    threading.stack_size(256 * 1024)
    attackers = [threading.Thread(target=one, daemon=True) for _ in range(SLOW)]
    for it in attackers:
        it.start()
    await_that(lambda: sent[0] > 1000, "the bodies are begun")
    answers: list[object] = []
    for _ in range(14):
        try:
            answers.append(front.ask("GET", LIVE, RED).status)
        except (OSError, http.client.HTTPException) as why:
            answers.append(type(why).__name__)
        time.sleep(0.3)
    ends.set()
    for it in attackers:
        it.join()
    # In the first moment, until what is too much is closed, nginx has no connection left for anybody.
    same("another address", answers[2:], [200] * 12)


def test_log_is_small(front: Front) -> None:
    """What callers without a token send as bodies isn't in the log, nor a path, a method or a host that is too long."""
    host = f":{front.proxy.port}".encode()
    far = front.message(b"accept: */*", f"GET {LIVE}").replace(host, b":" + b"0" * 15_000 + host[1:])
    for _ in range(5):
        among("a long port of the host", front.exchange(far), [400, 421])
        with contextlib.suppress(OSError, http.client.HTTPException):
            among("a long path", front.exchange(front.message(b"accept: */*", f"GET /{'x' * 200_000}")), [400, 414, 431])
        # A quotation mark is written as two bytes, and Caddy hands it on as three: more than the broker takes. It is 502
        # if the broker has refused it and closed before Caddy has sent it all.
        among("a path to be escaped", shown(front.ask("GET", "/environments/" + '"' * 8_000, None)), [401, 431, 502])
        among("a long method", shown(front.ask("X" * 8_000, LIVE, None)), [400, 405, 501])
        among("a long body", shown(front.ask("POST", "/environments/x", None, "\x01" * 9_000)), [401, 405])
        among("a longer one", shown(front.ask("POST", "/environments/x/deployments", None, "\x01" * 9_000)), [401])
    await_that(lambda: len(re.findall('"POST"', front.log("log"))) >= 10, "the log has each")
    size = len(front.log("log"))
    assert size < 24_000, size


ROWS = 100_000


def many_releases(file: str) -> None:
    """So many releases in the environment `open`, whose listing then has 14 MB."""
    with opened(file) as db:
        (first,) = db.execute("SELECT max(number) + 1 FROM versions").fetchone()
        numbers = range(first, first + ROWS)
        db.executemany("INSERT INTO versions VALUES (?, 'shop', ?)", ((it, f"{it}-{'x' * 80}") for it in numbers))
        db.executemany("INSERT INTO released VALUES ('open', ?)", ((it,) for it in numbers))


@pytest.mark.timing
def test_unread_answers(front: Front, fleet: Server) -> None:
    """Clients that don't read a long answer keep nobody waiting."""
    fleet.stop()
    many_releases(fleet.file)
    fleet.restart()
    peers = []
    for _ in range(8):
        peer = front.open()
        peer.setsockopt(socket.SOL_SOCKET, socket.SO_RCVBUF, 4096)
        peer.sendall(front.message(f"authorization: Bearer {RED}".encode(), "GET /environments/open"))
        peers.append(peer)
    time.sleep(0.5)
    another_is_answered(front, 20, peers)
