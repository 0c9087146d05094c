"""The rules of examples/broker.nft, in a network of the test's own. One address, or one network of IPv6, has 150
connections to the proxy at most, so heads that it never ends, and begins again, keep no place of others. And nobody but
the broker's user takes connections at the broker's port: no other account that listens there while it is down."""
import contextlib, ctypes, os, re, socket, subprocess, threading, time
from collections.abc import Callable, Iterator
from functools import partial
import pytest
from tests.operate.front import Front
from tests.operate.service import NOBODY
from tests.operate.test_proxies import HEADS, SLOW, is_answered
from tests.process import TOP, Server, run, text_of
from tests.proxy import await_that
from tests.wire import NotRun, same
from tests.world import new_file

pytestmark = [pytest.mark.root, pytest.mark.needs("ip", "nft", "setpriv")]
Machine = Callable[[str, list[str], float], tuple[int, str, str]]
LIBC, CLONE_NEWNET = ctypes.CDLL(None, use_errno=True), 0x4000_0000
MOST, PORT = 150, 9292
# The broker's user is NOBODY here, and this is another account.
OTHER = 65_533
# Two of one network, two of IPv6 of one, and one of another; and where the proxy is.
PEERS = ["10.0.0.3/8", "10.0.0.4/8", "fd00::3/32", "fd00::4/32", "fd00:0:0:1::3/32"]
HERE = ["10.0.0.1/8", "fd00::1/32"]
# Listens, and answers each peer that sends something.
LISTENER = """
import socket, sys
at, port, backlog = sys.argv[1], int(sys.argv[2]), int(sys.argv[3])
six = {"family": socket.AF_INET6, "dualstack_ipv6": True} if ":" in at else {}
with socket.create_server((at, port), backlog=backlog, **six) as it:
    print(flush=True)
    while True:
        with it.accept()[0] as peer:
            if peer.recv(100):
                peer.sendall(b"taken")
"""


def enter(network: int) -> None:
    """This thread, and what it starts, is in that network from now on."""
    same("setns", LIBC.setns(network, CLONE_NEWNET), 0)


def made() -> int:
    """The file of a new network, which this thread is in then."""
    if LIBC.unshare(CLONE_NEWNET):
        raise NotRun(f"there may be no network of its own here: {os.strerror(ctypes.get_errno())}")
    run(["ip", "link", "set", "lo", "up"])
    return os.open("/proc/thread-self/ns/net", os.O_RDONLY)


@pytest.fixture
def network() -> Iterator[int]:
    """A network for the test and for all that it starts."""
    before = os.open("/proc/thread-self/ns/net", os.O_RDONLY)
    it = made()
    yield it
    enter(before)
    os.close(before)
    os.close(it)


@pytest.fixture
def beside(network: int) -> Iterator[int]:
    """Another one, where the addresses of PEERS are, joined to that of the test, where HERE are."""
    it = made()
    enter(network)
    there = f"/proc/{os.getpid()}/fd/{it}"
    run(["ip", "link", "add", "joined", "type", "veth", "peer", "name", "joined", "netns", there])
    for place, addresses in {it: PEERS, network: HERE}.items():
        enter(place)
        for address in addresses:
            run(["ip", "address", "add", address, "dev", "joined", *(["nodad"] if ":" in address else [])])
        run(["ip", "link", "set", "joined", "up"])
    yield it
    os.close(it)


def rules(room: str, ports: str = "{ 80, 443 }") -> None:
    """The rules, for these ports of the proxy, are loaded, and once more."""
    text = text_of("examples/broker.nft")
    for old, new in {"{ 80, 443 }": ports, 'skuid "broker"': f"skuid {NOBODY}"}.items():
        assert old in text, old
        text = text.replace(old, new)
    with open(f"{room}/broker.nft", "w", encoding="utf-8") as it:
        it.write(text)
    for _ in range(2):
        run(["nft", "-f", it.name])


# Connections of one address


def begun(to: tuple[str, int], source: str) -> socket.socket:
    """A connection from this address that isn't waited for."""
    it = socket.socket(socket.AF_INET6 if ":" in source else socket.AF_INET)
    it.setblocking(False)
    it.bind((source, 0))
    it.connect_ex(to)
    return it


def stands(it: socket.socket) -> bool:
    with contextlib.suppress(OSError):
        return bool(it.getpeername())
    return False


def standing(to: tuple[str, int], source: str, count: int) -> list[socket.socket]:
    """Those of so many connections that stand soon; the others are given up."""
    them = [begun(to, source) for _ in range(count)]
    time.sleep(0.3)
    for it in them:
        if not stands(it):
            it.close()
    return [it for it in them if it.fileno() >= 0]


def from_beside(beside: int, network: int, to: tuple[str, int], source: str, count: int) -> list[socket.socket]:
    """The same, by an address there. A socket stays in the network in which it was made."""
    enter(beside)
    try:
        return standing(to, source, count)
    finally:
        enter(network)


def closed(them: list[socket.socket], proxy: socket.socket) -> int:
    """How many they are; both ends of each are closed."""
    for it in them:
        it.close()
        proxy.accept()[0].close()
    return len(them)


def test_connections(network: int, beside: int, room: str) -> None:
    """150 of one address, of both ports together, whatever another one has; and as many again once they are closed."""
    rules(room)
    find = partial(from_beside, beside, network)
    plain, secure = ("10.0.0.1", 80), ("10.0.0.1", 443)
    with socket.create_server(plain), socket.create_server(secure, backlog=1000) as proxy:
        them = find(secure, "10.0.0.3", 200)
        same("of one address", len(them), MOST)
        same("of it at the other port", find(plain, "10.0.0.3", 5), [])
        more = find(secure, "10.0.0.4", 5)
        same("of another address", len(more), 5)
        closed(them + more, proxy)
        await_that(lambda: closed(find(secure, "10.0.0.3", 200), proxy) == MOST, "it has as many again")


def test_networks(network: int, beside: int, room: str) -> None:
    """By IPv6 150 of one network: a machine may have all addresses of one."""
    rules(room)
    find = partial(from_beside, beside, network, ("fd00::1", 443))
    with socket.create_server(("fd00::1", 443), family=socket.AF_INET6, backlog=1000) as proxy:
        await_that(lambda: closed(find("fd00:0:0:1::3", 1), proxy) == 1, "the networks find one another")
        found = [find(it, 100) for it in ("fd00::3", "fd00::4", "fd00:0:0:1::3")]
    same("connections", [len(them) for them in found], [100, MOST - 100, 100])


def is_closed(it: socket.socket, sent: set[socket.socket]) -> bool:
    """Whether it is closed. Once it stands TLS is begun on it."""
    try:
        if it not in sent and stands(it):
            it.send(b"\x16\x03\x01")
            sent.add(it)
        return it in sent and not it.recv(100)
    except BlockingIOError:
        return False
    except ConnectionError:
        return True


@pytest.mark.timing
def test_slow_heads(network: int, front: Front, room: str) -> None:
    """One address begins heads on more connections than nginx has, again as they are closed: another is answered."""
    rules(room, str(front.address[1]))
    ends, counts = threading.Event(), [0]

    def attack() -> None:
        them: set[socket.socket] = set()
        sent: set[socket.socket] = set()
        while not ends.wait(0.05):
            them |= {begun(front.address, "127.0.0.3") for _ in range(SLOW - len(them))}
            for it in [it for it in them if is_closed(it, sent)]:
                it.close()
                them.remove(it)
            counts.append(sum(map(stands, them)))
        for it in them:
            it.close()

    attacker = threading.Thread(target=attack, daemon=True)
    attacker.start()
    try:
        await_that(lambda: counts[-1] >= MOST, "it has what it may")
        end, answers = time.monotonic() + HEADS + 3, []
        while time.monotonic() < end:
            answers.append(is_answered(front))
            time.sleep(0.1)
    finally:
        ends.set()
        attacker.join()
    same("whether another address is answered, each time", answers, [True] * len(answers))
    same("connections of the one", max(counts), MOST)


# The broker's port


@contextlib.contextmanager
def listener(at: str, user: int, backlog: int = 10) -> Iterator[None]:
    """This user listens at the broker's port, of this address."""
    words = ["setpriv", f"--reuid={user}", "--clear-groups", "/usr/bin/python3", "-c", LISTENER, at]
    with subprocess.Popen([*words, str(PORT), str(backlog)], stdout=subprocess.PIPE) as it:
        try:
            assert it.stdout and it.stdout.readline()
            yield
        finally:
            it.kill()


def answered(to: str) -> bytes:
    """What whoever listens there says to a token; nothing if he doesn't get it."""
    with contextlib.suppress(TimeoutError), socket.create_connection((to, PORT), 1) as it:
        it.sendall(b"token")
        return it.recv(100)
    return b""


@pytest.mark.parametrize("at", ["127.0.0.1", "0.0.0.0", "::", "::1"])
def test_listeners(network: int, room: str, at: str) -> None:
    """Who listens there gets no token, nor if he has more connections than he takes, which the kernel then answers by
    itself; the broker's user gets it."""
    rules(room)
    to = "::1" if at == "::1" else "127.0.0.1"
    for user, wanted in {NOBODY: b"taken", OTHER: b"", 0: b""}.items():
        with listener(at, user):
            same(f"what the user {user} says at {at}", answered(to), wanted)
    with listener(at, OTHER, 1):
        same("connections of many to another account", len(standing((to, PORT), to, 300)), 0)


def test_broker(network: int, room: str, open_program: str, open_room: str) -> None:
    """The broker itself is asked as before, also by many at once."""
    rules(room)
    file = new_file(open_program, open_room)
    for path in open_room, *(it.path for it in os.scandir(open_room)):
        os.chown(path, NOBODY, NOBODY)
    before = ["setpriv", f"--reuid={NOBODY}", "--clear-groups"]
    with Server(open_program, file, address=("127.0.0.1", PORT), before=before) as server:
        for _ in range(200):
            same("an answer", server.ask("GET", "/").status, 404)
        peers = standing(server.address, "127.0.0.1", 60)
        for it in peers:
            it.setblocking(True)
            it.settimeout(20)
            it.sendall(b"GET / HTTP/1.1\r\nhost: x\r\nconnection: close\r\n\r\n")
        same("of many at once", {it.recv(12) for it in peers}, {b"HTTP/1.1 404"})


# How it is loaded

LOADED = r"""
cd @TOP@
id broker > /dev/null 2>&1 || useradd --system broker
rm -f /etc/nginx/sites-enabled/*
mkdir -p /var/log/nginx
@LINES@
systemctl is-active nginx
systemctl stop nginx
nft delete table inet broker
systemctl start nginx
nft list table inet broker | grep -c skuid
"""


@pytest.mark.needs("nginx", "unshare")
def test_loaded(machine: Machine) -> None:
    """By the lines at its head the rules are there before the proxy starts, each time."""
    lines = "\n".join(re.findall(r"(?m)^#   (.*)$", text_of("examples/broker.nft")))
    status, output, errors = machine(LOADED.replace("@TOP@", TOP).replace("@LINES@", lines), [TOP], 120)
    same("what is said", (status, output), (0, "active\n1\n"))
    same("errors", errors, "")
