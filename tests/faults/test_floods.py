"""Peers that keep a serving broker busy for as long as they like, each kind of them beside a client that asks once a
second with a connection of its own, each other time by a body of 900,000 bytes: each of its answers comes within three
seconds. A connection of a flood that the broker ends is opened again at once."""
import resource, selectors, socket, struct, threading, time
from collections.abc import Iterator
from typing import NamedTuple
import pytest
from tests.broker.parts import former_file
from tests.process import Server, ran, slowness
from tests.wire import request, same
from tests.world import RED, pact

pytestmark = [pytest.mark.timing, pytest.mark.by_both]
# Seconds: for an answer, for a flood, from one question to the next, and from one byte of a trickle to the next.
MOST, LASTS, EACH, APART = 3.0, 6.5, 1.0, 0.4
QUESTION = request("GET", "/environments/none")
# The same with a body, as that of a large pact file.
LONG_QUESTION = request("GET", "/environments/none", body=" " * 900_000)
ANSWER = b"HTTP/1.1 404 "
# Without a token, as anybody on the machine can ask.
ASKED = b"GET /environments/none HTTP/1.1\r\nhost: b\r\n\r\n"
PUT = request("PUT", "/teams/red", body=" " * 900)
HEAD, BODY = PUT[: PUT.index(b"\r\n\r\n") + 4], b" "
# Without a token too: a body of a megabyte that lacks all but the first bytes, and one that lacks the last byte.
LARGE = b"PUT /teams/red HTTP/1.1\r\nhost: b\r\ncontent-length: %d\r\n\r\n"
BEGUN = (LARGE % 1_000_000).ljust(16_500, b" ")
LACKING = (LARGE % 20_000) + b" " * 19_999


class Kind(NamedTuple):
    """A kind of peer: how many there are, what each sends at first, and what again and again (`always`, one request),
    for each answer (`after`), and now and then (`trickles`); whether it reads its answers; and whether it goes at once,
    by a reset, and another one comes."""

    many: int
    first: bytes = b""
    always: bytes = b""
    after: bytes = b""
    trickles: bytes = b""
    reads: bool = True
    goes: bool = False


KINDS = {
    "a pipeline without an end": Kind(1, always=ASKED),
    "four pipelines without an end": Kind(4, always=ASKED),
    "three that ask one after another": Kind(3, first=ASKED, after=ASKED),
    "twenty that are silent": Kind(20),
    "twenty begun heads": Kind(20, first=HEAD[:20]),
    "twenty heads that trickle": Kind(20, first=HEAD[:20], trickles=b"x"),
    "six bodies that trickle": Kind(6, first=HEAD, trickles=BODY),
    "five large bodies that stop": Kind(5, first=BEGUN),
    "sixty large bodies that stop": Kind(60, first=BEGUN),
    "twenty large bodies that trickle": Kind(20, first=BEGUN, trickles=BODY),
    "twenty large bodies that lack a byte": Kind(20, first=LACKING),
    "thirty that ask and begin to ask again": Kind(30, first=ASKED + HEAD[:20]),
    "thirty that ask and send a part of a large body": Kind(30, first=ASKED + BEGUN),
    "a pipeline whose answers aren't read": Kind(1, always=ASKED, reads=False),
    "twenty pipelines whose answers aren't read": Kind(20, always=ASKED, reads=False),
    "a hundred that are silent": Kind(100),
    "three hundred large bodies that stop": Kind(300, first=BEGUN),
    "twenty that ask, are reset and come again": Kind(20, first=ASKED, goes=True),
}


class Flood(threading.Thread):
    """Peers of a kind, until it is ended."""

    def __init__(self, port: int, kind: Kind) -> None:
        super().__init__(daemon=True)
        self.port, self.kind, self.stream = port, kind, kind.always * 500
        self.ends = threading.Event()
        self.peers = selectors.DefaultSelector()
        # How many connections were opened, and how many bytes of answers came.
        self.opened, self.came = 0, 0
        # How many bytes each has sent of what it always sends.
        self.sent: dict[socket.socket, int] = {}

    def open(self) -> None:
        it = socket.socket()
        if not self.kind.reads:
            it.setsockopt(socket.SOL_SOCKET, socket.SO_RCVBUF, 4096)
        it.settimeout(30)
        it.connect(("127.0.0.1", self.port))
        it.setsockopt(socket.IPPROTO_TCP, socket.TCP_NODELAY, 1)
        it.setblocking(False)
        if self.kind.first:
            it.send(self.kind.first)
        wanted = (selectors.EVENT_READ if self.kind.reads else 0) | (selectors.EVENT_WRITE if self.kind.always else 0)
        # One that neither reads nor sends any more isn't looked at again.
        if wanted:
            self.peers.register(it, wanted)
        self.sent[it] = 0
        self.opened += 1

    def again(self, it: socket.socket) -> None:
        """Another one in the place of one that was ended."""
        self.peers.unregister(it)
        del self.sent[it]
        it.close()
        self.open()

    def go_on(self, it: socket.socket, events: int) -> None:
        """Takes what has come, and sends what is to be sent."""
        if events & selectors.EVENT_READ:
            text = it.recv(1 << 18)
            if not text:
                raise ConnectionError("ended")
            self.came += len(text)
            if self.kind.after:
                it.send(self.kind.after)
        if events & selectors.EVENT_WRITE:
            self.sent[it] += it.send(self.stream[self.sent[it] % len(self.kind.always) :])

    def trickle(self) -> None:
        for key in list(self.peers.get_map().values()):
            it = key.fileobj
            assert isinstance(it, socket.socket)
            try:
                it.send(self.kind.trickles)
            except OSError:
                self.again(it)

    def go(self) -> None:
        """All go by a reset, and as many come."""
        for it in list(self.sent):
            it.setsockopt(socket.SOL_SOCKET, socket.SO_LINGER, struct.pack("ii", 1, 0))
            self.again(it)

    def run(self) -> None:
        for _ in range(self.kind.many):
            self.open()
        trickled = time.monotonic()
        while not self.ends.is_set():
            if self.kind.goes:
                self.go()
                continue
            for key, events in self.peers.select(0.05):
                it = key.fileobj
                assert isinstance(it, socket.socket)
                try:
                    self.go_on(it, events)
                except BlockingIOError:
                    pass
                except OSError:
                    self.again(it)
            if self.kind.trickles and time.monotonic() - trickled > APART:
                trickled = time.monotonic()
                self.trickle()

    def end(self) -> None:
        self.ends.set()
        self.join(10)
        for it in self.sent:
            it.close()

    def is_one(self, least: int) -> bool:
        """Whether these peers did what their kind does: their connections are all there, and who asks was answered, by
        more than so many bytes."""
        asks = bool(self.kind.always or self.kind.after) and self.kind.reads
        opens = self.kind.many * (10 if self.kind.goes else 1)
        return self.is_alive() and self.opened >= opens and (not asks or self.came > least)


def ask(port: int, question: bytes) -> float:
    """Asks on a connection of its own, and tells how long the answer took."""
    began = time.monotonic()
    with socket.create_connection(("127.0.0.1", port), 4 * MOST) as it:
        it.sendall(question)
        text = it.recv(65536)
    same("the answer", text[: len(ANSWER)], ANSWER)
    return time.monotonic() - began


def held_up(server: Server, *kinds: Kind, lasts: float = LASTS) -> float:
    """How long the slowest answer takes beside these peers."""
    floods, times = [Flood(server.port, it) for it in kinds], list[float]()
    for flood in floods:
        flood.start()
    try:
        end = time.monotonic() + lasts
        time.sleep(0.3)
        while time.monotonic() < end:
            times.append(ask(server.port, LONG_QUESTION if len(times) % 2 else QUESTION))
            time.sleep(max(0.0, EACH - times[-1]))
        # Beside others a flood may have had few of its answers.
        least = 10_000 if len(floods) == 1 else 0
        assert all(it.is_one(least) for it in floods), "there was no flood"
    finally:
        for flood in floods:
            flood.end()
    return max(times)


@pytest.mark.parametrize("name", KINDS)
def test_each_answer_comes_in_time(server: Server, name: str) -> None:
    assert held_up(server, KINDS[name]) <= MOST


def test_each_answer_comes_in_time_by_few_descriptors(program: str, broker_file: str) -> None:
    """Beside more silent peers than the process may have open: 64 that wait, one that is served by two, the file and its
    log, the streams and where it listens are 72."""
    with Server(program, broker_file, limits=[(resource.RLIMIT_NOFILE, 72)]) as server:
        assert held_up(server, Kind(100)) <= MOST


# A hundred thousand releases, whose listing has 4.8 MB, and a contract of a megabyte.
RELEASES = """
WITH RECURSIVE n (i) AS (SELECT 10 UNION ALL SELECT i + 1 FROM n WHERE i < 100009)
INSERT INTO versions SELECT i, 'stock', 'build-' || i FROM n;
INSERT INTO released SELECT 'live', number FROM versions WHERE number >= 10;
"""
LISTED = request("GET", "/environments/live", RED)
GATE = request("GET", "/can-i-deploy?pacticipant=shop&version=large&environment=live", RED)
CONTRACT = "/pacts/provider/stock/consumer/shop/version/large"
# The broker's own work for each listing, some 0.2 to 0.5 seconds, comes to the two that all of them cost together.
LONG = {
    "a long listing that isn't read": (Kind(1, first=LISTED, reads=False), MOST),
    "two long listings that aren't read": (Kind(2, first=LISTED, reads=False), MOST + 1),
    "eight times ten large contracts that aren't read": (
        Kind(8, first=request("GET", CONTRACT, RED) * 10, reads=False), MOST),
    "three pipelines of long listings": (Kind(3, always=LISTED), MOST),
    "three pipelines of the gate over a hundred thousand": (Kind(3, always=GATE), MOST),
}


@pytest.fixture(scope="module")
def filled(program: str, tmp_path_factory: pytest.TempPathFactory) -> Iterator[Server]:
    """A broker that has these."""
    file = former_file(str(tmp_path_factory.mktemp("filled")), RELEASES)
    same("migrate", ran([program, "migrate", "--file", file]), (0, "", ""))
    with Server(program, file) as server:
        server.do("PUT", CONTRACT, RED, pact("x" * 1_000_000))
        yield server


@pytest.mark.parametrize("name", LONG)
def test_each_answer_comes_in_time_beside_long_ones(filled: Server, name: str) -> None:
    """Its own work is much of this, for which it may take longer if others slow the machine down."""
    kind, most = LONG[name]
    longest = held_up(filled, kind)
    assert longest <= most or longest <= most * slowness(time.monotonic)


# All but the last byte of a request that is as large as one may be.
LARGEST = (LARGE % 1_048_576) + b" " * 1_048_575
# In megabytes, beside the program's own: 64 heads and bodies, as docs/OPERATING.md says, and a tenth more.
ROOM = 75


def megabytes(server: Server, what: str) -> float:
    """What the process has of memory: VmRSS, or the most that it had, VmHWM."""
    with open(f"/proc/{server.process.pid}/status", encoding="ascii") as it:
        return next(int(line.split()[1]) * 1024 / 1e6 for line in it if line.startswith(what))


def test_what_those_send_that_wait_takes_no_more_than_is_said(server: Server) -> None:
    ask(server.port, LONG_QUESTION)
    own = megabytes(server, "VmRSS")
    peers = [socket.create_connection(("127.0.0.1", server.port), 10) for _ in range(70)]
    for it in peers:
        try:
            it.sendall(LARGEST)
        except OSError:
            pass
    assert ask(server.port, LONG_QUESTION) <= MOST
    same("a few were sent", megabytes(server, "VmHWM") > own + 20, True)
    assert megabytes(server, "VmHWM") <= own + ROOM
    for it in peers:
        it.close()
