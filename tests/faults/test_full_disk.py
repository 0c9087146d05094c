"""On a full disk a change is refused, and who reads waits no longer than the file takes to be opened again: over a large
file, beside a build that goes on publishing as fast as it is answered (docs/LIMITS.md has what was measured)."""
import collections, hashlib, os, shutil, tempfile, threading, time
from typing import NamedTuple
import pytest
from tests.broker.parts import question
from tests.faults.test_failing_disk import filled, small_disk
from tests.players.files import statements
from tests.process import Server, ran, slowness
from tests.wire import NotRun, same
from tests.world import BLUE, RED, new_file, pact

pytestmark = pytest.mark.timing
# So many contracts have 47 MB.
CONTRACTS = 10_550
# Seconds: that a reader waits at most on an ordinary processor, how long it is tried, and from one question to the next.
MOST, LASTS, EACH = 5.0, 12.0, 0.3
# Contracts of their own texts, each with two versions and a result.
ROWS = """
INSERT INTO teams VALUES ('red', '%s'), ('blue', '%s');
INSERT INTO pacticipants VALUES ('shop', 'red'), ('stock', 'blue');
INSERT INTO environments VALUES ('live', 1);
CREATE TEMP TABLE n AS WITH RECURSIVE n (i) AS (SELECT 1 UNION ALL SELECT i + 1 FROM n WHERE i < %d) SELECT i FROM n;
INSERT INTO versions SELECT 2 * i - 1, 'shop', i FROM n;
INSERT INTO versions SELECT 2 * i, 'stock', i FROM n;
INSERT INTO contents SELECT i, lower(hex(randomblob(32))), lower(hex(randomblob(1100))) FROM n;
INSERT INTO contracts SELECT 2 * i - 1, 'stock', i FROM n;
INSERT INTO results SELECT i, i, 'stock', 2 * i, 1, 'run-' || i FROM n;
INSERT INTO latest SELECT i, 2 * i, i FROM n;
INSERT INTO deployed VALUES ('live', 'stock', '', 2);
"""
MATRIX = "/matrix?pacticipant=shop&version=7"
SHOWN = (
    '{"answer":"shown","rows":[{"consumer":"shop","consumerVersion":"7","evidence":"claimed","provider":"stock",'
    '"providerVersion":"7","result":7,"success":true}]}'
)


class Waited(NamedTuple):
    """The file's bytes, an opening's seconds, the longest that a reader waited, and how each publication ended."""

    size: int
    opening: float
    longest: float
    published: dict[str, int]


class Publisher(threading.Thread):
    """A build that goes on publishing, until it is ended."""

    def __init__(self, server: Server) -> None:
        super().__init__(daemon=True)
        self.server, self.ends, self.answers = server, threading.Event(), collections.Counter[str]()

    def run(self) -> None:
        number = 0
        while not self.ends.is_set():
            number += 1
            path = f"/pacts/provider/stock/consumer/shop/version/new-{number}"
            answer = self.server.ask("PUT", path, RED, pact("x" * 40_000 + str(number)))
            self.answers[answer.body.split('"')[3]] += 1


def large_file(program: str, room: str, contracts: int) -> str:
    file = new_file(program, room)
    statements(file, ROWS % (*(hashlib.sha256(it.encode()).hexdigest() for it in (RED, BLUE)), contracts))
    return file


def waits(server: Server) -> tuple[float, dict[str, int]]:
    """The longest wait of a reader beside a publisher, and how each publication ended."""
    publisher, times = Publisher(server), list[float]()
    publisher.start()
    end = time.monotonic() + LASTS
    while time.monotonic() < end:
        began = time.monotonic()
        server.gives((200, SHOWN), "GET", MATRIX, RED)
        times.append(time.monotonic() - began)
        time.sleep(EACH)
    publisher.ends.set()
    publisher.join(60)
    return max(times), dict(publisher.answers)


def measured(program: str, contracts: int) -> Waited:
    with tempfile.TemporaryDirectory() as room, tempfile.TemporaryDirectory() as small:
        made = large_file(program, room, contracts)
        size = os.path.getsize(made)
        with small_disk(small, size // (1 << 20) + 8) as is_mounted:
            if not is_mounted:
                raise NotRun("no small file system can be mounted")
            file = shutil.copy(made, small)
            began = time.monotonic()
            same("the gate", ran([program, *question(file, RED)]).status, 0)
            opening = time.monotonic() - began
            with Server(program, file) as server:
                server.gives((200, SHOWN), "GET", MATRIX, RED)
                filled(small, 0)
                longest, published = waits(server)
            os.remove(f"{small}/filler")
            with Server(program, file) as server:
                server.gives((200, SHOWN), "GET", MATRIX, RED)
        return Waited(size, opening, longest, published)


def test_a_reader_waits_for_no_more_than_two_openings(program: str) -> None:
    found = measured(program, CONTRACTS)
    assert 45_000_000 < found.size < 50_000_000, found
    assert found.published.get("store", 0) > 2, found
    assert found.longest <= MOST or found.longest <= MOST * slowness(time.monotonic), found
