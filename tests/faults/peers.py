"""Peers of the program that fail at one byte, or make it wait: exactly, and at a clock of their own, so that an hour
takes no time (devices.c)."""
import os, tempfile
from collections.abc import Sequence
from typing import NamedTuple
from tests.players.scenario import Scenario, file_of
from tests.players.shims import MEMORY, library
from tests.process import bytes_of, free_address, ran
from tests.wire import OFFICE, same
from tests.world import new_file

MOST = 1 << 40


class Peer(NamedTuple):
    """What a peer sends, each piece at a time in milliseconds, the empty one as its end; and how it sends and takes."""

    sent: Sequence[tuple[int, bytes]]
    # When it comes; how many bytes a read gives at most; after how many a read fails, and by which error.
    comes: int = 0
    reads: int = MOST
    fails: int = MOST
    read_error: int = 0
    # How many bytes it takes, how many at once and how long apart, and by which error a write fails after them: none
    # is taken if that is 0, and it is waited for if that is -1.
    room: int = MOST
    at_once: int = MOST
    apart: int = 0
    write_error: int = -1
    # Whether a signal cuts each other call short, and how long the program is stopped at the second such.
    signals: int = 0
    stopped: int = 0

    def plan(self) -> str:
        pieces = [number for at, text in self.sent for number in (at, len(text))]
        return " ".join(map(str, [*self[1:], len(self.sent), *pieces]))


class Played(NamedTuple):
    """How the program ended, and of each peer what it took, when its connection was closed, and how many bytes the last
    read asked for."""

    ended: tuple[int, str]
    taken: list[bytes]
    closed: list[int]
    asked: list[int]


def played(words: Sequence[str], peers: Sequence[Peer], **settings: str) -> Played:
    """Runs a program by these words with these peers."""
    with tempfile.TemporaryDirectory(dir=MEMORY) as room:
        for number, peer in enumerate(peers, 1):
            with open(f"{room}/{number}.sent", "wb") as sent:
                sent.write(b"".join(text for _, text in peer.sent))
            with open(f"{room}/{number}.plan", "w", encoding="ascii") as plan:
                plan.write(peer.plan())
        env = {**os.environ, "LD_PRELOAD": library("devices"), "PEERS": room, **settings}
        done = ran(words, env=env)
        numbers = range(1, len(peers) + 1)
        reports = [[int(it) for it in bytes_of(f"{room}/{number}.report").split()] for number in numbers]
        closed, asked = ([*it] for it in zip(*reports))
        return Played((done.status, done.errors), [bytes_of(f"{room}/{it}.taken") for it in numbers], closed, asked)


def replayed(program: str, peer: Peer) -> Played:
    """A replay with the peer as standard input and standard output."""
    return played([program, "replay", "--office-token", OFFICE], [peer], STREAMS="1")


def served(program: str, *peers: Peer) -> Played:
    """A new file that is served to these peers."""
    with tempfile.TemporaryDirectory(dir=MEMORY) as room:
        file, address = new_file(program, room), "%s:%d" % free_address()
        words = [program, "serve", "--file", file, "--listen", address, "--connections", str(len(peers))]
        found = played(words, peers)
        same("the end", found.ended, (0, ""))
        return found


def first_run() -> tuple[list[bytes], list[bytes]]:
    """The requests and the answers of the first run, one by one."""
    stream = Scenario(file_of("first-run")).streams[0]
    return stream.messages, [it.text for it in stream.answers]


def stream_of(texts: Sequence[bytes]) -> list[tuple[int, bytes]]:
    """All of these texts at once, and the end."""
    return [(0, b"".join(texts)), (0, b"")]


def whole_within(texts: Sequence[bytes], count: int) -> int:
    """How many of the texts, one after the other, are whole within so many bytes."""
    return sum(len(b"".join(texts[: number + 1])) <= count for number in range(len(texts)))


def corners(texts: Sequence[bytes]) -> list[int]:
    """Counts of bytes within these texts: at the ends of each, at the end of its head, and one more and one less."""
    found, begin = set[int](), 0
    for text in texts:
        found |= {begin + at + more for at in (0, text.index(b"\r\n\r\n") + 4, len(text)) for more in (-1, 0, 1)}
        begin += len(text)
    return sorted(it for it in found if 0 <= it <= begin)
