"""A disk that fails under a serving broker. A full one: a small file system (a tmpfs, if one can be mounted here; else
a limit on the size of files) becomes full, and later has room again. One that fails at random: `fiu-run` (the Debian
package fiu-utils) lets calls of the system fail: opens, reads, writes, also short ones, changes of length and syncs.

In each run one command after another is sent, of those that name, publish, record a result and deploy, each independent
of the others. Then the program serves the file with no failure, and each command is sent again: it is `already` if it
is there. What is right, by docs/API.md and docs/OPERATING.md: a command that was answered `done` is there; one that was
answered `stopped` or `memory` isn't; one that was answered `store`, or had no answer, is there as a whole or not at
all. And SQLite's own integrity_check and foreign_key_check find a copy of the files sound."""
import contextlib, os, resource, socket, sqlite3, subprocess, tempfile
from collections.abc import Iterator
import pytest
from tests.players.scenario_plays import place_copy
from tests.process import Server, ran
from tests.wire import OFFICE, Wrong, next_answer, request, same
from tests.world import BLUE, RED, new_file

PLACE = "/pacts/provider/stock/consumer/shop/version"
DONE, ALREADY = '"answer":"done"', '"answer":"already"'
# What an answer says of its command: it is there, it isn't, or either.
THERE, ABSENT, EITHER = "there", "absent", "either"
ANSWERS = {DONE: THERE, '{"answer":"stopped"}': ABSENT, '{"answer":"memory"}': ABSENT, '{"answer":"store"}': EITHER}


# Commands


def pact(text: str) -> str:
    body = '"response":{"status":200,"body":"%s"}' % ("x" * 1500)
    asked = '"description":"%s","request":{"method":"GET","path":"/"}' % text
    return '{"consumer":{"name":"shop"},"provider":{"name":"stock"},"interactions":[{%s,%s}]}' % (asked, body)


FIRST = [
    request("PUT", "/teams/red", body='{"token":"%s"}' % RED),
    request("PUT", "/teams/blue", body='{"token":"%s"}' % BLUE),
    request("PUT", "/pacticipants/shop", body='{"team":"red"}'),
    request("PUT", "/pacticipants/stock", body='{"team":"blue"}'),
    request("PUT", "/environments/live", body='{"gated":true}'),
    request("PUT", "/grants/team/blue/environment/live"),
    request("PUT", "/pacticipants/stock/versions/1", BLUE),
    request("PUT", f"{PLACE}/first", RED, pact("first")),
]


def command(number: int) -> bytes:
    """The command of this number. None needs another one, but for those of FIRST."""
    result = '{"providerApplicationVersion":"p-%d","success":true,"run":"run-%d"}' % (number, number)
    deployed = '{"pacticipant":"stock","version":"1","instance":"instance-%d"}' % number
    kinds = [
        request("PUT", f"/teams/team-{number}", OFFICE, '{"token":"token-of-the-team-%d"}' % number),
        request("PUT", f"/pacticipants/shop/versions/named-{number}", RED, '{"branch":"branch-%d"}' % number),
        request("PUT", f"{PLACE}/published-{number}", RED, pact(str(number))),
        request("POST", f"{PLACE}/first/results", BLUE, result),
        request("POST", "/environments/live/deployments", BLUE, deployed),
    ]
    return kinds[number % len(kinds)]


# The program


class Line:
    """A client of a broker, on connections that are opened as they are needed."""

    def __init__(self, server: Server) -> None:
        self.server = server
        self.peer: socket.socket | None = None

    def hang_up(self) -> None:
        if self.peer:
            self.peer.close()
        self.peer = None

    def connect(self) -> bool:
        """Whether there is a connection: there is none once the program has ended."""
        while not self.peer and not self.server.has_ended():
            try:
                self.peer = self.server.connect()
            except Wrong:
                if not self.server.has_ended():
                    raise
            except OSError:
                pass
        return self.peer is not None

    def ask(self, text: bytes) -> str | None:
        """The body of the answer, or None if there is none: then the connection is over."""
        assert self.peer
        try:
            self.peer.sendall(text)
            return next_answer(self.peer).body
        except TimeoutError:
            raise Wrong("a command has no answer and its connection stays open") from None
        except OSError:
            self.hang_up()
            return None


@contextlib.contextmanager
def served(program: str, file: str, before: list[str] | None = None, most: int | None = None) -> Iterator[Line]:
    """A client of a broker that serves the file; the broker is killed, as it may be at any time."""
    limits = [(resource.RLIMIT_FSIZE, most)] if most else []
    server = Server(program, file, before=before or [], limits=limits)
    server.begin()
    line = Line(server)
    try:
        yield line
    finally:
        line.hang_up()
        server.kill()


def said_by(answer: str | None) -> str:
    """What this answer says of its command."""
    if answer is None:
        return EITHER
    for text, meaning in ANSWERS.items():
        if text in answer:
            return meaning
    raise Wrong(f"a command is answered {answer!r}")


def send(line: Line, told: list[str], last: int) -> None:
    """Sends the commands up to this number, until the program ends; puts what is said of each to what is told."""
    while len(told) < last and line.connect():
        meaning = said_by(line.ask(command(len(told))))
        told.append(meaning)
        if meaning == ABSENT:
            # The broker is stopped until the next connection.
            line.hang_up()


def file_with_first(program: str, room: str) -> str:
    """A broker's file with what the commands need; it is closed, so that all is in the file itself."""
    file = new_file(program, room)
    with served(program, file) as line:
        for text in FIRST:
            line.connect()
            same("an answer", said_by(line.ask(text)), THERE)
    return file


# What is right


def sound(file: str, room: str) -> None:
    """SQLite finds a copy of the files sound."""
    place_copy(file, f"{room}/copy.db")
    base = sqlite3.connect(f"{room}/copy.db")
    same("integrity_check", base.execute("PRAGMA integrity_check").fetchall(), [("ok",)])
    same("foreign_key_check", base.execute("PRAGMA foreign_key_check").fetchall(), [])
    base.close()


def found(program: str, file: str, told: list[str]) -> None:
    """Each command is there or not, as it was told; the file is served where there is room and nothing fails."""
    with tempfile.TemporaryDirectory() as room:
        sound(file, room)
        moved = f"{room}/broker.db"
        place_copy(file, moved)
        with served(program, moved) as line:
            for text in FIRST:
                assert line.connect(), f"the file isn't opened again: {line.server.log()}"
                same("a command from before", ALREADY in (line.ask(text) or ""), True)
            for number, meaning in enumerate(told):
                line.connect()
                answer = line.ask(command(number)) or ""
                is_there = ALREADY in answer
                assert is_there or DONE in answer, f"command {number} is answered {answer!r}"
                is_right = meaning in (EITHER, THERE if is_there else ABSENT)
                assert is_right, f"command {number} was told to be {meaning}, and is {'' if is_there else 'not '}there"
        sound(moved, room)


# A full disk


@contextlib.contextmanager
def small_disk(room: str, size: int = 4) -> Iterator[bool]:
    """A file system of so many MiB on the folder, or none if none can be mounted: then a limit on the size of files is
    tried."""
    words = ["mount", "-t", "tmpfs", "-o", f"size={size}m", "tmpfs", room]
    done = subprocess.run(words, capture_output=True, check=False)
    try:
        yield done.returncode == 0
    finally:
        if done.returncode == 0:
            subprocess.run(["umount", "-l", room], check=True)


def filled(room: str, left: int) -> str:
    """Fills the disk of the folder but for so many bytes; tells the file that does."""
    free = os.statvfs(room)
    with open(f"{room}/filler", "wb") as it:
        it.write(bytes(max(0, free.f_bavail * free.f_frsize - left)))
    return f"{room}/filler"


SIZES = 0, 1, 5_000, 50_000, 250_000, 280_000, 300_000, 400_000, 600_000, 1_000_000
BY_HAND = [it if it in (0, 300_000) else pytest.param(it, marks=pytest.mark.by_hand) for it in SIZES]


@pytest.mark.parametrize("left", BY_HAND)
def test_a_disk_that_becomes_full(program: str, left: int) -> None:
    """The disk has so many bytes left: commands are refused, and done again once there is room."""
    told: list[str] = []
    with tempfile.TemporaryDirectory() as room, small_disk(room) as is_mounted:
        file = file_with_first(program, room)
        filler = filled(room, left) if is_mounted else ""
        with served(program, file, most=None if is_mounted else os.path.getsize(file) + left) as line:
            while told.count(EITHER) < 3:
                send(line, told, len(told) + 20)
                assert len(told) <= 3000, "the disk takes everything"
                line.hang_up()
            if is_mounted:
                os.remove(filler)
                send(line, told, len(told) + 40)
                same("the last commands, once there is room", told[-20:], [THERE] * 20)
        found(program, file, told)


# Failures at random

# An opening makes about a hundred calls, and a command five.
PROBABILITIES = [0.01, 0.03, 0.003]
POINTS = ["posix/io/oc/open", "posix/io/rw/pread*", "posix/io/rw/pwrite*", "posix/io/rw/ftruncate", "posix/io/sync/*"]
# How many brokers are tried at least, and at most until a call has failed, and how many commands each is sent.
LEAST, MOST, COMMANDS = 3, 60, 60


def failing(probability: float) -> list[str]:
    """The words before a program whose calls of the system fail with this probability."""
    words = ["fiu-run", "-x", "-f", ""]
    for it in POINTS:
        words += ["-c", f"enable_random name={it},probability={probability}"]
    return words


def made_on_failing(program: str, room: str, probability: float) -> None:
    """A file that is made while calls fail: `init` says 0 only if it is there, and can be run again."""
    file = f"{room}/made.db"
    words = [program, "init", "--file", file, "--office-token", OFFICE]
    status, _, errors = ran([*failing(probability), *words])
    assert status in (0, 3), f"init ends with {status}: {errors}"
    wanted = [(3, "open 1\n")] if status == 0 else [(0, ""), (3, "open 1\n")]
    again = ran(words)
    assert (again.status, again.errors) in wanted, f"init again ends with {again}"
    with served(program, file) as line:
        line.connect()
        same("the first command", said_by(line.ask(FIRST[0])), THERE)


def at_random(program: str, probability: float) -> list[str]:
    """A broker whose calls fail: it is started again each time that it ends."""
    told, starts = list[str](), 0
    with tempfile.TemporaryDirectory() as room:
        made_on_failing(program, room, probability)
        file = file_with_first(program, room)
        while len(told) < COMMANDS and starts < 60:
            starts += 1
            with served(program, file, failing(probability)) as line:
                send(line, told, COMMANDS)
        found(program, file, told)
    return told


@pytest.mark.needs("fiu-run")
def test_a_disk_that_fails_at_random(program: str) -> None:
    """At least some brokers, and so many that a call has failed."""
    runs, has_failed = 0, False
    while runs < LEAST or not has_failed:
        assert runs < MOST, "no call has failed"
        has_failed |= EITHER in at_random(program, PROBABILITIES[runs % len(PROBABILITIES)])
        runs += 1
