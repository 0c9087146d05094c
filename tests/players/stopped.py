"""The program over the two files of a broker, one of which stops at a call; and what is there of them then."""
import contextlib, itertools, os, socket, subprocess, tempfile
from collections.abc import Callable
from typing import NamedTuple
from tests.players.shims import MEMORY, library
from tests.players.stops import MAKINGS
from tests.players.streams import receive
from tests.process import Server, Started, bytes_of, free_address
from tests.wire import Wrong

SIDES = "log", "database"
# More calls than any step makes.
MOST_CALLS = 10_000
# How the program ends if nothing is refused, and how it may end: a file can't be used, there is no broker yet in it, or
# its making or its migration failed.
WELL = 0, b""
ENDS = [WELL, (3, b"file\n"), (3, b"open 2\n"), (3, b"open 5\n")]


class Files(NamedTuple):
    """The bytes of the two files, or None if one isn't there."""

    log: bytes | None
    database: bytes | None


NO_FILES = Files(None, None)


class Stop(NamedTuple):
    """A stop: one of the files passes so many calls on."""

    side: str
    passes: int


NEVER = Stop("log", MOST_CALLS)


class Done(NamedTuple):
    """What came of an act: what was put out, how the program ended, the files as they were written and as they were
    last synced, and whether no call was refused."""

    out: bytes
    ended: tuple[int, bytes]
    written: Files
    synced: Files
    is_whole: bool


def read(path: str) -> bytes | None:
    """What a file holds, or None if it isn't there."""
    try:
        return bytes_of(path)
    except FileNotFoundError:
        return None


def write(path: str, text: bytes | None) -> None:
    """Makes a file of these bytes, if there are any."""
    if text is not None:
        with open(path, "wb") as it:
            it.write(text)


def talk(server: Server, stream: bytes) -> bytes:
    """What the program answers to this stream, on one connection; nothing if it ends before it listens."""
    try:
        peer = server.connect()
    except Wrong:
        return b""
    with peer, contextlib.suppress(ConnectionError):
        peer.sendall(stream)
        peer.shutdown(socket.SHUT_WR)
        return receive(peer)
    return b""


class Room:
    """A folder with copies of the files, over which the program is run once."""

    def __init__(self, folder: str, files: Files) -> None:
        self.folder, self.files, self.file = folder, files, f"{folder}/broker.db"
        os.mkdir(f"{folder}/kept")
        write(f"{self.file}-wal", files.log)
        write(self.file, files.database)

    def environment(self, stop: Stop, settings: dict[str, str]) -> dict[str, str]:
        shim = {"LD_PRELOAD": library("stops"), "STOPS_FILE": self.file, "STOPS_KEPT": f"{self.folder}/kept"}
        return {**os.environ, **shim, "STOPS_SIDE": stop.side, "STOPS_PASSES": str(stop.passes), **settings}

    def written(self) -> Files:
        return Files(read(f"{self.file}-wal"), read(self.file))

    def synced(self) -> Files:
        """The files as they were last synced, or as they were before."""
        last = [read(f"{self.folder}/kept/{side}") for side in SIDES]
        return Files(*(it if it is not None else before for it, before in zip(last, self.files)))

    def has_refused(self) -> bool:
        _, of_database, _, of_log = (int(it) for it in (read(f"{self.folder}/kept/calls") or b"").split())
        return of_database + of_log > 0


def outcome(process: Started, talks: Callable[[], bytes]) -> tuple[bytes, tuple[int, bytes]]:
    """What the program puts out as it is talked to, and how it ends."""
    process.begin()
    try:
        out = talks()
        return out, (process.finish(), process.errors())
    finally:
        process.kill()


def acted(program: str, office: str, files: Files, act: bytes | str, stop: Stop = NEVER, **settings: str) -> Done:
    """Does this over copies of the files, one of which stops there: makes, migrates, or serves a stream."""
    with tempfile.TemporaryDirectory(dir=MEMORY) as folder:
        room = Room(os.path.realpath(folder), files)
        environment = room.environment(stop, settings)
        if isinstance(act, str):
            words = [program, MAKINGS[act], "--file", room.file]
            words += ["--office-token", office] if act == "create" else []
            quiet = Started(words, env=environment, stdin=subprocess.DEVNULL, stdout=subprocess.DEVNULL)
            _, ended = outcome(quiet, bytes)
            out = b"done" if ended == WELL else b""
        else:
            stream, server = act, Server(program, room.file, 1, free_address(), env=environment)
            out, ended = outcome(server, lambda: talk(server, stream))
        return Done(out, ended, room.written(), room.synced(), not room.has_refused())


def ways(done: Done) -> set[Files]:
    """What there may be of the files after a stop: each as it was last synced, or as it was written."""
    return set(itertools.starmap(Files, itertools.product(*zip(done.synced, done.written))))
