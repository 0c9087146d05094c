"""Pipes and sockets that tell what is taken, so that a text can be cut anywhere: each part is sent once the part before
it is read, which the kernel tells."""
import array, fcntl, os, select, socket, termios, time
from collections.abc import Callable, Sequence
from tests.kernel import is_read
from tests.process import Started
from tests.wire import PATIENCE, Wrong

# What is waited before a look is repeated, at first and at most, since what is soon there is asked for often: it says
# nothing of the order of things, which the look decides.
FIRST, LAST = 0.00002, 0.001


def shown(text: bytes, most: int = 500) -> str:
    """The first of these bytes, on one line."""
    more = f" and {len(text) - most} more bytes" if len(text) > most else ""
    return repr(text[:most].decode(errors="replace")) + more


def number_of(file: "int | socket.socket", ask: int) -> int:
    """The number that the kernel tells of a file when it is asked this."""
    number = array.array("i", [0])
    fcntl.ioctl(file, ask, number)
    return number[0]


def look_until(holds: Callable[[], bool], process: Started, what: str) -> None:
    """Looks again and again, until it holds or the process has ended."""
    end = time.monotonic() + PATIENCE
    ended = select.poll()
    ended.register(process.watch, select.POLLIN)
    pause = FIRST
    while not holds() and not ended.poll(0):
        if time.monotonic() > end:
            raise Wrong(f"{what}: not within {PATIENCE} seconds")
        time.sleep(pause)
        pause = min(2 * pause, LAST)


# Pipes


def write_all(file: int, text: bytes) -> None:
    """Writes all of it, unless nobody reads it any more."""
    rest = memoryview(text)
    try:
        while rest:
            rest = rest[os.write(file, rest) :]
    except BrokenPipeError:
        pass


def send_by_pipe(file: int, pieces: Sequence[bytes], process: Started) -> None:
    """Writes the pieces into a pipe, each once the one before it is taken."""
    for piece in pieces:
        write_all(file, piece)
        look_until(lambda: number_of(file, termios.FIONREAD) == 0, process, "the program reads no further")


# Sockets


def send_by_socket(connection: socket.socket, pieces: Sequence[bytes], process: Started) -> None:
    """Sends the pieces, each once the peer has read the one before it. One that closes the connection reads no more."""
    own, peer = connection.getsockname(), connection.getpeername()
    closed = select.poll()
    closed.register(connection, select.POLLERR | select.POLLHUP)

    def is_taken() -> bool:
        return bool(closed.poll(0)) or number_of(connection, termios.TIOCOUTQ) == 0 and is_read(peer, own)

    try:
        for number, piece in enumerate(pieces):
            if number > 0:
                look_until(is_taken, process, "the peer reads no further")
            connection.sendall(piece)
    except ConnectionError:
        pass


def receive(connection: socket.socket, count: float = float("inf")) -> bytes:
    """The next so many bytes at least, or what comes until the peer closes the connection; a TimeoutError has what came
    before it."""
    parts, length = [], 0
    try:
        while length < count and (part := connection.recv(1 << 16)):
            parts.append(part)
            length += len(part)
    except ConnectionResetError:
        pass
    except TimeoutError:
        raise TimeoutError(b"".join(parts)) from None
    return b"".join(parts)


def is_closed(connection: socket.socket) -> bool:
    """Whether the peer has closed the connection."""
    closed = select.poll()
    closed.register(connection, select.POLLRDHUP)
    return bool(closed.poll(0))
