"""Peers that make a serving broker wait, and what others get meanwhile: each is answered in time. Nearly all of a
minute and a half is waiting. That a broker which waits otherwise is seen: test_wrong_waits.py."""
import socket, threading, time
from collections.abc import Callable, Iterator
import pytest
from tests.process import Server
from tests.wire import all_of, request, same
from tests.world import served

pytestmark = pytest.mark.timing
ASK = request("GET", "/environments/none").replace(b"content-length: 0\r\n", b"")
# What a peer does, until it is stopped.
Peer = Callable[[socket.socket, threading.Event], object]


@pytest.fixture(scope="module")
def broker(program: str, tmp_path_factory: pytest.TempPathFactory) -> Iterator[Server]:
    """The broker of these tests, which may be one that waits otherwise (test_wrong_waits.py)."""
    with served(program, str(tmp_path_factory.mktemp("slow"))) as it:
        yield it


def opened(broker: Server, room: int | None = None) -> socket.socket:
    """A connection that takes so many bytes unread, if that is said."""
    it = socket.socket()
    it.settimeout(30)
    if room:
        it.setsockopt(socket.SOL_SOCKET, socket.SO_RCVBUF, room)
    it.connect(broker.address)
    return it


def took(broker: Server) -> float:
    """How long an answer takes, on a connection of its own."""
    began = time.monotonic()
    with opened(broker) as it:
        it.sendall(ASK)
        text = it.recv(65536)
    same("the answer to another peer", text[:13], b"HTTP/1.1 404 ")
    return time.monotonic() - began


def idle(slow: socket.socket, _: threading.Event) -> None:
    slow.sendall(ASK)
    slow.recv(65536)


def trickle(slow: socket.socket, stop: threading.Event) -> None:
    for byte in ASK[:-1]:
        if stop.is_set():
            return
        try:
            slow.sendall(bytes([byte]))
        except OSError:
            return
        time.sleep(1)


def push(slow: socket.socket, sent: int) -> int:
    """Sends more of a stream of requests, as far as there is room for it, and tells how much of it is sent then."""
    try:
        return sent + slow.send((ASK * 1000)[sent % len(ASK) :])
    except OSError:
        return sent


def unread(slow: socket.socket, stop: threading.Event) -> None:
    slow.settimeout(1)
    sent = 0
    while not stop.is_set():
        sent = push(slow, sent)


def partly(slow: socket.socket, stop: threading.Event) -> None:
    """Takes a part of what is sent, and then stops."""
    slow.settimeout(1)
    sent = push(slow, 0)
    slow.recv(1000)
    while not stop.is_set():
        sent = push(slow, sent)


def sip(slow: socket.socket, stop: threading.Event) -> None:
    """Takes 2,000 bytes whenever there is no room to send more: once a second, as soon as the broker waits for it. So
    each write finds room, but the answers to what the broker has read at once, some 30,000 bytes, take longer than
    their limit; those before them may be through within it."""
    slow.settimeout(1)
    sent, is_open = 0, True
    while is_open and not stop.is_set():
        sent = push(slow, sent)
        try:
            is_open = bool(slow.recv(2000))
        except OSError:
            return


def silent(_: socket.socket, stop: threading.Event) -> None:
    stop.wait()


def half_a_head(slow: socket.socket, _: threading.Event) -> None:
    slow.sendall(ASK[:20])


def half_a_body(slow: socket.socket, _: threading.Event) -> None:
    slow.sendall(ASK.replace(b"GET", b"PUT")[:-2] + b"content-length: 9\r\n\r\n{}")


# A peer, within how many seconds another one is answered meanwhile, and how many bytes it takes unread.
HOLDS: dict[str, tuple[Peer, float, int | None]] = {
    "idle after an answer": (idle, 1, None),
    "silent from the start": (silent, 3, None),
    "half a head": (half_a_head, 4, None),
    "half a body": (half_a_body, 4, None),
    "a byte now and then": (trickle, 4, None),
    "answers that aren't read": (unread, 4, 4096),
    "answers of which a part is read": (partly, 4, 4096),
    "answers of which 2,000 bytes are read now and then": (sip, 8, 4096),
}


@pytest.mark.parametrize("name", HOLDS)
def test_another_is_answered_in_time(broker: Server, name: str) -> None:
    send, most, room = HOLDS[name]
    with opened(broker, room) as slow:
        stop = threading.Event()
        work = threading.Thread(target=send, args=(slow, stop), daemon=True)
        work.start()
        time.sleep(0.3)
        try:
            seconds = took(broker)
        finally:
            stop.set()
            work.join(5)
    assert seconds <= most


def test_a_connection_is_kept_open_while_twenty_ask(broker: Server) -> None:
    with opened(broker) as slow:
        idle(slow, threading.Event())
        assert max(took(broker) for _ in range(20)) < 1


def test_requests_in_one_stream_that_is_cut_while_others_wait(broker: Server) -> None:
    stream = ASK * 50
    others = threading.Thread(target=lambda: [took(broker) for _ in range(5)], daemon=True)
    with opened(broker) as it:
        for at in range(0, len(stream), 997):
            it.sendall(stream[at : at + 997])
            if at == 0:
                others.start()
            time.sleep(0.05)
        it.shutdown(socket.SHUT_WR)
        got = all_of(it)
    others.join(20)
    assert got.count(b"HTTP/1.1 404") == 50
