"""What the kernel tells of a socket of TCP: its state, and the bytes that nobody has read there."""
import socket, struct
from functools import cache
from typing import NamedTuple
from tests.wire import Address

NOBODY: Address = ("0.0.0.0", 0)
# The state of a socket that listens.
LISTENS = 10
# Of sock_diag(7): its family of netlink sockets, the number of a question by address, that it is a question, and what
# stands for any cookie.
FAMILY, BY_ADDRESS, IS_QUESTION, ANY = 4, 20, 1, 0xFFFFFFFF


class Found(NamedTuple):
    """A socket: its state, and how many bytes nobody has read."""

    state: int
    unread: int


def packed(address: Address) -> bytes:
    return socket.inet_aton(address[0]).ljust(16, b"\0")


def by_question(own: Address, peer: Address) -> Found | None:
    """The socket, by the question of sock_diag(7) for just this one, which takes a hundredth of reading the table."""
    text = struct.pack("=BBBxI", socket.AF_INET, socket.IPPROTO_TCP, 0, ANY) + struct.pack("!HH", own[1], peer[1])
    text += packed(own) + packed(peer) + struct.pack("=III", 0, ANY, ANY)
    with socket.socket(socket.AF_NETLINK, socket.SOCK_RAW, FAMILY) as it:
        it.send(struct.pack("=IHHII", 16 + len(text), BY_ADDRESS, IS_QUESTION, 1, 0) + text)
        got = it.recv(4096)
    # An answer of another kind is a fault: there is none. The count comes after the head, four bytes, the addresses,
    # and when the socket's timer ends.
    if struct.unpack_from("=H", got, 4)[0] != BY_ADDRESS:
        return None
    return Found(got[17], struct.unpack_from("=I", got, 16 + 4 + 48 + 4)[0])


def in_table(address: Address) -> str:
    """An address as /proc/net/tcp writes it."""
    return "%08X:%04X" % (struct.unpack("=I", socket.inet_aton(address[0]))[0], address[1])


def by_table(own: Address, peer: Address) -> Found | None:
    """The socket, by the table of all; one that listens at each address counts as one that does at this."""
    mine, other = (in_table(own), in_table(("0.0.0.0", own[1]))), in_table(peer)
    with open("/proc/net/tcp", encoding="ascii") as it:
        for row in (line.split(None, 5) for line in it):
            if row[1] in mine and row[2] == other:
                return Found(int(row[3], 16), int(row[4].split(":")[1], 16))
    return None


@cache
def answers_questions() -> bool:
    """Whether the kernel answers these questions here: of a socket that listens, which is made for this."""
    with socket.create_server(("127.0.0.1", 0)) as it:
        try:
            return by_question(it.getsockname(), NOBODY) == (LISTENS, 0)
        except OSError:
            return False


def socket_at(own: Address, peer: Address = NOBODY) -> Found | None:
    """The socket with this address and this peer, if there is one."""
    return (by_question if answers_questions() else by_table)(own, peer)


def is_listened_on(address: Address) -> bool:
    """Whether a process listens there; asked of the kernel, since a connection would count."""
    found = socket_at(address)
    return found is not None and found.state == LISTENS


def is_read(own: Address, peer: Address) -> bool:
    """Whether a process has read all that has come to this socket, or it is there no more."""
    found = socket_at(own, peer)
    return found is None or found.state == LISTENS or found.unread == 0


def has_come(port: int) -> bool:
    """Whether a connection to this port has bytes that nobody has read, also one that isn't accepted yet."""
    with open("/proc/net/tcp", encoding="ascii") as it:
        rows = [line.split(None, 5) for line in it]
    return any(row[1].endswith(f":{port:04X}") and row[3] == "01" and int(row[4][9:], 16) for row in rows[1:])
