"""A broker's file by its pages: their sums, the empty first one, and whether a copy is whole and used by nobody."""
import fcntl, os, struct

PAGE, SUM = 4096, 8
# A log that is shorter than its head and one page holds nothing that was committed.
FRAME = 32 + 24 + PAGE
# The bytes that SQLite locks while a file is open.
SHARED = 510, 0x40000002
MAGIC = b"SQLite format 3\0"


class Refused(Exception):
    """Why there is no new file."""


def page_sum(page: bytes) -> bytes:
    """The sum of a page's bytes but for the last eight, as SQLite's cksumvfs has it."""
    first = second = 0
    for one, two in struct.iter_unpack("<2I", page[:-SUM]):
        first = first + one + second & 0xFFFFFFFF
        second = second + two + first & 0xFFFFFFFF
    return struct.pack("<2I", first, second)


def test_copy(path: str) -> bytes:
    """The two bytes of the header that say how the copy is written, if it is one with right sums that nobody uses."""
    real = os.path.realpath(path)
    for log, least in (f"{real}-wal", FRAME), (f"{real}-journal", 1):
        if os.path.exists(log) and os.path.getsize(log) >= least:
            raise Refused(f"{log} has newer rows: make a copy by examples/backup.sh")
    with open(path, "rb") as it:
        try:
            fcntl.lockf(it, fcntl.LOCK_SH | fcntl.LOCK_NB, *SHARED)
        except OSError:
            raise Refused(f"{path} is in use: make a copy by examples/backup.sh") from None
        head = it.read(100)
        if head[:18] != struct.pack(">16sH", MAGIC, PAGE) or head[20] != SUM:
            raise Refused(f"{path} isn't a broker's file with page sums")
        it.seek(0)
        if not all(len(page) == PAGE and page[-SUM:] == page_sum(page) for page in iter(lambda: it.read(PAGE), b"")):
            raise Refused(f"{path} has a wrong page sum")
    return head[18:20]


def empty_page() -> bytes:
    """The one page of a database without tables that keeps eight bytes of each page free."""
    numbers = 1, 1, 0, 0, 0, 4, 0, 0, 1, 0, 0, 0, 1, 3037000
    head = struct.pack(">16sH6B12I20x2I", MAGIC, PAGE, 1, 1, SUM, 64, 32, 32, *numbers)
    return (head + struct.pack(">B3HB", 13, 0, 0, PAGE - SUM, 0)).ljust(PAGE, b"\0")


def seal(path: str, written: bytes) -> None:
    """Gives the header these two bytes and each page its sum, and syncs the file."""
    with open(path, "r+b", 0) as it:
        for at, page in enumerate(iter(lambda: it.read(PAGE), b"")):
            page = page if at else page[:18] + written + page[20:]
            it.seek(at * PAGE)
            it.write(page[:-SUM] + page_sum(page))
        os.fsync(it.fileno())


def sync_folder(path: str) -> None:
    folder = os.open(os.path.dirname(os.path.abspath(path)), os.O_RDONLY)
    try:
        os.fsync(folder)
    finally:
        os.close(folder)
