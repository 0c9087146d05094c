"""What is done to a broker's file without the program: statements of SQL, and the sums of its pages, as SQLite's
cksumvfs has them, which Python's SQLite doesn't write."""
import os, sqlite3, struct
from tests.wire import NotRun

PAGE, SUM = 4096, 8


def has_sums(file: str) -> bool:
    """Whether each page ends in a sum: then eight bytes of it are reserved, by the file's header."""
    with open(file, "rb") as it:
        return it.read(21)[20:] == bytes([SUM])


def seal(file: str) -> None:
    """Gives the pages their sums again, if the file has them."""
    if not has_sums(file):
        return
    with open(file, "r+b") as it:
        while page := it.read(PAGE):
            first = second = 0
            for one, two in struct.iter_unpack("<2I", page[:-SUM]):
                first = first + one + second & 0xFFFFFFFF
                second = second + two + first & 0xFFFFFFFF
            it.seek(-SUM, os.SEEK_CUR)
            it.write(struct.pack("<2I", first, second))


def statements(file: str, text: str) -> None:
    """Runs these statements of SQL over the file, which is made if it isn't there."""
    if sqlite3.sqlite_version_info < (3, 37):
        raise NotRun(f"Python's SQLite is {sqlite3.sqlite_version}, and strict tables need 3.37")
    it = sqlite3.connect(file, isolation_level=None)
    try:
        it.executescript(text)
    finally:
        it.close()
    seal(file)
