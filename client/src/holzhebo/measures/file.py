"""The broker's file, and the copies of it that examples/keep-copies.sh makes: how large it is, how it grows, and when the
newest copy was made."""
import os, re, stat
from typing import List, NamedTuple, Optional, Sequence

from holzhebo.faults import Stop
from holzhebo.measures.measure import Measure, gauge
from holzhebo.report.copy import made_at
from holzhebo.text import shown

# The seconds between the first and the last copy from which growth is read.
LEAST = 3600.0
NAME = re.compile(r"broker-.*\.db")


class Kept(NamedTuple):
    """A copy that is kept."""

    made: float
    size: int
    path: str


def size_of(path: str) -> int:
    """The bytes of a file with those of its log."""
    log = f"{os.path.realpath(path)}-wal"
    return os.path.getsize(path) + (os.path.getsize(log) if os.path.exists(log) else 0)


def copies_in(folders: Sequence[str], now: float) -> List[Kept]:
    """The copies of these folders, the oldest first. One of a date to come is left out: the clock was or is wrong, and it
    would hide that no copy is made."""
    found = []
    for folder in folders:
        for name in os.listdir(folder):
            path = os.path.join(folder, name)
            if NAME.fullmatch(name) and stat.S_ISREG(os.lstat(path).st_mode):
                found.append(Kept(made_at(path)[0], size_of(path), path))
    kept = sorted(it for it in found if it.made <= now)
    if not kept:
        raise Stop(f"there is no copy, broker-DATE.db, in {', '.join(shown(it) for it in folders)}")
    return kept


def growth(copies: Sequence[Kept]) -> Optional[float]:
    """The bytes by which the file grows in a second, since it last got smaller; None if that can't be said yet."""
    at = len(copies) - 1
    while at > 0 and copies[at - 1].size <= copies[at].size:
        at -= 1
    first, last = copies[at], copies[-1]
    took = last.made - first.made
    return (last.size - first.size) / took if took >= LEAST else None


def left(size: int, most: int, each: float) -> float:
    """The seconds until the file has so many bytes."""
    if size >= most:
        return 0.0
    return (most - size) / each if each > 0 else float("inf")


def of_file(path: str) -> List[Measure]:
    return [gauge("file_bytes", "The broker's file with its log", size_of(path))]


def of_copies(copies: Sequence[Kept], size: int, most: int) -> List[Measure]:
    """The newest copy, and the growth of a file that has so many bytes now."""
    about = "When the newest copy of the file was made, since 1970"
    found = [gauge("copy_timestamp_seconds", about, copies[-1].made)]
    each = growth(copies)
    if each is not None:
        about = f"The time until the file has {most} bytes, as it has grown since it last got smaller"
        found.append(gauge("file_left_seconds", about, left(size, most, each)))
    return found
