"""Files that are read and written."""
import contextlib, os, stat, sys, tempfile
from typing import Optional

from holzhebo.faults import Stop
from holzhebo.text import shown


def read_file(path: str) -> bytes:
    """The bytes of a file; `-` is standard input."""
    try:
        if path == "-":
            return sys.stdin.buffer.read()
        with open(path, "rb") as it:
            return it.read()
    except (OSError, ValueError) as why:
        raise Stop(f"{shown(path)} can't be read: {getattr(why, 'strerror', None) or why}") from None


def read_text(path: str) -> str:
    return read_file(path).decode("utf-8", "replace")


def write_file(path: str, text: str) -> None:
    """Writes a file with the folders that it needs."""
    try:
        os.makedirs(os.path.dirname(path) or ".", exist_ok=True)
        with open(path, "w", encoding="utf-8", errors="surrogateescape") as it:
            it.write(text)
    except (OSError, ValueError) as why:
        raise Stop(f"{shown(path)} can't be written: {getattr(why, 'strerror', None) or why}") from None


def replace_file(path: str, content: bytes, keeps_owner: bool = False) -> None:
    """Puts a file in the place of this one at once: who reads sees the old one or the new one. It has the rights of the
    one that is there, and its owner, if this user may give it to that one or it has to keep it. A name that leads to
    another file stays, and that one is replaced; what is no file, as a pipe or a device, is written into."""
    try:
        there = os.stat(path) if os.path.exists(path) else None
        if there is None or stat.S_ISREG(there.st_mode):
            put_at(os.path.realpath(path), content, there, keeps_owner)
        else:
            with open(path, "wb") as it:
                it.write(content)
    except OSError as why:
        raise Stop(f"{shown(path)} can't be written: {why.strerror}") from None


def put_at(place: str, content: bytes, like: Optional[os.stat_result], keeps_owner: bool) -> None:
    """Puts a file there, with the owner and the rights of this one, or with those of a new one."""
    descriptor, part = tempfile.mkstemp(dir=os.path.dirname(place), prefix=f".{os.path.basename(place)}.")
    try:
        with open(descriptor, "wb") as it:
            if like is not None:
                give(descriptor, like, keeps_owner)
            os.fchmod(descriptor, stat.S_IMODE(like.st_mode) if like is not None else 0o666 & ~umask())
            it.write(content)
            it.flush()
            os.fsync(descriptor)
        os.replace(part, place)
    finally:
        with contextlib.suppress(OSError):
            os.unlink(part)


def give(descriptor: int, like: os.stat_result, has_to: bool) -> None:
    """Gives a file to the owner and the group of this one, if this user may."""
    try:
        os.fchown(descriptor, like.st_uid, like.st_gid)
    except PermissionError:
        if has_to:
            raise


def umask() -> int:
    """What is taken from the rights of each new file."""
    found = os.umask(0o077)
    os.umask(found)
    return found
