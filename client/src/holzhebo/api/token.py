"""Tokens: in files, and never in the words of a command line."""
import contextlib, os, re, secrets
from typing import Tuple

from holzhebo.faults import Stop
from holzhebo.files import read_text
from holzhebo.text import shown


FORM = "16 to 128 ASCII letters, digits and -._~+/="


def token_in(text: str, where: str = "") -> str:
    """The token that a text is, or that is in it as curl's line. The fault names where the text is from."""
    token = re.sub(r"(?i)^authorization:[ \t]*bearer[ \t]+", "", text.strip())
    if not re.fullmatch(r"[A-Za-z0-9._~+/=-]{16,128}", token):
        raise Stop(f"{where} has no token: that is {FORM}" if where else f"token: it isn't {FORM}")
    return token


def new_token(path: str) -> Tuple[str, bool]:
    """The token of this file, and whether it was made now: it is, if there is no such file. A new one is on the disk
    before anybody is told of it, since the broker keeps only its digest."""
    try:
        descriptor = os.open(path, os.O_WRONLY | os.O_CREAT | os.O_EXCL, 0o600)
    except FileExistsError:
        return token_in(read_text(path)), False
    except OSError as why:
        raise Stop(f"{shown(path)} can't be made: {why.strerror}") from None
    token = secrets.token_hex(24)
    try:
        with open(descriptor, "w", encoding="ascii") as it:
            it.write(f"authorization: Bearer {token}\n")
            it.flush()
            os.fsync(it.fileno())
        sync_folder(os.path.dirname(path) or ".")
    except OSError as why:
        with contextlib.suppress(OSError):
            os.remove(path)
        raise Stop(f"{shown(path)} can't be written: {why.strerror}") from None
    return token, True


def sync_folder(path: str) -> None:
    descriptor = os.open(path, os.O_RDONLY)
    try:
        os.fsync(descriptor)
    finally:
        os.close(descriptor)
