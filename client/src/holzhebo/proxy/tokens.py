"""The proxy's files of tokens, which examples/nginx.conf and examples/Caddyfile read."""
import contextlib, fcntl, os, re
from typing import Callable, Dict, Iterator, List

from holzhebo.api.token import new_token, token_in
from holzhebo.faults import Stop
from holzhebo.files import read_file, read_text, replace_file
from holzhebo.text import shown

ENTRY = re.compile(r'\s*"~\^\\Q(.*)\\E\$" "(.*)";?\s*')
NO_NAME = re.compile(r'["$\\{}\x00-\x1f\x7f]')
Lines = List[str]


def is_name_for_proxy(name: str) -> None:
    """Refuses a name that one of the proxies reads as something else than a name."""
    found = NO_NAME.search(name)
    if found:
        raise Stop(f"the proxy's file can't have the name {shown(name)}: it has {shown(found[0])!r}")


def lines_of(path: str) -> Lines:
    """The lines of a file as its bytes are: a name may have what ends a line elsewhere, as U+2028."""
    lines = read_file(path).decode("utf-8", "surrogateescape").split("\n")
    return lines if lines[-1] else lines[:-1]


def entries_of(lines: Lines) -> Dict[str, str]:
    """What the proxy takes in the place of tokens."""
    found = [ENTRY.fullmatch(line) for line in lines]
    return {it[1]: it[2] for it in found if it}


@contextlib.contextmanager
def alone_with(path: str) -> Iterator[None]:
    """Nobody else changes the files of this folder by this client meanwhile."""
    try:
        descriptor = os.open(os.path.dirname(os.path.realpath(path)), os.O_RDONLY)
    except OSError as why:
        raise Stop(f"{shown(path)} can't be read: {why.strerror}") from None
    try:
        fcntl.flock(descriptor, fcntl.LOCK_EX)
        yield
    finally:
        os.close(descriptor)


def rewrite(path: str, change: Callable[[Lines], Lines]) -> None:
    """Writes the lines of a file again. It is replaced at once, and keeps its owner and its rights."""
    text = "".join(f"{line}\n" for line in change(lines_of(path)))
    replace_file(path, text.encode("utf-8", "surrogateescape"), True)


def with_places(lines: Lines, places: Dict[str, str], is_caddy: bool) -> Lines:
    """The lines with what the proxy takes in the place of these tokens. Other lines stay."""
    found = [(line, ENTRY.fullmatch(line)) for line in lines]
    kept = [line for line, it in found if not it or it[1] not in places]
    return kept + [f'"~^\\Q{token}\\E$" "{it}"{"" if is_caddy else ";"}' for token, it in places.items()]


def put_team(path: str, token: str, team: str, is_caddy: bool) -> None:
    with alone_with(path):
        rewrite(path, lambda lines: with_places(lines, {token: team}, is_caddy))


def replace_token(leaked_file: str, new_file: str, path: str, is_caddy: bool) -> None:
    """Blocks a token at the proxy. If it was itself in the place of another one, the new token is so from then on. An
    older token isn't taken for the new one, since it may be another team's. Tokens that only read by the one that
    leaked, or are for builds of its team, go on: the proxy puts it in their place after it looks for those that
    leaked."""
    leaked = token_in(read_text(leaked_file))
    with alone_with(path):
        place = entries_of(lines_of(path)).get(leaked, leaked)
        if not place:
            raise Stop(f"the proxy blocks the token of {shown(leaked_file)} already")
        token, is_new = new_token(new_file)
        if not is_new:
            raise Stop(f"{shown(new_file)} is there already: name a file for a new token")
        try:
            rewrite(path, lambda lines: with_places(lines, {token: place, leaked: ""}, is_caddy))
        except Stop:
            os.remove(new_file)
            raise
