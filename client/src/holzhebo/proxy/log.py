"""The proxy's log: a line of JSON for each request."""
import contextlib, datetime, glob, gzip, json, os, re, sys, urllib.parse, zlib
from typing import BinaryIO, Dict, Iterator, List, NamedTuple, Optional, cast

from holzhebo.faults import Stop
from holzhebo.pact.json import member
from holzhebo.text import note, short, shown

LOGS = ["/var/log/nginx/broker.log", "/var/log/caddy/broker.log"]
# What a target may have before its path (RFC 9112, 3.2.2): Caddy logs it, and the broker doesn't get it.
ADDRESS = re.compile(r"[A-Za-z][A-Za-z0-9+.-]*://[^/?]*")


class Logged(NamedTuple):
    """A request that a proxy wrote down: when, of which team, what was asked, how it was answered, and in what time."""

    at: datetime.datetime
    time: str
    team: str
    method: str
    path: str
    body: str
    status: int
    seconds: float


def logged(line: str) -> Logged:
    """The request of a line, of nginx or of Caddy."""
    said = json.loads(line)
    if "request" in said:
        asked, bodies = said["request"], said["resp_headers"].get("Broker-Change", [""])
        texts = [said["ts"], said["user_id"], asked["method"], asked["uri"], bodies[0]]
        seconds = said["duration"]
    else:
        texts = [said[it] for it in ("time", "team", "method", "path", "body")]
        seconds = said["seconds"]
    time, team, method, target, body = map(str, texts)
    path = target[it.end() :] if (it := ADDRESS.match(target)) else target
    return Logged(moment(time), time, team, method, path, body, int(said["status"]), float(seconds))


def moment(text: str) -> datetime.datetime:
    """A time with its date; without a zone it is this machine's."""
    return datetime.datetime.fromisoformat(re.sub("[zZ]$", "+00:00", text)).astimezone()


def logs_of(paths: List[str], with_rotated: bool) -> List[str]:
    """The logs to read: those that are named, or the proxies' own; with those that were rotated, the oldest first."""
    found = paths or [it for it in LOGS if os.path.exists(it)]
    if not found:
        raise Stop(f"no log: give --log; there is no {' and no '.join(LOGS)}")
    if paths or not with_rotated:
        return found
    stems = [glob.escape(it[: -len(".log")]) for it in found]
    every = {other for it in stems for other in glob.glob(f"{it}*.log*")}
    return sorted(every, key=lambda it: (os.path.getmtime(it), it))


@contextlib.contextmanager
def opened(path: str) -> Iterator[BinaryIO]:
    if path == "-":
        yield sys.stdin.buffer
        return
    with open(path, "rb") as it:
        yield cast(BinaryIO, gzip.open(it) if path.endswith(".gz") else it)


def requests_of(paths: List[str]) -> Iterator[Logged]:
    """The requests of the logs, in their order. A line that isn't one is reported."""
    for path in paths:
        try:
            with opened(path) as lines:
                for each in lines:
                    line = each.decode("utf-8", "backslashreplace")
                    try:
                        yield logged(line)
                    except (ValueError, LookupError, TypeError, AttributeError, OverflowError, RecursionError):
                        note(f"{shown(path)}: not a line of the proxy: {short(line.rstrip())}")
        except (OSError, EOFError, zlib.error) as why:
            raise Stop(f"{shown(path)} can't be read: {getattr(why, 'strerror', None) or why}") from None


def change_of(it: Logged, environment: Optional[str]) -> Dict[str, str]:
    """A change as it was sent; or what it did in this environment, which may be nothing."""
    told = {"time": it.time, "team": it.team or "unknown"}
    if environment is None:
        return {**told, "method": it.method, "path": it.path, "body": it.body}
    parts = it.path.partition("?")[0].split("/")
    if len(parts) != 4 or parts[1] != "environments" or urllib.parse.unquote(parts[2]) != environment:
        return {}
    told["change"] = parts[3]
    with contextlib.suppress(ValueError, RecursionError):
        body = json.loads(it.body)
        told.update({key: str(member(body, key) or "") for key in ("pacticipant", "version", "instance")})
    return told if "version" in told else {**told, "pacticipant": "(the log doesn't say what)"}
