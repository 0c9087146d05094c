"""doctor: what is looked at first if something doesn't work."""
import email.utils, time
from typing import List, Optional, Tuple

from holzhebo.api.address import named
from holzhebo.api.broker import Broker, Refused
from holzhebo.cli.context import broker_of, config_path, tell_json, url_and_config
from holzhebo.cli.parser import Arguments
from holzhebo.faults import DONE, UNDONE, Stop
from holzhebo.text import shown, tell_table

Row = Tuple[str, str, str]  # ok, or not; what is looked at; what is found
LATE = 300


def doctor(args: Arguments) -> int:
    """Looks at one thing after another, until one is wrong."""
    rows: List[Row] = []
    try:
        look(args, rows)
    except Stop as why:
        rows.append(("wrong", "stops here", str(why)))
    if args.json:
        tell_json([dict(zip(("outcome", "what", "found"), it)) for it in rows])
    else:
        tell_table([[shown(it) for it in row] for row in rows])
    return UNDONE if any(it[0] == "wrong" for it in rows) else DONE


def look(args: Arguments, rows: List[Row]) -> None:
    url, config = url_and_config(args)
    broker = broker_of(args)
    address, proxy = broker.address, broker.line.way.between()
    source = f", [{config['']}] of {config_path()}" if config else ""
    rows.append(("ok", "address", f"{url}{source}"))
    rows.append(("ok", "way", f"by the proxy {named(proxy.host, proxy.port)}" if proxy else "no proxy"))
    kind = "https, by a certificate that is trusted" if address.is_https else "http, which others on the way can read"
    token = token_row(broker)
    rows.append(("ok" if address.is_https or address.is_loopback else "wrong", "connection", kind))
    rows.append(clock(broker.last.headers.get("date") if broker.last else None))
    rows.append(token)
    if token[0] == "wrong":
        return
    rows.extend(known(broker, it) for it in args.pacticipant)
    for it in args.environment:
        rows.extend(there(broker, it, args.pacticipant))


def token_row(broker: Broker) -> Row:
    """Whether the broker knows the token, if anybody answers."""
    try:
        broker.knows_token()
    except Stop as why:
        if broker.last is None:
            raise
        return "wrong", "token", str(why)
    return "ok", "token", "the broker knows it"


def clock(date: Optional[str]) -> Row:
    """This machine's clock beside that of the proxy; the broker itself sends no time."""
    try:
        found = email.utils.parsedate_to_datetime(date or "")
    except (TypeError, ValueError):
        return "ok", "clock", "no time is sent, so it isn't compared"
    off = abs(time.time() - found.timestamp())
    return ("ok" if off < LATE else "wrong"), "clock", f"{off:.0f} seconds from that of the other side"


def known(broker: Broker, pacticipant: str) -> Row:
    """Whether the broker knows a pacticipant."""
    if broker.knows_pacticipant(pacticipant):
        return "ok", pacticipant, "the broker knows it"
    return "wrong", pacticipant, "the broker doesn't know it"


def there(broker: Broker, environment: str, pacticipants: List[str]) -> List[Row]:
    """Whether the broker knows an environment; and what the token may do for the pacticipants, which can be asked only
    with a version of each: with one that is there."""
    try:
        said = broker.environment(environment)
    except Refused as why:
        if why.is_unknown("environment"):
            return [("wrong", environment, str(why))]
        raise
    versions = {it.pacticipant: it.version for it in said.released}
    versions.update({it.pacticipant: it.version for it in said.deployed})
    marks = ["gated" if said.gated else "not gated"] + ["strict"] * said.strict
    rows: List[Row] = [("ok", environment, ", ".join(marks))]
    for it in pacticipants:
        found = rules(broker, it, versions[it]) if it in versions else "isn't there, so whose it is can't be asked"
        rows.append(("ok", f"{it} in {environment}", found))
    return rows


def rules(broker: Broker, pacticipant: str, version: str) -> str:
    """What the token may do for a pacticipant, by the rules of docs/DEFINITIONS.md: who may ask for the matrix is of its
    team, or the office."""
    try:
        broker.matrix(pacticipant, version)
    except Refused as why:
        if why.http_status == 403:
            return f"{version}; another team's: this token may not ask for it, publish or deploy (A6, A3, A4, A7)"
        raise
    return f"{version}; this token may ask for it (A6), and if it isn't the office's or one that reads, publish (A3, A4)"
