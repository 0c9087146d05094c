"""desk: the page on this machine."""
import contextlib, json, signal
from typing import Any, Optional

from holzhebo.api.http import line_to
from holzhebo.cli.context import broker_of
from holzhebo.cli.parser import Arguments
from holzhebo.desk.own import Own
from holzhebo.desk.page import page_of
from holzhebo.desk.server import ANSWER_TIME, HOST
from holzhebo.faults import DONE, Stop
from holzhebo.text import shown, tell


def names_of(path: Optional[str], usual: bytes) -> bytes:
    """The page's desk.json, with which it asks without a typed token."""
    names: Any = None
    with contextlib.suppress(OSError, ValueError):
        if path is not None:
            with open(path, "rb") as it:
                usual = it.read()
        names = json.loads(usual)
    if not isinstance(names, dict) or not isinstance(names.get("environments"), list):
        raise Stop(f"{shown(path or 'desk.json')} can't be read, or names no environments")
    return json.dumps({**names, "signedIn": True}).encode()


def desk(args: Arguments) -> int:
    files, broker = page_of(args.page), broker_of(args)
    names, way = names_of(args.names, files["desk.json"]), broker.line.way
    line_to(broker.address, ANSWER_TIME, way)  # what is wrong with the way is said before anybody asks
    try:
        it = Own(args.page_port, files, broker.address, way, broker.headers["authorization"])
    except OSError as why:
        said = f"port {args.page_port} can't be used ({why.strerror}): --page-port N takes another"
        raise Stop(said) from None
    it.give_names(names)
    for each in signal.SIGINT, signal.SIGTERM:
        signal.signal(each, signal.default_int_handler)
    tell(f"the page: http://{HOST}:{it.port}/desk/?{it.key}")
    with it, contextlib.suppress(KeyboardInterrupt):
        it.serve_forever()
    return DONE
