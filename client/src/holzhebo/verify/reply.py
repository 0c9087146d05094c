"""A provider's answer as a recorded response."""
import contextlib, re, zlib
from typing import Dict, List, NamedTuple

from holzhebo.api.http import MOST_BYTES, Answer
from holzhebo.faults import Json
from holzhebo.pact.json import NotJson, TooDeep, ascii_lower, has_half, numbers_not_whole, read_json, walk
from holzhebo.verify.differs import NO_BODY
from holzhebo.verify.leave import DEEPEST, without_what_nobody_asks
from holzhebo.verify.request import BINARY, Unplayable, is_json, kind_of_body

INSTEAD = "let the provider send a text, as 19.99 in quotes, or a smaller unit, as 1999 cents"


class Recorded(NamedTuple):
    """A recorded response, and the places of its body that were left out of it."""

    response: Json
    gone: List[str]


def header_text(text: str) -> str:
    """A header, which may be UTF-8."""
    try:
        return text.encode("latin-1").decode("utf-8")
    except UnicodeError:
        return text


def unpacked(content: bytes, coding: str) -> bytes:
    """The body without the coding for its way here."""
    if coding in ("", "identity"):
        return content
    ways = {"gzip": (31,), "x-gzip": (31,), "deflate": (15, -15)}.get(coding, ())
    for way in ways:
        with contextlib.suppress(zlib.error):
            return inflated(content, way)
    raise Unplayable(f"the provider's body is {coding}, and can't be read" if ways else f"the provider sends {coding}")


def inflated(content: bytes, way: int) -> bytes:
    """What was packed, of which there may be several parts, one after another. Each has to be whole."""
    found, left = b"", content
    while left:
        reader = zlib.decompressobj(way)
        found += reader.decompress(left, MOST_BYTES + 1 - len(found))
        if len(found) > MOST_BYTES:
            raise Unplayable(f"the provider's body has more than {MOST_BYTES} bytes once it is unpacked")
        if not reader.eof:
            raise zlib.error("it has no end")
        left = reader.unused_data
    return found


def recorded(interaction: Json, answer: Answer) -> Recorded:
    if answer.status < 200:
        raise Unplayable(f"the provider answers {answer.status}, and something else after it")
    names = dict.fromkeys(ascii_lower(it) for it in answer.headers.keys())
    headers = {name: ", ".join(map(header_text, answer.headers.get_all(name, []))) for name in names}
    content = unpacked(answer.content, headers.get("content-encoding", "").strip().lower())
    asked = {ascii_lower(it) for it in interaction["response"].get("headers") or {}}
    if content != answer.content and "content-encoding" not in asked:
        headers = {key: it for key, it in headers.items() if key != "content-encoding"}
    response: Json = {"status": answer.status, "headers": headers}
    if not content:
        return Recorded(response, [])
    body, gone = without_what_nobody_asks(interaction, body_in(content, headers))
    if body is not NO_BODY:
        response["body"] = body
        is_recordable(body)
    return Recorded(response, gone)


def body_in(content: bytes, headers: Dict[str, str]) -> Json:
    """JSON, if the type says so or there is none; else a text."""
    kind = headers.get("content-type", "")
    if is_json(kind) or not kind:
        try:
            return read_json(content[3:] if content.startswith(b"\xef\xbb\xbf") else content, 300, True)
        except TooDeep:
            raise Unplayable("the provider's body nests deeper than 300 levels") from None
        except NotJson:
            pass
    if BINARY.fullmatch(kind_of_body(headers)):
        raise Unplayable(f"the provider's body is of {kind_of_body(headers)}, which is recorded in no text")
    charset = re.search(r"(?i)charset=\"?([\w.:-]+)", kind)
    try:
        return content.decode(charset[1] if charset else "utf-8")
    except (UnicodeDecodeError, LookupError):
        raise Unplayable("the provider's body is no text") from None


def is_recordable(body: Json) -> None:
    """Refuses what the broker doesn't take and the contract asks for."""
    broken = [f"{text} at {path}" for path, text in numbers_not_whole(body)]
    if broken:
        raise Unplayable(
            f"the provider's body has {broken[0]}, which the contract asks for, and replies are recorded without"
            f" fractions: {INSTEAD}"
        )
    halves = [path for _, path, it in walk(body) if has_half(it)]
    if halves:
        raise Unplayable(f"the provider's body has half of a character at {halves[0]}, which the contract asks for")
    if depth(body) > DEEPEST:
        raise Unplayable(f"the provider's body nests deeper than {DEEPEST} levels, where the contract asks for it")


def depth(value: Json) -> int:
    inner = value.values() if isinstance(value, dict) else value if isinstance(value, list) else ()
    return max((1 + depth(it) for it in inner), default=1 if isinstance(value, (dict, list)) else 0)
