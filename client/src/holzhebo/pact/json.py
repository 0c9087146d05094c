"""JSON, as the broker reads it."""
import json, math, re, string
from typing import Iterator, List, NamedTuple, NoReturn, Tuple

from holzhebo.faults import Json
from holzhebo.text import short, shown


class NotJson(Exception):
    """Why a text isn't JSON."""


class NotWhole(NamedTuple):
    """A number that the broker doesn't take, as the text writes it."""

    text: str


ESCAPE = re.compile(r"\\u[dD][89abAB][0-9a-fA-F]{2}\\u[dD][c-fC-F][0-9a-fA-F]{2}|(\\u[dD][89a-fA-F][0-9a-fA-F]{2})|\\.")
BRACKET = re.compile(r'"[^"\\]*(?:\\.[^"\\]*)*"|([\[{])|([\]}])')


def any_number(text: str) -> Json:
    is_whole = re.fullmatch("-?[0-9]{1,20}", text) and text != "-0" and -(2**63) <= int(text) < 2**64
    return int(text) if is_whole else NotWhole(text)


def readable_number(text: str) -> Json:
    if math.isinf(float(text)):
        raise NotJson(f"the number {short(text)} is too large for any reader")
    return any_number(text)


def no_constant(text: str) -> NoReturn:
    raise NotJson(f"{text} is no JSON")


def levels(text: str) -> int:
    """How deep the brackets of a text of JSON nest."""
    level = deepest = 0
    for it in BRACKET.finditer(text):
        level += (it[1] is not None) - (it[2] is not None)
        deepest = max(deepest, level)
    return deepest


class TooDeep(NotJson):
    """JSON that nests too deep."""


def read_json(content: bytes, deepest: int = 127, is_loose: bool = False) -> Json:
    """The value that the bytes are; of members with one key the last stays. Loosely, also what isn't JSON to the broker
    is in it: a number that is too large for any reader, and half of a character."""
    number = any_number if is_loose else readable_number
    try:
        text = content.decode()
        value = json.loads(text, parse_float=number, parse_int=number, parse_constant=no_constant)
    except UnicodeDecodeError as it:
        raise NotJson(f"byte {it.start} isn't UTF-8") from None
    except json.JSONDecodeError as it:
        raise NotJson(f"line {it.lineno}, column {it.colno}: {it.msg}") from None
    except RecursionError:
        raise TooDeep(f"it nests over {deepest} levels") from None
    if not is_loose and any(it[1] for it in ESCAPE.finditer(text)):
        raise NotJson("an escape is half of a character")
    if levels(text) > deepest:
        raise TooDeep(f"it nests over {deepest} levels")
    return value


def compact(value: Json) -> str:
    """The one text of a value: keys in the order of their bytes, no spaces."""
    return json.dumps(value, ensure_ascii=False, separators=(",", ":"), sort_keys=True)


def below(path: str, key: object) -> str:
    """The JSON path of a member or an item."""
    if isinstance(key, int):
        return f"{path}[{key}]"
    return f"{path}.{key}" if re.fullmatch(r"[A-Za-z_][A-Za-z0-9_-]*", str(key)) else f"{path}['{shown(key)}']"


def children(value: Json) -> List[Tuple[object, Json]]:
    if isinstance(value, dict):
        return sorted(value.items())
    return list(enumerate(value)) if isinstance(value, list) else []


def walk(value: Json, path: str = "$", level: int = 1) -> Iterator[Tuple[int, str, Json]]:
    """Each value in a value, with how deep it is and its path."""
    yield level, path, value
    for key, it in children(value):
        yield from walk(it, below(path, key), level + 1)


def numbers_not_whole(value: Json) -> List[Tuple[str, str]]:
    """The path and the text of each number that the broker doesn't take."""
    return [(path, it.text) for _, path, it in walk(value) if isinstance(it, NotWhole)]


def too_deep(value: Json) -> List[str]:
    """The path of each list or object that is deeper than the broker takes."""
    return [path for level, path, it in walk(value) if level == 101 and isinstance(it, (list, dict))]


def has_half(value: Json) -> bool:
    """Whether a text, or a key of an object, has half of a character."""
    return isinstance(value, (str, dict)) and re.search("[\ud800-\udfff]", "".join(value)) is not None


def rounded(value: Json) -> Json:
    """The value with whole numbers in the place of others, so that no second fault is found for these."""
    if isinstance(value, NotWhole):
        return int(float(value.text))
    if isinstance(value, dict):
        return {key: rounded(it) for key, it in value.items()}
    return [rounded(it) for it in value] if isinstance(value, list) else value


def is_whole(value: Json) -> bool:
    return isinstance(value, int) and not isinstance(value, bool)


def member(value: Json, key: str) -> Json:
    return value.get(key) if isinstance(value, dict) else None


def kind(value: Json) -> str:
    """What a value is, in a sentence."""
    if value is None:
        return "absent or null"
    if isinstance(value, (list, dict)):
        return "a list" if isinstance(value, list) else "an object"
    names = {bool: "the truth value", int: "the number", str: "the text"}
    return f"{names[type(value)]} {short(json.dumps(value, ensure_ascii=False))}"


def ascii_lower(text: str) -> str:
    return text.translate(str.maketrans(string.ascii_uppercase, string.ascii_lowercase))
