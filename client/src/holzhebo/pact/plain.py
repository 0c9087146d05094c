"""What of a pact file is sent: what the broker keeps, so that what it doesn't keep can't make it refuse the file."""
import json, re, secrets
from decimal import Decimal, InvalidOperation
from typing import List, Optional, Tuple

from holzhebo.faults import Json
from holzhebo.pact.json import NotJson, NotWhole, below, children, member, read_json

KEPT = ("consumer", "provider", "interactions", "messages")
KEPT_OF_EACH = ("description", "providerStates", "providerState", "request", "response")
RULED = ("body", "header", "path", "query")
VERSIONS = ("pactSpecification", "pact-specification")


def plain(content: bytes) -> Tuple[bytes, List[str]]:
    """The file without what the broker doesn't keep and might refuse, and what was left out or written otherwise. A
    file of which nothing has to be is sent as it is."""
    try:
        file = read_json(content)
    except NotJson:
        return content, []
    if not isinstance(file, dict):
        return content, []
    said: List[str] = []
    file = without_unkept(file, said)
    file = written_plainly(file, "$", said)
    return (text_of(file).encode(), said) if said else (content, [])


def text_of(value: Json) -> str:
    """The JSON of a value, with each number that isn't whole as it was written."""
    mark, numbers = secrets.token_hex(8), []  # type: str, List[str]

    def marked(it: Json) -> Json:
        if isinstance(it, NotWhole):
            numbers.append(it.text)
            return f"{mark}-{len(numbers) - 1}"
        if isinstance(it, dict):
            return {key: marked(inner) for key, inner in it.items()}
        return [marked(inner) for inner in it] if isinstance(it, list) else it

    text = json.dumps(marked(value), ensure_ascii=False)
    return re.sub(f'"{mark}-([0-9]+)"', lambda it: numbers[int(it[1])], text)


def without_unkept(file: Json, said: List[str]) -> Json:
    kept = {key: it for key, it in file.items() if key in KEPT or not has_broken(it)}
    if has_broken(file.get("metadata")):
        versions = {key: it for key in VERSIONS for it in [member(file["metadata"], key)] if it is not None}
        kept["metadata"] = versions
    said += [f"{below('$', key)} is left out" for key in file if kept.get(key) is not file[key]]
    items = file.get("interactions")
    if isinstance(items, list):
        kept["interactions"] = [one_without(it, f"$.interactions[{at}]", said) for at, it in enumerate(items)]
    return kept


def one_without(one: Json, path: str, said: List[str]) -> Json:
    """An interaction without members that aren't kept, and without empty rules of a category that has no rules here."""
    if not isinstance(one, dict):
        return one
    kept = {key: it for key, it in one.items() if key in KEPT_OF_EACH or not has_broken(it)}
    said += [f"{below(path, key)} is left out" for key in one if key not in kept]
    rules = member(one.get("response"), "matchingRules")
    if isinstance(rules, dict):
        idle = [key for key, it in rules.items() if key not in RULED and not key.startswith("$") and it in ({}, None)]
        if idle:
            rest = {key: it for key, it in rules.items() if key not in idle}
            kept["response"] = {**one["response"], "matchingRules": rest}
            said += [f"{path}.response.matchingRules.{key} is left out" for key in idle]
    return kept


def has_broken(value: Json) -> bool:
    """Whether something in the value is a number that the broker doesn't take."""
    return isinstance(value, NotWhole) or any(has_broken(it) for _, it in children(value))


def written_plainly(value: Json, path: str, said: List[str]) -> Json:
    """The value with a whole number that is written otherwise, as 20.0 or 2E+1, in its digits."""
    if isinstance(value, NotWhole):
        number = whole_of(value.text)
        if number is None:
            return value
        said.append(f"{path} is {number} and not {value.text}")
        return number
    if isinstance(value, dict):
        return {key: written_plainly(it, below(path, key), said) for key, it in value.items()}
    if isinstance(value, list):
        return [written_plainly(it, f"{path}[{at}]", said) for at, it in enumerate(value)]
    return value


def whole_of(text: str) -> Optional[int]:
    """The number that a text is, if it is a whole one that the broker takes."""
    try:
        number = Decimal(text)
    except InvalidOperation:  # its exponent is longer than any that counts
        return None
    is_whole = number == number.to_integral_value() and -(2**63) <= number < 2**64 and abs(number.adjusted()) < 30
    return int(number) if is_whole else None
