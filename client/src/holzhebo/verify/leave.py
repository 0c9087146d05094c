"""What in a reply nobody asks for: it is left out if the broker couldn't take it, and the verdict stays the same."""
from typing import List, Tuple

from holzhebo.faults import Json
from holzhebo.pact.json import has_half
from holzhebo.verify.differs import (
    NO_BODY,
    UNSUPPORTED,
    Entry,
    by_rule,
    compared,
    kind_of,
    leading_to,
    rules_of,
    spelled,
)

DEEPEST = 96  # levels of a body: the broker reads 100, and a body is below four levels of what is sent


def is_taken(value: Json, level: int) -> bool:
    """Whether the broker reads a value at this level of a body: its numbers, its texts, and how deep it nests."""
    if has_half(value):
        return False
    if not isinstance(value, (list, dict)):
        return kind_of(value) != UNSUPPORTED
    return level < DEEPEST and all(is_taken(it, level + 1) for it in (value.values() if type(value) is dict else value))


def pruned(expected: Json, actual: Json, rules: List[Entry], gone: List[str], path: str = "$", depth: int = 0) -> Json:
    """The value without those members that aren't taken, aren't compared, and don't change the answer of a rule."""
    rule = next((it for it in rules if len(it.tokens) <= depth), None)
    kept, asked = actual, compared(expected, actual, rule is not None)
    if isinstance(actual, dict):
        kept = {key: it for key, it in actual.items() if key in asked or is_taken({key: it}, depth)}
        fits = [not by_rule(rule, expected, it, path) for it in (actual, kept)]
        kept = kept if fits[0] == fits[1] or any(key not in actual for key in asked) else dict(actual)
        gone += [path + spelled(key) for key in actual if key not in kept]
        asked = {key: it for key, it in asked.items() if key in actual}
    elif isinstance(actual, list):
        kept, asked = list(actual), {at: asked.get(at, NO_BODY) for at in range(len(actual))}
    for step, it in asked.items():
        token = spelled(step)
        kept[step] = pruned(it, actual[step], leading_to(rules, depth, token), gone, path + token, depth + 1)
    return kept


def without_what_nobody_asks(interaction: Json, body: Json) -> Tuple[Json, List[str]]:
    """A reply's body without what the broker doesn't take and nobody asks for, and the paths of that: same verdict."""
    response, gone = interaction["response"], list[str]()
    if "body" not in response and not is_taken(body, 0):
        return NO_BODY, ["$"]
    return pruned(response.get("body", NO_BODY), body, rules_of(response, "body"), gone), gone
