"""Pacts with patterns and other matchers, and replies to them: as many as somebody may send to keep a broker from others,
with the end of their check. What steps are: docs/LIMITS.md."""
import json, random
from collections.abc import Callable
from typing import Any

MOST_BYTES = 1_048_576
NAME = r"^[\w \-]{1,100}$"
TYPE = {"match": "type"}
# A pact and replies to it, which are made once they are needed.
Texts = tuple[bytes, bytes]
Made = Callable[[], Texts]


def rule(pattern: str) -> dict[str, Any]:
    return {"matchers": [{"match": "regex", "regex": pattern}]}


def with_rules(body: Any, rules: dict[str, Any]) -> bytes:
    """A pact of one interaction with this body, and the rules for it by their paths."""
    response = {"status": 200, "body": body, "matchingRules": {"body": rules}}
    interaction = {"description": "a list", "request": {"method": "GET", "path": "/"}, "response": response}
    sides = {"consumer": {"name": "shop"}, "provider": {"name": "stock"}}
    return json.dumps({**sides, "interactions": [interaction]}, separators=(",", ":")).encode()


def pact(body: Any, rules: dict[str, str]) -> bytes:
    """The same with lists of any length, and a pattern at each of these paths."""
    return with_rules(body, {"$": {"matchers": [TYPE]}, **{path: rule(it) for path, it in rules.items()}})


def replies(body: Any) -> bytes:
    reply = {"description": "a list", "response": {"status": 200, "body": body}}
    return json.dumps({"replies": [reply]}, separators=(",", ":")).encode()


def sent(text: bytes) -> bytes:
    """The body by which a build of version 1 of the provider sends these replies."""
    return b'{"providerApplicationVersion":"1",' + text[1:]


def listed(matchers: list[dict[str, Any]], items: list[Any], combine: str = "AND", example: Any = "a") -> Texts:
    """A pact of a list with these matchers for each item, and a reply with these items."""
    rules = {"$": {"matchers": [TYPE]}, "$[*]": {"matchers": matchers, "combine": combine}}
    return with_rules([example], rules), replies(items)


def named(matchers: list[dict[str, Any]], count: int) -> Texts:
    """The same for the name of each of so many objects."""
    rules = {"$": {"matchers": [TYPE]}, "$[*].name": {"matchers": matchers}}
    return with_rules([{"name": "a"}], rules), replies([{"name": f"a name {at}"} for at in range(count)])


def by_keys(forms: list[str], texts: list[str], count: int) -> Texts:
    """A pact of a list of objects with a key for each of these patterns, and a reply with so many that have the texts."""
    own = {f"k{at}": it for at, it in enumerate(forms)}
    rules = {f"$[*].{key}": it for key, it in own.items()}
    return pact([dict.fromkeys(own, "a")], rules), replies([dict(zip(own, texts))] * count)


def whole(matchers: list[dict[str, Any]], body: Any) -> Texts:
    """The same for a body and a reply that is equal to it."""
    return with_rules(body, {"$": {"matchers": matchers}}), replies(body)


def patterns(forms: list[str]) -> list[dict[str, Any]]:
    return [{"match": "regex", "regex": it} for it in forms]


def plain(count: int) -> list[dict[str, Any]]:
    return patterns([f"^[a-z]|{at}$" for at in range(count)])


def names(count: int) -> list[dict[str, Any]]:
    return patterns([rf"{NAME}|{at}$" for at in range(count)])


def parts(count: int) -> list[dict[str, Any]]:
    return [{"match": "include", "value": f"x{at:05}"} for at in range(count)]


def of_one(texts: list[str], text: str) -> Texts:
    """A pact of one text with these parts, of which one has to be in it, and a reply with this one."""
    matchers = [{"match": "include", "value": it} for it in texts]
    return with_rules("a", {"$": {"matchers": matchers, "combine": "OR"}}), replies(text)


EQUAL = [{"match": "equality"}]
NULL, INTEGER = {"match": "null"}, {"match": "integer"}
MANY = ["a"] * 250_000
# What is checked, and the end of it.
LISTS: dict[str, tuple[Made, str]] = {
    "16 patterns": (lambda: listed(plain(16), MANY), "pass"),
    "17 patterns": (lambda: listed(plain(17), MANY), "pass"),
    "50 patterns": (lambda: listed(plain(50), MANY), "pass"),
    "50 patterns, the last isn't found": (lambda: listed(plain(50) + patterns(["b"]), MANY), "fail 0"),
    "2,000 type": (lambda: listed([TYPE] * 2_000, MANY), "pass"),
    "40,000 null or type": (lambda: listed([NULL] * 40_000 + [TYPE], MANY, "OR"), "pass"),
    "20,000 null or integer": (lambda: listed([NULL, INTEGER] * 10_000, MANY, "OR"), "fail 0"),
    "30,000 equality or type": (lambda: listed(EQUAL * 30_000 + [TYPE], [1] * 250_000, "OR", 2), "pass"),
    "30,000 type with bounds": (lambda: listed([{**TYPE, "min": at} for at in range(30_000)], MANY), "pass"),
    "25,000 include or type": (lambda: listed(parts(25_000) + [TYPE], MANY, "OR"), "pass"),
    "25,000 include, and none is there": (lambda: listed(parts(25_000), ["y" * 1_000] * 1_000, "OR", "x"), "fail 0"),
    "1,300 include that begin alike": (
        lambda: of_one([f"{'a' * at}b" for at in range(1, 1_300)], "a" * 1_000_000), "fail 0"),
    "2,000 equality of a list of 200,000": (lambda: whole(EQUAL * 2_000, [1] * 200_000), "pass"),
    "2,000 equality of an object of 60,000": (
        lambda: whole(EQUAL * 2_000, {f"{at:x}": 1 for at in range(60_000)}), "pass"),
}


def of_text(forms: list[str], text: str) -> Texts:
    """A pact of one text with these patterns, of which one has to be found, and a reply with this text."""
    return with_rules("a", {"$": {"matchers": patterns(forms), "combine": "OR"}}), replies(text)


def mixed(length: int) -> str:
    return "".join(random.Random(7).choices("ab", k=length))


# A pattern of the weight 10,026: 8, 18 bytes but for the last brace, and 10,001.
LONG = "[ab]*a[ab]{10000}c"
# Whose searches would take more than 300,000,000 steps.
TOO_MUCH: dict[str, Made] = {
    "a long counter, a megabyte": lambda: of_text([LONG], mixed(1_000_000)),
    "a longer one": lambda: of_text(["[ab]*a[ab]{14000}c"], mixed(1_000_000)),
    "a group": lambda: of_text(["(?:a|b)*a(?:a|b){8000}c"], mixed(1_000_000)),
    "18 long counters, 20 kB": lambda: of_text(
        [f"[ab]*a[ab]{{13900}}[c-{end}]" for end in "defghijklmnopqrstu"], mixed(20_000)),
    "16 counters, 20 kB": lambda: of_text(
        [f"[ab]*a[ab]{{2000}}[^a-{end}]" for end in "bcdefghijklmnopq"], mixed(20_000)),
    "without a counter": lambda: of_text(["[ab]*a" + "[ab]" * 400 + "c"], mixed(1_000_000)),
    "large classes": lambda: of_text([r"\pL*a\pL{200}!"], mixed(400_000)),
    "one byte too much": lambda: of_text([LONG], "b" * 29_923),
    "one item too much": lambda: listed(patterns([f"b|{LONG}"]), ["b" * 14_958, "b" * 14_958, "b"]),
}
# Of so many patterns that what the searches learned would be forgotten again and again, or not be in the processor's
# caches, if one were asked after the other of each text.
CROWDS: dict[str, tuple[Made, str]] = {
    "a hundred names, each of 2,000": (lambda: listed(names(100), [f"a name {at}" for at in range(2_000)]), "pass"),
    "a hundred names of 2,000 objects": (lambda: named(names(100), 2_000), "pass"),
    "the last of a hundred names, each of 2,000": (
        lambda: listed(patterns([f"{NAME[:-1]}!{at}$" for at in range(100)] + ["a"]), ["a name"] * 2_000, "OR"), "pass"),
    "a hundred names of 400 objects, each its own": (
        lambda: by_keys([rf"{NAME}|{at}$" for at in range(100)], [f"a {at}" for at in range(100)], 400), "pass"),
    "1,000 patterns, each of 200,000": (lambda: listed(plain(1_000), ["a"] * 200_000), "check 2"),
}
# Just as many steps as there are, but for less than one byte more would take.
JUST: dict[str, tuple[Made, str]] = {
    "one text": (lambda: of_text([LONG], "b" * 29_922), "fail 0"),
    "two items": (lambda: listed(patterns([f"b|{LONG}"]), ["b" * 14_958, "b" * 14_958]), "pass"),
}
