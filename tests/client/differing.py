"""Random interactions, replies that often meet them, and changes of these in one place."""
import copy, json, random
from collections.abc import Iterator
from typing import Any, List, Tuple

from holzhebo.pact.faults import findings_of
from holzhebo.pact.json import ascii_lower
from holzhebo.verify.differs import NO_BODY, Difference, spelled
from holzhebo.verify.leave import is_taken

Json = Any
Location = List[Any]


TEXTS = ["", "a", "ab", "Ada", "7", "12", "true", "x y", "\u00e9", "a,b", "Grace Hopper"]
KEYS = ["id", "name", "tags", "items", "a.b", "it em", "0", "", "\u00e9", "*", "it's", "owner", "[x]"]
PATTERNS = ["^[0-9]+$", "a", "^$", "^(true|false)$", "[A-Z][a-z]+", "x? y", "^.{1,3}$", "(?i)ADA", "b|7"]
HEADERS = ["Content-Type", "content-type", "X-Total", "Cache-Control", "ETag", "Accept-Ranges"]
VALUES = ["application/json", "application/json; charset=utf-8", "Application/JSON", "text/plain"]
VALUES += ["a, b", "a,b", " a,\tb ", "12"]


def scalar(rng: random.Random) -> Json:
    return rng.choice([None, True, False, 0, 1, 7, 12, -3, 2**63, rng.choice(TEXTS), rng.choice(TEXTS)])


def tree(rng: random.Random, levels: int) -> Json:
    if levels == 0 or rng.random() < 0.25:
        return scalar(rng)
    if rng.random() < 0.45:
        return [tree(rng, levels - 1) for _ in range(rng.choice([0, 1, 1, 2, 3]))]
    return {key: tree(rng, levels - 1) for key in rng.sample(KEYS, rng.choice([0, 1, 2, 3, 4]))}


def places(value: Json, at: Location = []) -> Iterator[Location]:
    yield at
    steps = value if isinstance(value, dict) else range(len(value)) if isinstance(value, list) else ()
    for step in steps:
        yield from places(value[step], [*at, step])


def get(value: Json, at: Location) -> Json:
    for step in at:
        value = value[step]
    return value


def put(value: Json, at: Location, new: Json) -> Json:
    if not at:
        return new
    get(value, at[:-1])[at[-1]] = new
    return value


def path_of(at: Location) -> str:
    return "$" + "".join(spelled(step) for step in at)


def rule_path(rng: random.Random, at: Location, with_index: bool) -> str:
    text = "$"
    for step in at:
        if rng.random() < 0.3 or isinstance(step, str) and "'" in step or isinstance(step, int) and not with_index:
            text += rng.choice([".*", "[*]"])
        elif isinstance(step, int):
            text += f"[{step if rng.random() < 0.8 else step + 1:0{rng.choice([1, 3])}}]"
        else:
            text += rng.choice([spelled(step), f"['{step}']"])
    return text


def matcher(rng: random.Random, example: Json, in_header: bool = False) -> Json:
    names = ["type"] * 4 + ["equality", "regex", "include"]
    name = rng.choice(names + ([] if in_header else ["integer", "number", "null"]))
    if name == "type":
        low = rng.choice([None, None, 0, 1, 2])
        high = rng.choice([None, None, 3]) if low is not None else rng.choice([None, 1])
        bounds: Json = {key: it for key, it in (("min", low), ("max", high)) if it is not None or rng.random() < 0.1}
        is_short = any(it is not None for it in bounds.values()) and rng.random() < 0.2
        return bounds if is_short else {"match": "type", **bounds}
    if name == "regex":
        found: Json = {"match": "regex", "regex": rng.choice(PATTERNS)}
        return {"regex": found["regex"]} if rng.random() < 0.2 else found
    if name == "include":
        part = example[:2] if isinstance(example, str) else "1"
        return {"match": "include", "value": rng.choice([rng.choice(TEXTS), part])}
    return {"match": name}


def entry(rng: random.Random, example: Json, in_header: bool = False) -> Json:
    found: Json = {"matchers": [matcher(rng, example, in_header) for _ in range(rng.choice([0, 1, 1, 1, 1, 2, 3]))]}
    combine: List[Json] = [{}, {}, {"combine": "AND"}, {"combine": "OR"}, {"combine": "OR"}, {"combine": None}]
    return {**found, **rng.choice(combine)}


def interaction(rng: random.Random, with_index: bool = True, more: bool = False) -> Json:
    """An interaction that the broker takes, in its normal form; with more entries of equality for objects if that is
    wished."""
    while True:
        response: Json = rng.choice([{}, {"status": 200}, {"status": 404}])
        names = rng.sample(HEADERS, rng.choice([0, 0, 1, 2]))
        response = {**response, "headers": {name: rng.choice([rng.choice(VALUES), ["a", "b"]]) for name in names}}
        body: Json = rng.choice([NO_BODY, None, ""]) if rng.random() < 0.06 else tree(rng, rng.choice([1, 2, 3, 4]))
        if body is not NO_BODY:
            response["body"] = body
        where = [rng.choice(list(places(body))) for _ in range(rng.choice([0, 1, 2, 3, 5, 8]))]
        where += where[:1] * rng.choice([0, 0, 3])  # of these some have equal weights
        rules = {rule_path(rng, at, with_index): entry(rng, get(body, at)) for at in where}
        objects = [at for at in places(body) if isinstance(get(body, at), dict)]
        if more and objects:
            others = rng.sample([matcher(rng, {}), {"match": "type"}], rng.choice([0, 0, 1]))
            new = {"matchers": [{"match": "equality"}, *others], "combine": rng.choice(["AND", "OR"])}
            rules = {rule_path(rng, rng.choice(objects), with_index): new, **(rules if rng.random() < 0.5 else {})}
        ruled = [name for name in names if rng.random() < 0.4]
        about = {rng.choice([name.upper(), name.lower()]): entry(rng, "a", True) for name in ruled}
        response["matchingRules"] = {"body": rules, "header": about}
        one = {"description": "d", "providerStates": [], "request": {}, "response": response}
        pact = {"consumer": {"name": "c"}, "provider": {"name": "p"}, "interactions": [one]}
        if not findings_of(json.dumps(pact).encode(), lambda _: True).faults:
            return one


def vary(rng: random.Random, value: Json) -> Json:
    """A value that often fits where this one is the example."""
    if isinstance(value, dict):
        new = {key: scalar(rng) for key in rng.sample(KEYS, 1) if rng.random() < 0.2 and key not in value}
        return {**{key: vary(rng, it) for key, it in value.items()}, **new}
    if isinstance(value, list):
        items = [vary(rng, it) for it in value]
        more = rng.choice([1, 2]) if value and rng.random() < 0.3 else 0
        return items + [vary(rng, copy.deepcopy(value[0])) for _ in range(more)]
    if rng.random() < 0.75 or value is None:
        return value
    if isinstance(value, bool):
        return not value
    if isinstance(value, int):
        return min(value + 1, 2**64 - 1)
    return rng.choice(TEXTS)


def reply_to(rng: random.Random, one: Json, varied: bool = True) -> Json:
    response = one["response"]
    reply: Json = {"status": response.get("status", 200), "headers": copy.deepcopy(response["headers"])}
    if varied and rng.random() < 0.3:
        reply["headers"] = {name.swapcase(): it for name, it in reply["headers"].items()}
        reply["headers"]["x-more"] = "1"
    if "body" in response:
        reply["body"] = vary(rng, copy.deepcopy(response["body"])) if varied else copy.deepcopy(response["body"])
    return reply


def mutate(rng: random.Random, reply: Json) -> str:
    """Changes the reply in one place; the path of this place."""
    choice = rng.random()
    if choice < 0.05:
        reply["status"] = rng.choice([200, 201, 404, 500])
        return "status"
    if choice < 0.15 and reply["headers"]:
        name = rng.choice(list(reply["headers"]))
        if rng.random() < 0.3:
            del reply["headers"][name]
        else:
            reply["headers"][name] = rng.choice(VALUES)
        return f"header {ascii_lower(name)}"
    if "body" not in reply or choice < 0.17:
        if reply.pop("body", NO_BODY) is NO_BODY:
            reply["body"] = rng.choice([None, "", "x", {}, [], 5])
        return "body"
    at = rng.choice(list(places(reply["body"])))
    value = get(reply["body"], at)
    if isinstance(value, dict) and rng.random() < 0.7:
        key = rng.choice(list(value) or ["id"]) if rng.random() < 0.6 else rng.choice(KEYS)
        if key in value:
            del value[key]
        else:
            value[key] = scalar(rng)
        return path_of([*at, key])
    if isinstance(value, list) and rng.random() < 0.7:
        if value and rng.random() < 0.5:
            value.pop()
            return path_of([*at, len(value)])
        value.append(scalar(rng))
        return path_of([*at, len(value) - 1])
    reply["body"] = put(reply["body"], at, rng.choice([scalar(rng), scalar(rng), scalar(rng), [], {}]))
    return path_of(at)


def above(path: str, place: str, body: Json) -> bool:
    """Whether a path is a place or above it."""
    if not place.startswith("$"):
        return path == place or (place == "body" and path == "$")
    ends = [at for at in range(1, len(place) + 1) if place[at : at + 1] in ("", ".", "[")]
    return path == "body" or path in [place[:at] for at in ends]


def pairs(expected: Json, actual: Json, at: Location) -> Iterator[Tuple[Location, Json]]:
    yield at, expected
    if isinstance(expected, dict) and isinstance(actual, dict):
        for key, it in expected.items():
            yield from pairs(it, actual.get(key), [*at, key])
    if isinstance(expected, list) and isinstance(actual, list) and expected:
        for number, it in enumerate(actual):
            yield from pairs(expected[number] if number < len(expected) else expected[0], it, [*at, number])


def repaired(one: Json, reply: Json, told: List[Difference]) -> Json:
    """The reply with the example in each place that is told."""
    response, reply = one["response"], copy.deepcopy(reply)
    paths = {it.path for it in told}
    if "status" in paths:
        reply["status"] = response.get("status", 200)
    for name, value in response["headers"].items():
        if f"header {ascii_lower(name)}" in paths:
            reply["headers"] = {key: it for key, it in reply["headers"].items() if key.lower() != name.lower()}
            reply["headers"][name] = value
    if "body" in paths or "$" in paths:
        reply["body"] = copy.deepcopy(response["body"])
    elif "body" in reply and "body" in response:
        known = list(pairs(response["body"], reply["body"], []))
        done: List[Location] = []
        for at, it in sorted(known, key=lambda it: len(it[0])):
            if path_of(at) in paths and not any(at[: len(other)] == other for other in done):
                reply["body"] = put(reply["body"], at, copy.deepcopy(it))
                done.append(at)
    return reply


BROKEN = [1.5, 19.99, -0.0, 2**64, -(2**63) - 1, {"x": 0.5}, [0.25], {"x": [1, {"y": 2.5}]}, float("1e300")]


def deep(levels: int) -> Json:
    value: Json = 1
    for number in range(levels):
        value = [value] if number % 2 else {"d": value}
    return value


def whole(value: Json) -> Json:
    if isinstance(value, dict):
        return {key: whole(it) for key, it in value.items()}
    if isinstance(value, list):
        return [whole(it) for it in value]
    return value if is_taken(value, 0) else 7
