"""What differs, in sentences that are written here; and limits."""
import time
from typing import List, Tuple
import pytest

from holzhebo.verify.differs import NO_BODY, differences, explained, seems_to_match
from holzhebo.verify.leave import without_what_nobody_asks
from tests.client.differing import Json
from tests.wire import same


def one_of(body: Json, rules: Json = None, headers: Json = None, about: Json = None) -> Json:
    response: Json = {
        "body": body,
        "headers": headers or {},
        "matchingRules": {"body": rules or {}, "header": about or {}},
    }
    return {"description": "d", "providerStates": [], "request": {}, "response": response}


def rule(*matchers: Json, combine: str = "AND") -> Json:
    return {"combine": combine, "matchers": list(matchers)}


TYPE, LONG = {"match": "type"}, "<catalogue><books><book><title>Ada</title><price>"
SENTENCES: List[Tuple[Json, Json, List[str]]] = [
    (
        one_of({"available": True}, {"$.available": rule(TYPE)}),
        {"body": {"available": "yes"}},
        ['$.available: the text "yes"; expected a truth value (by the rule $.available: type)'],
    ),
    (one_of({"name": "Ada"}), {"body": {}}, ["$.name is missing"]),
    (
        one_of({"name": "Ada"}),
        {"body": {"name": "Eve"}},
        ['$.name: the text "Eve"; expected the text "Ada" (by the example)'],
    ),
    (
        one_of({"tags": ["a"]}, {"$.tags": rule({"match": "type", "min": 1})}),
        {"body": {"tags": []}},
        ["$.tags has 0 items; expected at least 1 (by the rule $.tags: type, min 1)"],
    ),
    (
        one_of({"tags": ["a"]}, {"$.tags": rule({"min": 2, "max": 3})}),
        {"body": {"tags": ["x"]}},
        ["$.tags has 1 item; expected at least 2 and at most 3 (by the rule $.tags: type, min 2, max 3)"],
    ),
    (
        one_of({"tags": ["a"]}, {"$.tags": rule({"match": "type", "min": 3})}),
        {"body": {"tags": [1, "b"]}},
        [
            "$.tags has 2 items; expected at least 3 (by the rule $.tags: type, min 3)",
            "$.tags[0]: the number 1; expected a text (by the rule $.tags: type)",
        ],
    ),
    (one_of({"tags": ["a", "b"]}), {"body": {"tags": ["a"]}}, ["$.tags has 1 item; expected 2 (by the example)"]),
    (one_of({"tags": ["a"]}), {"body": {"tags": ["a", "b"]}}, ["$.tags has 2 items; expected 1 (by the example)"]),
    (one_of({"tags": ["a"]}), {"body": {"tags": None}}, ["$.tags: null; expected a list of 1 item (by the example)"]),
    (
        one_of({"items": [{"id": 1}]}, {"$.items": rule(TYPE), "$.items[*].id": rule({"match": "integer"})}),
        {"body": {"items": [{"id": 2}, {"id": 3}, {"id": "4"}]}},
        ['$.items[2].id: the text "4"; expected a whole number (by the rule $.items[*].id: integer)'],
    ),
    (
        one_of({"a": "x"}, {"$.a": rule({"match": "null"}, TYPE, combine="OR")}),
        {"body": {"a": 5}},
        ["$.a: the number 5; expected null or a text (by the rule $.a: null or type)"],
    ),
    (
        one_of({"a": 1}, {"$.a": rule({"match": "regex", "regex": "^[0-9]+$"})}),
        {"body": {"a": "x"}},
        [
            '$.a: the text "x"; expected a text that matches ^[0-9]+$ '
            "(by the rule $.a: regex, as Python reads the pattern)"
        ],
    ),
    (
        one_of({"a": 1}, {"$.a": rule({"match": "regex", "regex": "^[0-9]+$"})}),
        {"body": {"a": None}},
        ["$.a: null; expected a text that matches ^[0-9]+$ (by the rule $.a: regex)"],
    ),
    *[
        (
            one_of({"a": {"b": 1}}, {path: rule({"match": "null"}) for path in paths}),
            {"body": {"a": {"b": 2}}},
            ["$.a: an object; expected null (by the rule $.a: null)"] * ("$.a" in paths)
            + [f"$.a.b: the number 2; expected null (by the rule {told}: null)"],
        )
        for paths, told in (
            (["$.*.b", "$.a.*"], "$.a.*"),
            (["$.a.*", "$.*.b"], "$.a.*"),
            (["$.*.*", "$.a"], "$.a"),
            (["$['a'].*", "$.*['b']", "$.*.*"], "$['a'].*"),
            (["$.*.*", "$.a", "$.a[*]"], "$.a[*]"),
        )
    ],
    (
        one_of({"a": "Ada"}, {"$.a": rule({"match": "include", "value": "d"})}),
        {"body": {"a": "Eve"}},
        ['$.a: the text "Eve"; expected a text that contains "d" (by the rule $.a: include)'],
    ),
    (
        one_of({"a": {"id": 1}}, {"$.a": rule({"match": "equality"})}),
        {"body": {"a": {"id": 1, "b": 2, "c": 3}}},
        ["$.a: an object that also has b, c; expected no other keys (by the rule $.a: equality)"],
    ),
    (one_of({"a": {"id": 1}}, {"$.a": rule({"match": "equality"})}), {"body": {"a": {}}}, ["$.a.id is missing"]),
    (
        one_of({}, None, {"Content-Type": "application/json"}),
        {"status": 404, "headers": {}, "body": {}},
        ["status: 404; expected 200 (by the example)", "header content-type is missing"],
    ),
    (
        one_of({}, None, {"Content-Type": "application/json"}),
        {"headers": {"content-type": "text/html; q"}, "body": {}},
        ['header content-type: the text "text/html; q"; expected the text "application/json" (by the example)'],
    ),
    (
        one_of({}, None, {"X": "5"}, {"x": rule({"regex": "^[0-9]$"})}),
        {"headers": {"x": "y"}, "body": {}},
        [
            'header x: the text "y"; expected a text that matches ^[0-9]$ '
            "(by the rule x: regex, as Python reads the pattern)"
        ],
    ),
    (one_of({"a": 1}), {}, ["body is missing"]),
    (one_of(None), {"body": 1}, ["body: the number 1; expected no body or null (by the example)"]),
    (
        one_of(LONG + "19</price>"),
        {"body": LONG + "20</price>"},
        [
            '$: the text ..."e>Ada</title><price>20</price>"; '
            'expected the text ..."e>Ada</title><price>19</price>" (by the example)'
        ],
    ),
]


@pytest.mark.parametrize("one, reply, wanted", SENTENCES, ids=lambda it: "")
def test_sentences(one: Json, reply: Json, wanted: List[str]) -> None:
    said = [it.sentence() for it in differences(one, {"status": 200, "headers": {}, **reply})]
    same("the sentences", said, wanted)


def test_what_is_not_understood() -> None:
    """If both disagree it is said, unless a pattern could be the reason."""
    one = one_of("x7", {"$": rule({"match": "regex", "regex": r"^\w\d$"})})
    reply: Json = {"status": 200, "body": "x7"}
    doubt = r"""$: the text "x7"; expected a text that matches ^\w\d$ (by the rule $: regex, which isn't judged here)"""
    said = explained(one, reply, True)
    same("a fail by a pattern", said, (["the broker says it fails; this client finds no difference", doubt], False))
    same("nothing, if all is well", explained(one, reply, False), ([], False))
    said = explained(one, {**reply, "body": None}, False)
    wanted = [
        "the broker says it passes; this client finds differences",
        r"$: null; expected a text that matches ^\w\d$ (by the rule $: regex)",
    ]
    same("a pass that isn't understood", said, (wanted, True))
    same(
        "a fail that isn't understood",
        explained(one_of({"a": 1}), {"status": 200, "body": {"a": 1}}, True),
        (["the broker says it fails; this client finds no difference"], True),
    )
    other = {**reply, "body": "nothing like it"}
    same("a pass by a pattern that Python reads otherwise", explained(one, other, False), ([], False))
    many = explained(one_of(list(range(50))), {"status": 200, "body": ["a"] * 50}, True).lines
    same("at most 20, and how many more", (len(many), many[-1]), (21, "and 30 more"))


def test_what_nobody_asks_for() -> None:
    left = without_what_nobody_asks(one_of({"id": 1}), {"id": 2, "price": 19.99, "more": {"a": [0.5]}, "n": 1})
    same("an example", left, ({"id": 2, "n": 1}, ["$.price", "$.more"]))
    body, gone = without_what_nobody_asks({"response": {"status": 201}}, [1.5])
    same("a body that no contract has", (body is NO_BODY, gone), (True, ["$"]))
    owner = one_of({"a": {"id": 1}}, {"$.a": rule({"match": "equality"})})
    for body, paths in (({"id": 1, "x": 0.5}, []), ({"id": 1, "x": 0.5, "y": 1}, ["$.a.x"]), ({"x": 0.5}, ["$.a.x"])):
        same(f"under an entry of equality: {body}", without_what_nobody_asks(owner, {"a": body})[1], paths)


def test_patterns_as_python_reads_them() -> None:
    begun = time.monotonic()
    for _ in range(20):
        said = seems_to_match("^(a+)+$", "a" * 60 + "b")
        same("a pattern that takes too long isn't judged", said, None)
    same("and it is tried once", time.monotonic() - begun < 4, True)
    for pattern, text, wanted in (
        (r"\z", "", True),
        (r"a$", "a\n", False),
        (r"(?<y>a)", "a", True),
        (r"\p{L}", "a", None),
        (r"\$", "$", True),
        (r"a++", "aa", None),
        (r"[a&&b]", "a", None),
        (r"(?s).", "a", None),
        (r"\<a", "a", None),
        (r"[$]", "$", True),
        ("(" * 1024 + ")" * 1024, "", None),
        (r"a{9999999999999}", "", None),
        (r"[[:alpha:]]", "a", None),
        (r"[^]]$", "a", True),
        (r"[\]$]$", "$", True),
        (r"(?i)A", "a", True),
        (r"(?-u)a", "a", None),
    ):
        same(f"pattern {pattern}", seems_to_match(pattern, text), wanted)
    rules: Json = {"$.items": rule(TYPE), **{f"$.items[*].k{n}": rule(TYPE) for n in range(40)}}
    big = one_of({"items": [{"id": 1, "tags": ["a"]}]}, rules)
    reply = {"status": 200, "body": {"items": [{"id": number, "tags": ["x", 5]} for number in range(15000)]}}
    begun = time.monotonic()
    same("a reply of about half a megabyte", len(differences(big, reply)), 15000)
