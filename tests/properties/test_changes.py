"""Pact files and replies that are changed in one place: what only writes the same in another way has the same normal
text and the same verdict; what says something else has another; and whatever bytes come, the program ends with an
answer or with one fault that docs/LIMITS.md has."""
import json, re, tempfile
from pathlib import Path
from typing import Any
from hypothesis import given, strategies as st
from tests.process import Ended, ran
from tests.wire import same

# A fault of a pact file, of replies, or of both together, and the end of a check.
PACT_FAULT = r"pact (?:1|2|3 \S+|4|5|6\.[12]|7\.[1-8](?: \S+)* interactions\[\d+\](?: \S+)*|8|9|10)\n"
REPLY_FAULT = r"(?:replies (?:1|2 \S+|3\.[12]|4)|check [12])\n"
SIGNS = st.text(st.characters(blacklist_categories=["Cs"]), max_size=12)
WHOLE = st.integers(-(2**63), 2**64 - 1)
LEAVES = st.one_of(st.none(), st.booleans(), WHOLE, SIGNS)
# Values that a body may have, two or three levels deep.
LISTS = lambda it: st.one_of(st.lists(it, max_size=3), st.dictionaries(SIGNS, it, max_size=3))
VALUES = st.recursive(LEAVES, LISTS, max_leaves=8)
OBJECTS = st.dictionaries(SIGNS.filter(bool), VALUES, min_size=1, max_size=4)


def pact(body: Any) -> dict[str, Any]:
    response = {"status": 200, "body": body}
    interaction = {"description": "a book", "request": {"method": "GET", "path": "/"}, "response": response}
    return {"consumer": {"name": "shop"}, "provider": {"name": "stock"}, "interactions": [interaction]}


def replies(body: Any) -> str:
    return json.dumps({"replies": [{"description": "a book", "response": {"status": 200, "body": body}}]})


def normalise(program: str, text: str | bytes) -> Ended:
    return ran([program, "normalise"], text)


def normal(program: str, file: Any, **how: Any) -> str:
    """The normal text of a pact file, which is written this way."""
    done = normalise(program, json.dumps(file, **how))
    same("the end", (done.status, done.errors), (0, ""))
    return done.output


def check(program: str, file: str | bytes, sent: str | bytes) -> Ended:
    with tempfile.TemporaryDirectory() as room:
        for name, text in ("pact", file), ("replies", sent):
            Path(room, name).write_bytes(text if isinstance(text, bytes) else text.encode())
        return ran([program, "check", "--pact", f"{room}/pact", "--replies", f"{room}/replies"])


def turned(value: Any) -> Any:
    """The same value with the keys of its objects in another order."""
    if isinstance(value, dict):
        return {key: turned(it) for key, it in reversed(value.items())}
    return [turned(it) for it in value] if isinstance(value, list) else value


@given(OBJECTS)
def test_the_same_file_written_otherwise_has_one_normal_text(program: str, body: Any) -> None:
    file = pact(body)
    text = normal(program, file)
    same("with spaces", normal(program, file, indent=3), text)
    same("without escapes", normal(program, file, ensure_ascii=False), text)
    same("with keys in another order", normal(program, turned(file)), text)
    same("with keys that nothing asks for", normal(program, {**file, "x-more": body}), text)
    same("of its own", normalise(program, text).output, text)
    same("the body in it", json.loads(text)["interactions"][0]["response"]["body"], body)


@given(OBJECTS, LEAVES, st.data())
def test_one_value_that_is_changed_is_seen(program: str, body: Any, other: Any, data: st.DataObject) -> None:
    """A key of the body has another value: the normal text is another one, and a reply with it fails; one with a key
    more passes."""
    key = data.draw(st.sampled_from(sorted(body)))
    changed = {**body, key: other}
    if json.dumps(body[key], sort_keys=True) == json.dumps(other, sort_keys=True):
        return
    assert normal(program, pact(changed)) != normal(program, pact(body)), "the normal text is the same"
    same("the body's own reply", check(program, json.dumps(pact(body)), replies(body)), (0, "pass\n", ""))
    same("the changed reply", check(program, json.dumps(pact(body)), replies(changed)), (1, "fail 0\n", ""))
    more = {**body, "x" * 20: other}
    same("a reply with more keys", check(program, json.dumps(pact(body)), replies(more)), (0, "pass\n", ""))


@given(OBJECTS, st.integers(0, 2000), st.binary(max_size=3), st.integers(0, 3))
def test_whatever_bytes_come_there_is_an_end(program: str, body: Any, place: int, put: bytes, taken: int) -> None:
    """Some bytes of a file are replaced: it has a normal text, which is its own, or one fault; so have replies."""
    for which, whole in enumerate([json.dumps(pact(body)).encode(), replies(body).encode()]):
        at = place % len(whole)
        text = whole[:at] + put + whole[at + taken :]
        if which == 0:
            done = normalise(program, text)
            if done.status == 0:
                same("the normal text of the normal text", normalise(program, done.output), done)
            else:
                assert (done.status, done.output) == (3, "") and re.fullmatch(PACT_FAULT, done.errors), done
        else:
            done = check(program, json.dumps(pact(body)), text)
            if done.status == 3:
                assert done.output == "" and re.fullmatch(REPLY_FAULT, done.errors), done
            else:
                assert (done.status, done.output, done.errors) in [(0, "pass\n", ""), (1, "fail 0\n", "")], done
