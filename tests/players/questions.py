"""The questions of the cases (cases.py), each with its fields, and how the program answers it."""
import json, re, tempfile
from collections.abc import Callable
from typing import NamedTuple
from tests.players.interface import fits, schema
from tests.process import ran
from tests.wire import Wrong

NAMES = '"consumer":{"name":"shop"},"provider":{"name":"stock"}'
NO_INTERACTIONS = b'{%s,"interactions":[]}' % NAMES.encode()
Fields = dict[str, str]


class Fault(Exception):
    """What the program says why it doesn't do a command."""


class Program:
    """The program, asked by `normalise` and `check`."""

    def __init__(self, path: str) -> None:
        self.path = path

    def run(self, *words: str, text: bytes = b"") -> str:
        """What it prints, without the newline at its end; or its fault."""
        status, output, errors = ran([self.path, *words], text)
        if status == 3 and not output and re.fullmatch(r"[^\n]+\n", errors):
            raise Fault(errors[:-1])
        if errors or not re.fullmatch(r"[^\n]+\n", output):
            raise Wrong(f"{words[0]} ends with {status}: {output!r}, {errors!r}")
        if status != (1 if words[0] == "check" and output.startswith("fail") else 0):
            raise Wrong(f"{words[0]} prints {output!r} and ends with {status}")
        return output[:-1]

    def normalise(self, file: str) -> str:
        """The normal text of a pact file. Both are as docs/openapi.json says."""
        text = self.run("normalise", text=file.encode())
        for name, it in ("the file", file), ("the normal text", text):
            fits(json.loads(it), schema("PactFile"), name)
        return text

    def check(self, pact: bytes, replies: bytes) -> str:
        """The verdict on recorded replies by a pact file. Both are as docs/openapi.json says."""
        with tempfile.TemporaryDirectory() as room:
            for name, text in ("pact", pact), ("replies", replies):
                with open(f"{room}/{name}", "wb") as it:
                    it.write(text)
            verdict = self.run("check", "--pact", f"{room}/pact", "--replies", f"{room}/replies")
        fits(json.loads(pact), schema("PactFile"), "the pact file")
        for it in json.loads(replies)["replies"]:
            fits(it, schema("Reply"), "a reply")
        return verdict

    def meets(self, response: str, sent: str) -> str:
        """Whether the response that was sent to an interaction meets the one that it expects."""
        pact = '{%s,"interactions":[{"description":"a book","request":{},"response":%s}]}' % (NAMES, response)
        replies = '{"replies":[{"description":"a book","response":%s}]}' % sent
        return {"pass": "yes", "fail 0": "no"}[self.check(pact.encode(), replies.encode())]

    def compares(self, rules: str | None, expected: str | None, actual: str | None) -> str:
        """Whether a body that was sent meets the expected one under the rules, each absent if it is None."""
        parts = ("body", expected), ("matchingRules", rules)
        response = ",".join(f'"{name}":{text}' for name, text in parts if text is not None)
        return self.meets("{%s}" % response, '{"status":200%s}' % ("" if actual is None else f',"body":{actual}'))


class Question(NamedTuple):
    """A question: the fields that it may have, and how it is answered."""

    fields: tuple[str, ...]
    answer: Callable[[Program, Fields], str]


QUESTIONS: dict[str, Question] = {}
Answers = Callable[[Program, Fields], str]


def question(name: str, *fields: str) -> Callable[[Answers], Answers]:
    """A question of this name, about these fields."""

    def add(function: Answers) -> Answers:
        QUESTIONS[name] = Question(fields, function)
        return function

    return add


def file_of(case: Fields) -> str:
    """The pact file of the field `file`, with `new` in the place of `old` if these are given."""
    old, new = case.get("old"), case.get("new")
    if old is None or new is None:
        if old != new:
            raise Wrong("the old text and the new one belong together")
        return case["file"]
    if old not in case["file"]:
        raise Wrong("the old text isn't in the file")
    return case["file"].replace(old, new)


@question("pact", "file", "old", "new")
def pact(program: Program, case: Fields) -> str:
    """The normal text of the file, which has to be its own normal text."""
    text = program.normalise(file_of(case))
    if program.normalise(text) != text:
        raise Wrong("the normal text has another")
    return text


@question("normal length", "file", "old", "new")
def normal_length(program: Program, case: Fields) -> str:
    """How many bytes the normal text of the file has."""
    return str(len(program.normalise(file_of(case)).encode()))


@question("fault number", "file", "old", "new")
def fault_number(program: Program, case: Fields) -> str:
    """The number of the file's fault and its place, which follow `pact `; or `none`."""
    try:
        program.normalise(file_of(case))
    except Fault as fault:
        return str(fault).removeprefix("pact ")
    return "none"


def pact_for(replies: str) -> tuple[str, int]:
    """A pact with an interaction for each of the replies, which its reply meets."""
    interactions = []
    for reply in json.loads(replies)["replies"]:
        names = {key: reply[key] for key in ("description", "providerState", "providerStates") if key in reply}
        interactions.append({**names, "request": {}, "response": {"status": reply["response"]["status"]}})
    return '{%s,"interactions":%s}' % (NAMES, json.dumps(interactions)), len(interactions)


@question("replies", "replies")
def replies(program: Program, case: Fields) -> str:
    """How many replies the file `replies` has, or its fault, which comes before any verdict. As many are read as a pact
    has interactions of which each has its reply, if no reply is left over: by the verdict on it, which is `pass`."""
    text = case["replies"].encode()
    try:
        program.check(NO_INTERACTIONS, text)
    except Fault as fault:
        if str(fault) != "check 1":
            raise
    made, count = pact_for(case["replies"])
    verdict = program.check(made.encode(), text)
    return str(count) if verdict == "pass" else verdict


@question("bytes", "bytes")
def both_faults(program: Program, case: Fields) -> str:
    """The faults of the file `bytes`, each byte as two hexadecimal digits, as a pact file and as replies."""
    file, found = bytes.fromhex(case["bytes"]), []
    asks: list[Callable[[], str]] = [
        lambda: program.run("normalise", text=file),
        lambda: program.check(NO_INTERACTIONS, file),
    ]
    for ask in asks:
        try:
            found.append(f"is read: {ask()}")
        except Fault as fault:
            found.append(str(fault))
    return ", ".join(found)


@question("verdict", "file", "old", "new", "replies")
def verdict(program: Program, case: Fields) -> str:
    """Whether the pact `file` `passes` by the `replies` or `fails`, with the indices of the interactions that fail."""
    word, *indices = program.check(file_of(case).encode(), case["replies"].encode()).split(" ")
    said = {"pass": "passes", "fail": "fails"}[word]
    return f"{said} [{', '.join(indices)}]"


@question("response", "response", "sent")
def response(program: Program, case: Fields) -> str:
    """Whether the response `sent` meets the expected `response`."""
    return program.meets(case["response"], case["sent"])


@question("body", "rules", "expected", "actual")
def body(program: Program, case: Fields) -> str:
    """Whether the `actual` body meets the `expected` one under the `rules`, each absent if it isn't given."""
    return program.compares(case.get("rules"), case.get("expected"), case.get("actual"))


def interaction(members: str, response: str = "{}") -> str:
    """A pact file of one interaction, which has these further members, each after a comma, and expects the response."""
    return '{%s,"interactions":[{"description":"a book","request":{},"response":%s%s}]}' % (NAMES, response, members)


@question("table", "rules")
def table(program: Program, case: Fields) -> str:
    """Whether a response may have the `rules`: `a table`, or the fault of the file."""
    program.normalise(interaction("", '{"matchingRules":%s}' % case["rules"]))
    return "a table"


@question("states", "value")
def states(program: Program, case: Fields) -> str:
    """The provider states, in the normal text, of an interaction that has the members of the object `value`."""
    members = case["value"].removeprefix("{").removesuffix("}")
    text = program.normalise(interaction(f",{members}" if members else ""))
    return text.partition('"providerStates":')[2].partition(',"request":')[0]


def member(text: str) -> str:
    """An object that has the JSON of the text as its member `a`."""
    return '{"a":%s}' % text


@question("fit", "rules", "expected", "actual")
def fit(program: Program, case: Fields) -> str:
    """Whether the `actual` tree fits the `expected` one at the root under the `rules`. It is asked one level down,
    since a body that is null or the empty text is no tree that has to fit: the trees are the member `a` of an object,
    and each path of the rules begins with `$.a` in the place of `$`."""
    rules = json.loads(case["rules"])
    below = {re.sub(r"^\$", "$.a", path): entry for path, entry in rules.get("body", {}).items()}
    return program.compares(json.dumps({**rules, "body": below}), member(case["expected"]), member(case["actual"]))


@question("holds", "matcher", "expected", "actual", "own")
def holds(program: Program, case: Fields) -> str:
    """Whether `matcher` holds of the `expected` and the `actual` value, which are the member `a` of an object. The rule
    is that of the member; with `own no` that of the object, of which it has to hold too, and so the member isn't its
    own place."""
    path = "$" if case.get("own") == "no" else "$.a"
    rules = '{"body":{"%s":{"matchers":[%s]}}}' % (path, case["matcher"])
    return program.compares(rules, member(case["expected"]), member(case["actual"]))
