"""The faults of pact files: `explain` beside `broker normalise`."""
import concurrent.futures, contextlib, functools, json, os
from collections.abc import Iterator
from multiprocessing import get_context
from pathlib import Path
from typing import Any, List, Optional, Tuple
from holzhebo.pact.faults import findings_of
from holzhebo.pact.program import Program
from holzhebo.pact.rules import is_surely_refused
from tests.client.tools import Client
from tests.process import TOP
from tests.wire import Wrong, same
from tests.world import pact

VALUES: List[Any] = [
    None,
    1,
    -1,
    1.5,
    "x",
    "",
    [],
    {},
    True,
    [1],
    {"name": "x"},
    "$",
    "3.0",
    "2.0.0",
    10**30,
    "(a",
    [[]],
]


def vectors() -> List[bytes]:
    """The pact files of tests/data/cases and tests/data/lines, each once."""
    from tests.players.cases import cases_of
    from tests.players.questions import NAMES, file_of

    files = set()
    for path in sorted(Path(f"{TOP}/tests/data/cases").glob("*.cases")):
        for case in cases_of(path):
            for given in case.asks:
                files.update([file_of(given).encode()] if "file" in given else [])
                if "response" in given:
                    one = '{"description":"a book","request":{},"response":%s}' % given["response"]
                    files.add(('{%s,"interactions":[%s]}' % (NAMES, one)).encode())
    files.update(it.read_bytes() for it in Path(f"{TOP}/tests/data/lines").glob("*.json"))
    return sorted(files, key=lambda it: (len(it), it))


def spots(value: Any, path: Tuple[Any, ...] = ()) -> Iterator[Tuple[Any, ...]]:
    """The places of a value's members and items."""
    for key, it in value.items() if isinstance(value, dict) else enumerate(value) if isinstance(value, list) else ():
        yield (*path, key)
        yield from spots(it, (*path, key))


def changed(file: bytes, path: Tuple[Any, ...], way: int) -> bytes:
    """The file with one key or item taken out, named otherwise, or with another value."""
    whole = json.loads(file)
    inner = whole
    for key in path[:-1]:
        inner = inner[key]
    it = inner[path[-1]]
    if way < len(VALUES):
        inner[path[-1]] = VALUES[way]
    else:
        del inner[path[-1]]
        if isinstance(inner, dict) and way > len(VALUES):
            inner[(f"{path[-1]}x", f"${path[-1]}", path[-1].upper(), "")[way - len(VALUES) - 1]] = it
    return json.dumps(whole).encode()


BYTES = b"\"{}[]:,0x$.\\\xff\x00 *-e\n'?"


def mutants(file: bytes, place: int) -> Iterator[bytes]:
    """A share of the file's changes, more of a longer one: of keys, and of bytes."""
    with contextlib.suppress(ValueError):
        paths = list(spots(json.loads(file)))
        for number in range(min(60, 4 + len(file) // 60) if paths else 0):
            yield changed(file, paths[(place + 7 * number) % len(paths)], (place + number) % (len(VALUES) + 5))
    step = len(file) // min(40, 2 + len(file) // 90) + 1
    for at in range(place % step, len(file), step):
        yield file[:at] + BYTES[(at + place) % len(BYTES) :][:1] + file[at + 1 :]


def compare(path: str, file: bytes) -> Optional[str]:
    """What is otherwise, if the program's first fault of the file isn't the first that is found. The program is asked
    about each pattern by itself; without it, it may still refuse one of the patterns that aren't judged."""
    program = Program(path)
    line = program.fault(file)
    found = findings_of(file, program.judge)
    first = found.faults[0].line if found.faults else None
    if first != line or found.unjudged:
        return f"the program says {line}, and found is {first}: {file[:400]!r}"
    found = findings_of(file, is_surely_refused)
    first = found.faults[0].line if found.faults else None
    if first != line and not (found.unjudged and (line or "").startswith("pact 7.7")):
        return f"without the program: it says {line}, and found is {first}: {file[:400]!r}"
    return None


def test_explain_beside_normalise(program: str) -> None:
    files = vectors()
    small = [it for it in files if len(it) < 30000]
    asked = [*files, *(it for place, file in enumerate(small) for it in mutants(file, place))]
    if len(files) < 300 or len(asked) < 3000:
        raise Wrong(f"only {len(files)} files, {len(asked)} with their changes")
    with concurrent.futures.ProcessPoolExecutor(mp_context=get_context("fork")) as workers:
        wrong = [it for it in workers.map(functools.partial(compare, program), asked, chunksize=32) if it]
    same(f"of {len(asked)} files otherwise, the first", wrong[:1], [])


# Faults that a file can have together, in the order in which docs/DEFINITIONS.md and docs/LIMITS.md look for them: the
# broker's line, the place, and the value that makes it.
FIRST = ["interactions", 0]
RULES_OF_0 = [*FIRST, "response", "matchingRules"]
TOGETHER: List[Tuple[str, List[Any], Any]] = [
    ("pact 6.2", ["metadata", "deep"], json.loads("[" * 100 + "]" * 100)),
    ("pact 6.1", ["metadata", "price"], 19.99),
    ("pact 4", ["metadata", "pactSpecification"], {"version": "2.0.0"}),
    ("pact 5", ["messages"], [{}]),
    ("pact 3 consumer.name", ["consumer", "name"], ""),
    ("pact 3 provider.name", ["provider", "name"], 7),
    ("pact 3 interactions[0].description", [*FIRST, "description"], None),
    ("pact 3 interactions[0].providerStates", [*FIRST, "providerStates"], "s"),
    ("pact 3 interactions[0].request", [*FIRST, "request"], []),
    ("pact 3 interactions[0].status", [*FIRST, "response", "status"], 99),
    ("pact 3 interactions[0].headers", [*FIRST, "response", "headers"], {"a": "1", "A": "1"}),
    ("pact 7.2 interactions[0]", [*RULES_OF_0, "$.body"], {}),
    ("pact 7.3 interactions[0]", [*RULES_OF_0, "body", "$!"], {"matchers": []}),
    ("pact 7.1 interactions[0]", [*RULES_OF_0, "body", "$.a"], {"matchers": 1}),
    ("pact 7.8 interactions[0]", [*RULES_OF_0, "body", "$.b"], {"matchers": [], "combine": "OF"}),
    ("pact 7.5 interactions[0] date", [*RULES_OF_0, "body", "$.c"], {"matchers": [{"match": "date"}]}),
    ("pact 7.6 interactions[0]", [*RULES_OF_0, "body", "$.d"], {"matchers": [{"min": 2, "max": 1}]}),
    ("pact 7.7 interactions[0]", [*RULES_OF_0, "body", "$.e"], {"matchers": [{"regex": "(?=a)"}]}),
    ("pact 7.4 interactions[0]", [*RULES_OF_0, "body", "$.z"], {"matchers": []}),
    ("pact 7.5 interactions[0] integer", [*RULES_OF_0, "header", "x"], {"matchers": [{"match": "integer"}]}),
    ("pact 7.5 interactions[0] status", [*RULES_OF_0, "status"], {}),
    ("pact 3 interactions[1]", ["interactions", 1], 1),
]


def test_faults_together(program: str) -> None:
    """All of them are found, in their order; and the first is the program's, also as one after another is taken out."""
    judge = Program(program)
    for begin in range(len(TOGETHER) + 1):
        file = json.loads(pact("a book"))
        file.update(metadata={}, interactions=[*file["interactions"], *json.loads(pact("a book"))["interactions"]])
        file["interactions"][0]["response"]["matchingRules"] = {"body": {"$['z']": {"matchers": []}}, "header": {}}
        for _, place, value in TOGETHER[begin:]:
            inner = file
            for key in place[:-1]:
                inner = inner[key]
            inner[place[-1]] = value
        lines = [line for line, _, _ in TOGETHER[begin:]]
        content = json.dumps(file).encode()
        same(f"from {begin} on", [it.line for it in findings_of(content, judge.judge).faults], lines or ["pact 8"])
        same(f"the program from {begin} on", judge.fault(content), (lines or ["pact 8"])[0])


# Paths of rules, and whether they can be read: by docs/LIMITS.md and docs/DECISIONS.md.
PATHS = {
    **dict.fromkeys(
        ["$", "$" + ".a" * 60, "$[123456789]", "$['a.b']", "$['']", "$.é", "$[*]", "$.*", "$[0].a['b c'][*].*"], True
    ),
    **dict.fromkeys(
        [
            "",
            "a",
            "$a",
            "$.",
            "$" + ".a" * 61,
            "$[1234567890]",
            "$.a*",
            "$[]",
            "$['a]",
            "$['a'",
            "$..a",
            "$[-1]",
            "$ .a",
        ],
        False,
    ),
}
ONE_PATH = [("$.a", "$['a']"), ("$[1]", "$[01]"), ("$.*", "$[*]"), ("$.a[0].b", "$['a'][000]['b']")]


def test_paths_of_rules(program: str) -> None:
    """Each can be read or not, and two spellings of one path are one, as written and by the program."""
    judge = Program(program)
    asks = [([path], None if can_be_read else "pact 7.3 interactions[0]") for path, can_be_read in PATHS.items()]
    asks += [(list(both), "pact 7.4 interactions[0]") for both in ONE_PATH] + [(["$.a", "$.A"], None)]
    for keys, line in asks:
        file = json.loads(pact("a book"))
        file["interactions"][0]["response"]["matchingRules"] = {"body": {key: {"matchers": []} for key in keys}}
        content = json.dumps(file).encode()
        found = [it.line for it in findings_of(content, judge.judge).faults]
        same(f"{keys}", (found, judge.fault(content)), ([line] if line else [], line))


PATTERNS = r"""a (?=a) (?!a) (?<=a) (?<!a) (a)\1 a\\1 [(?=] [a[(?=]] (?x)a#(?= ( a{2,1} \d{4}-\d{2} ^[\w\-]{1,100}$ a++
(?P<n>a) (?<n>a) (?P=n) \Z \p{L} []a] [^]a] [\]](?=a) (?i)a (?-u)a \Qa\E (?>a) a{1000}{1000} (a{1000}){1000}""".split()


def test_patterns(program: str, room: str) -> None:
    """A pattern that is called refused without the program is refused by it. With it each is judged, and the program's
    first fault is there also if it refuses for the file what it takes by itself."""
    judge = Program(program)
    refused = [it for it in PATTERNS if is_surely_refused(it) is False]
    same("refused by the program too", [judge.judge(it) for it in refused], [False] * len(refused))
    same("refused", refused, ["(?=a)", "(?!a)", "(?<=a)", "(?<!a)", r"(a)\1", r"[\]](?=a)"])
    client = Client(room, "http://127.0.0.1:1")
    for pattern, status in ("a+", 0), ("(", 1):
        file = json.loads(pact("a book"))
        file["interactions"][0]["response"]["matchingRules"] = {
            "body": {"$": {"matchers": [{"match": "regex", "regex": pattern}]}}
        }
        with open(f"{room}/file.json", "w", encoding="utf-8") as it:
            it.write(json.dumps(file))
        done = client.run("none", "explain", "file.json", "--json", "--program", program)
        lines = [it["line"] for it in json.loads(done.output)["file.json"]["faults"]]
        same(pattern, (done.status, lines), (status, ["pact 7.7 interactions[0]"] * status))
        without = json.loads(client.done("none", "explain", "file.json", "--json"))["file.json"]
        same(f"{pattern} without the program", [it["pattern"] for it in without["notJudged"]], [pattern])
    with open(f"{room}/stub", "w", encoding="utf-8") as it:
        it.write("#!/bin/sh\ngrep -q 'a book' || exit 0\necho 'pact 7.7 interactions[0]' >&2\nexit 3\n")
    os.chmod(f"{room}/stub", 0o755)
    file["interactions"][0]["response"]["matchingRules"]["status"] = {}
    with open(f"{room}/both.json", "w", encoding="utf-8") as it:
        it.write(json.dumps(file))
    two = ["pact 7.7 interactions[0]", "pact 7.5 interactions[0] status"]
    for name, wanted in ("file.json", two[:1]), ("both.json", two):
        done = client.run("none", "explain", name, "--as-it-is", "--json", "--program", f"{room}/stub")
        lines = [it["line"] for it in json.loads(done.output)[name]["faults"]]
        same("patterns that are too large together", (done.status, lines), (1, wanted))
