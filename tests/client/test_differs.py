"""What differs, beside the program's own verdicts: random interactions and replies in contracts of two hundred, the
cases of tests/data, and sentences that are written here."""
import copy, json, random, tempfile
from pathlib import Path
from typing import List, Tuple
import pytest
from xml.etree import ElementTree

from holzhebo.verify.differs import NO_BODY, differences, explained
from holzhebo.verify.junit import add_failure
from holzhebo.verify.leave import is_taken, without_what_nobody_asks
from tests.client import differing
from tests.client.differing import BROKEN, Json, above, interaction, mutate, places, put, repaired, reply_to, whole
from tests.players.cases import cases_of
from tests.players.questions import Fault, Program, QUESTIONS
from tests.process import TOP, ran
from tests.wire import Wrong, same

BATCH = 200


def verdicts(program: str, pairs: List[Tuple[Json, Json]]) -> List[bool]:
    """Whether each interaction passes by its reply, as the program says of one contract of them."""
    interactions = [{**one, "description": f"{at:03}"} for at, (one, _) in enumerate(pairs)]
    replies = [{"description": f"{at:03}", "response": reply} for at, (_, reply) in enumerate(pairs)]
    pact = {"consumer": {"name": "c"}, "provider": {"name": "p"}, "interactions": interactions}
    with tempfile.TemporaryDirectory() as room:
        for name, value in ("pact", pact), ("replies", {"replies": replies}):
            Path(room, name).write_text(json.dumps(value), encoding="utf-8")
        done = ran([program, "check", "--pact", f"{room}/pact", "--replies", f"{room}/replies"])
    if done.status not in (0, 1) or done.output[:4] not in ("pass", "fail"):
        raise Wrong(f"check ends with {done}")
    failing = {int(it) for it in done.output.split()[1:]}
    return [at not in failing for at in range(len(pairs))]


def shows(one: Json, reply: Json) -> str:
    return f"{json.dumps(one['response'])}\n{json.dumps(reply)}\n{[it.sentence() for it in differences(one, reply)]}"


@pytest.mark.parametrize("batch", range(25))
def test_verdicts(batch: int, program: str) -> None:
    """Something differs exactly if the program says fail: 5,000 replies that are changed in up to four places. What is
    said is lines that a terminal and XML can show."""
    rng = random.Random(f"verdicts {batch}")
    pairs = []
    for _ in range(BATCH):
        one = interaction(rng)
        reply = reply_to(rng, one)
        for _ in range(rng.choice([0, 0, 1, 1, 2, 4])):
            mutate(rng, reply)
        pairs.append((one, reply))
    passing = verdicts(program, pairs)
    for (one, reply), passes in zip(pairs, passing):
        same(f"whether it passes: {shows(one, reply)}", not differences(one, reply), passes)
        said = explained(one, reply, not passes)
        same("both agree", said.disagrees, False)
        same(f"nothing is said of what passes: {said.lines}", bool(said.lines), not passes)
        if not passes:
            same("lines that can be printed", [it for it in said.lines if not it or not it.isprintable()], [])
            same("the failure as JUnit's", junit_text(said.lines), "\n".join(said.lines))
    if not 20 <= sum(passing) <= BATCH - 20:
        raise Wrong(f"{sum(passing)} of {BATCH} pass")


def junit_text(lines: List[str]) -> object:
    """The text of the failure, written and read again."""
    case = ElementTree.Element("testcase")
    add_failure(case, lines)
    return ElementTree.fromstring(ElementTree.tostring(case, encoding="unicode")).findtext("failure")


@pytest.mark.parametrize("batch", range(10))
def test_one_place(batch: int, program: str) -> None:
    """Of a reply that passes and is changed in one place, the first path is at or above it; each path is there once."""
    rng = random.Random(f"one place {batch}")
    pairs, changed, where = [], [], []
    for _ in range(BATCH):
        one = interaction(rng)
        reply = reply_to(rng, one)
        other = copy.deepcopy(reply)
        where.append(mutate(rng, other))
        pairs.append((one, reply))
        changed.append((one, other))
    tried = 0
    for (one, other), place, was_passing, passes in zip(
        changed, where, verdicts(program, pairs), verdicts(program, changed)
    ):
        if not was_passing or passes:
            continue
        tried += 1
        found = differences(one, other)
        first = found[0].path
        is_new_object = first.startswith(place) and len(first) > len(place) and found[0].actual == "missing"
        if not is_new_object and not above(first, place, other):
            raise Wrong(f"changed is {place}: {shows(one, other)}")
        paths = [it.path for it in found]
        same("each path once", len(set(paths)), len(paths))
    if tried < 30:
        raise Wrong(f"only {tried} were tried")


@pytest.mark.parametrize("batch", range(10))
def test_repair(batch: int, program: str) -> None:
    """All places are told: with the example in all of them a reply passes, and in all but one it fails."""
    rng = random.Random(f"repair {batch}")
    pairs, wanted = [], []  # type: List[Tuple[Json, Json]], List[bool]
    while len(pairs) < BATCH - 10:
        one = interaction(rng, with_index=False)
        if not verdicts_of_example(one):
            continue
        reply = reply_to(rng, one)
        for _ in range(rng.choice([1, 2, 3, 5, 8])):
            mutate(rng, reply)
        found = differences(one, reply)
        if not found:
            continue
        pairs.append((one, repaired(one, reply, found)))
        wanted.append(True)
        for it in found[:4]:
            if not any(above(other.path, it.path, reply) for other in found if other.path != it.path):
                pairs.append((one, repaired(one, reply, [other for other in found if other.path != it.path])))
                wanted.append(False)
    pairs, wanted = pairs[:512], wanted[:512]
    for (one, reply), passes, is_whole in zip(pairs, verdicts(program, pairs), wanted):
        same(f"whether it passes: {shows(one, reply)}", passes, is_whole)


def verdicts_of_example(one: Json) -> bool:
    """Whether the interaction's own example meets it, as far as this client sees."""
    return not differences(one, reply_to(random.Random(1), one, varied=False))


@pytest.mark.parametrize("batch", range(10))
def test_leaving_out(batch: int, program: str) -> None:
    """What is left out of a body doesn't change the verdict, is only what the broker can't take, and only members."""
    rng = random.Random(f"leaving out {batch}")
    before, after, left = [], [], 0
    for _ in range(BATCH):
        one = interaction(rng, more=rng.random() < 0.5)
        body = spoilt(rng, reply_to(rng, one).get("body", {}))
        kept = copy.deepcopy(body)
        rest, gone = without_what_nobody_asks(one, body)
        same("the body that was given stays", repr(body), repr(kept))
        left += bool(gone)
        by_path = {differing.path_of(at): at for at in places(body)}
        needless = [it for it in gone if is_taken(differing.get(body, by_path[it]), len(by_path[it]))]
        same(f"only what isn't taken: {one['response']} {body!r}", needless, [])
        same("a second time leaves out nothing", rest is NO_BODY or without_what_nobody_asks(one, rest)[1] == [], True)
        before.append((one, {"status": one["response"].get("status", 200), "headers": {}, "body": whole(body)}))
        other: Json = {"status": one["response"].get("status", 200), "headers": {}}
        after.append((one, other if rest is NO_BODY else {**other, "body": whole(rest)}))
    for (one, reply), was, now in zip(before, verdicts(program, before), verdicts(program, after)):
        same(f"the verdict: {shows(one, reply)}", now, was)
    if left < 20:
        raise Wrong(f"only of {left} something is left out")


def spoilt(rng: random.Random, body: Json) -> Json:
    """The body with numbers that the broker doesn't take."""
    for _ in range(rng.choice([1, 1, 2, 4])):
        at = rng.choice(list(places(body)))
        value, new = differing.get(body, at), copy.deepcopy(rng.choice(BROKEN))
        if isinstance(value, dict):
            value[rng.choice([*differing.KEYS, "more", "ratio"])] = new
        elif isinstance(value, list) and rng.random() < 0.5:
            value.append(new)
        elif rng.random() < 0.3:
            body = put(body, at, new)
    return body


class Beside(Program):
    """The program, beside which this client is asked."""

    def check(self, pact: bytes, replies: bytes) -> str:
        verdict = super().check(pact, replies)
        interactions = json.loads(super().normalise(pact.decode()))["interactions"]
        given = {self.key(it): it["response"] for it in json.loads(replies)["replies"]}
        failing = {int(it) for it in verdict.split()[1:]}
        for at, one in enumerate(interactions):
            reply = given.get(self.key(one))
            if reply is not None:
                said = explained(one, reply, at in failing)
                same(f"both agree on {shows(one, reply)}", said.disagrees, False)
                same(f"what is said: {shows(one, reply)}", bool(said.lines), at in failing)
            else:
                same("a reply that isn't there", at in failing, True)
        return verdict

    def key(self, it: Json) -> str:
        older = it.get("providerState")
        states = it.get("providerStates") or ([] if older is None else [{"name": older}])
        names = [{key: state[key] for key in ("name", "params") if state.get(key) is not None} for state in states]
        return json.dumps([it["description"], names], sort_keys=True)


@pytest.mark.parametrize("file", sorted(it.name for it in Path(f"{TOP}/tests/data/cases").glob("*.cases")))
def test_cases(file: str, program: str) -> None:
    """Each case of a verdict in tests/data: the program's answer is the written one, and this client agrees with it."""
    cases = [
        it for it in cases_of(Path(f"{TOP}/tests/data/cases/{file}")) if it.question in ("verdict", "response", "body")
    ]
    for case in cases:
        for fields in case.asks:
            try:
                got = QUESTIONS[case.question].answer(Beside(program), fields)
            except Fault as fault:
                got = str(fault)
            same(f"{file}:{case.line}", got, case.wanted)
