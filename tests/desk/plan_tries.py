"""How plans are tried, whoever made them: `holzhebo.plan` by the model of the gate, desk/plan.js by `holzhebo.plan`.
Each gives up at what is wrong, by an AssertionError."""
from __future__ import annotations

import functools, importlib, itertools, json, os, shutil, subprocess, sys
from collections.abc import Callable, Iterable, Sequence
from typing import Any

from tests.desk.plan_fleets import Fleet
from tests.desk.plan_model import Model

TOP = os.path.dirname(os.path.dirname(os.path.dirname(os.path.abspath(__file__))))
PLANS = "plan_steps", "plan", "plan_tell"
Json = Any


class Subject:
    """The modules of a plan, of a package in a folder."""

    def __init__(self, folder: str, package: str) -> None:
        sys.path.insert(0, folder)
        self.steps, self.plan, self.tell = (importlib.import_module(f"{package}.{it}") for it in PLANS)
        sys.path.remove(folder)

    def plan_of(self, asks: Any, fleet: Fleet, gone: Sequence[str] = ()) -> Any:
        return self.plan.Plan(self.steps.read(asks, fleet.source, fleet.target, (), gone))


# By the model


def same(what: str, got: object, wanted: object) -> None:
    if got != wanted:
        raise AssertionError(f"{what}: {got!r} and not {wanted!r}")


def plays(fleet: Fleet, model: Model, plan: Any, order: Iterable[int]) -> bool:
    """Whether each step of an order is answered 200."""
    state = model.copy()
    return all(do(fleet, state, plan, x) == 200 for x in order)


def do(fleet: Fleet, state: Model, plan: Any, x: int) -> int:
    """The status of a step; 409 also if a plan doesn't have it, since somebody would be there without what goes."""
    step = plan.steps[x]
    if refusals(fleet, state, step):
        return 409
    return state.put(fleet.target, step.how, (step.new[0], step.new[1]), step.instance)


def refusals(fleet: Fleet, state: Model, step: Any) -> list[Json]:
    """The faults of a step now. A service goes as a whole: nobody that calls it is there once one of its places has
    ended, and nobody comes afterwards."""
    version, there = (step.new[0], step.new[1]), state.environments[fleet.target]
    if not there.gated:
        return []
    if step.ends:
        return state.without(version[0], there.there())
    places = {*there.deployed, *there.released}
    at = [(it.service, it.version if it.how == "release" else it.instance) for it in fleet.there]
    ended = {place[0] for place in at if place not in places}
    missed = [fault for service in sorted(ended) for fault in state.without(service, {version})]
    return state.faults(version, fleet.target) + missed


def states(fleet: Fleet, model: Model, plan: Any, subject: Subject) -> dict[frozenset[int], Model]:
    """What some order reaches; in each state the model's faults are those of the plan."""
    found: dict[frozenset[int], Model] = {frozenset(): model}
    waiting = [frozenset[int]()]
    for done in waiting:
        for x in sorted({*plan.all} - done):
            state = found[done].copy()
            faults = {subject.steps.fault_of(it) for it in refusals(fleet, state, plan.steps[x])}
            same(f"the faults of {x} after {set(done)}", {*plan.faults(x, set(done))}, faults)
            if do(fleet, state, plan, x) == 200 and done | {x} not in found:
                found[done | {x}] = state
                waiting.append(done | {x})
    return found


def by_after(plan: Any, order: list[int], choose: Callable[[list[int]], int]) -> list[int]:
    """A random order that keeps to each step's `after`."""
    needed, found = {x: {*plan.after(x, order)} for x in order}, list[int]()
    while len(found) < len(order):
        found.append(choose([x for x in order if x not in found and needed[x] <= {*found}]))
    return found


def by_the_model(subject: Subject, seed: int) -> dict[str, int]:
    """All that a plan says of a fleet; gives what it was, to be counted."""
    fleet = Fleet(seed)
    model, gone = fleet.model(), going(fleet)
    plan = subject.plan_of(model, fleet, gone)
    order, is_sure = plan.largest()
    reached = states(fleet, model, plan, subject)
    left = [x for x in plan.all if x not in order]
    same("sure", is_sure, True)
    same("the order of the largest part", plays(fleet, model, plan, order), True)
    same("an order by its `after`", plays(fleet, model, plan, by_after(plan, order, fleet.dice.choice)), True)
    same("the size of the largest part", len(order), max(map(len, reached)))
    for x in left:
        instead, _ = plan.largest(x)
        same(f"the largest part with {x}", len(instead), max((len(it) for it in reached if x in it), default=0))
        same("its order", plays(fleet, model, plan, instead), True)
    reasons(plan)
    afterwards(fleet, reached[frozenset(order)], {plan.steps[x].new for x in order if not plan.steps[x].ends}, gone)
    if not left:
        two = (reached[frozenset(order)].listing(it) for it in (fleet.source, fleet.target))
        same("what is left to do", subject.steps.steps_of(*two, (), gone)[0], [])
    if left and len(plan.all) <= 4:
        for each in itertools.permutations(plan.all):
            same(f"the order {each}", plays(fleet, model, plan, each), False)
    needs_order = not left and any(plan.faults(x, set()) for x in plan.all)
    return {
        "goes": len(gone) > 0,
        "several go": len(gone) > 1,
        "plan": not left,
        "needs an order": needs_order,
        "circle": len(plan.circles()) > 0,
        "greedy is smaller": len(plan.order(plan.all)) < len(order),
    }


def afterwards(fleet: Fleet, state: Model, brought: set[tuple[str, str]], gone: Sequence[str]) -> None:
    """The gate would take again what was brought, and nobody that is there calls what is gone."""
    it = state.environments[fleet.target]
    if it.gated:
        faults = {each: state.faults(each, fleet.target) for each in it.there()}
        same("what is refused afterwards", [each for each in brought if faults[each]], [])
        absent = {why["provider"] for found in faults.values() for why in found if why["kind"] == "absent"}
        same("what is gone and called", absent & {*gone}, set())


def reasons(plan: Any) -> None:
    """Without an order there are reasons, with one none; each by itself leaves none, even if all else were mended; of a
    circle all are needed; and all together are enough."""
    necessary, circles = plan.necessary(), plan.circles()
    every = {fault for x in plan.all for faults in ways(plan, x) for fault in faults}
    same("an order of all", has_order(plan, set()), not necessary and not circles)
    for fault in necessary:
        same(f"an order without all but {fault}", has_order(plan, every - {fault}), False)
    for circle in circles:
        faults = {fault for _, fault in circle}
        same(f"an order without all but {faults}", has_order(plan, every - faults), False)
        for less in faults:
            same(f"an order with {less} mended too", has_order(plan, every - faults | {less}), True)
    same(
        "an order if all were mended", has_order(plan, {*necessary, *(it for each in circles for _, it in each)}), True
    )
    others = sorted(every - {*necessary}, key=str)
    for few in range(1, len(circles[0]) if circles and len(others) <= 14 else 0):
        for chosen in itertools.combinations(others, few):
            same(f"a smaller circle {chosen}", has_order(plan, every - {*chosen}), True)


def ways(plan: Any, x: int) -> Iterable[Iterable[Any]]:
    yield from (plan.fixed[x], *plan.clash[x].values(), *plan.first[x].values(), (fault for fault, _ in plan.lacks[x]))


def has_order(plan: Any, mended: set[Any]) -> bool:
    """Whether there is an order of all steps if these faults were none: by trying all."""
    seen, waiting = {frozenset[int]()}, [frozenset[int]()]
    for done in waiting:
        for x in {*plan.all} - done:
            if done | {x} not in seen and not {*plan.faults(x, {*done})} - mended:
                seen.add(done | {x})
                waiting.append(done | {x})
    return frozenset(plan.all) in seen


# The page's code by it


def going(fleet: Fleet) -> list[str]:
    """The services that go: all that can, if several can, or in every other fleet."""
    names = sorted({it.service for it in fleet.there} - {it.service for it in fleet.here})
    return names if len(names) > 1 or len(fleet.there) % 2 else []


def questions(subject: Subject, fleet: Fleet, model: Model) -> Json:
    """A fleet as the page gets it."""
    source, target = model.listing(fleet.source), model.listing(fleet.target)
    row: Json = {"from": source, "to": target, "gate": {}, "matrix": {}, "gone": going(fleet)}
    for it in {version for each in (source, target) for version in subject.steps.places_of(each).values()}:
        row["matrix"][words(*it)] = {"rows": model.rows((it[0], it[1]))}
        for each in fleet.source, fleet.target:
            row["gate"][words(*it, each)] = {"faults": model.faults((it[0], it[1]), each)}
    return row


def words(*it: str) -> str:
    return json.dumps(it, separators=(",", ":"), ensure_ascii=False)


def fault(it: Any) -> list[Any]:
    return [*it.consumer, it.provider, it.provider_version, it.kind]


class Counted:
    """The model, with what it was asked. Several threads ask at once, so this is a list: += might lose one."""

    def __init__(self, model: Model) -> None:
        self.model, self.asked = model, list[str]()

    def get(self, target: str) -> Json:
        if not target.startswith("/environments/"):
            self.asked.append(target)
        return self.model.get(target)


def said(subject: Subject, fleet: Fleet, model: Model) -> Json:
    """All that a plan has, as plan_page.mjs says it."""
    counted = Counted(model)
    plan = subject.plan_of(counted, fleet, going(fleet))
    order, is_sure = plan.largest()
    return {
        "steps": [[it.how, *it.new, it.instance, it.old and it.old.version] for it in plan.steps],
        "kept": [[*it, instance] for it, instance in plan.situation.kept],
        "order": order,
        "isSure": is_sure,
        "asked": len(counted.asked),
        "after": [plan.after(x, order) for x in order],
        "instead": [plan.largest(x)[0] for x in plan.all if x not in order],
        "now": [[fault(it) for it in plan.faults(x, set())] for x in plan.all],
        "necessary": [fault(it) for it in plan.necessary()],
        "circles": [[[x, fault(it)] for x, it in circle] for circle in plan.circles()],
    }


def by_node(script: str, room: str, rows: Iterable[Json]) -> list[Json]:
    """What this text of desk/plan.js makes of the rows."""
    copy = f"{room}/plan.mjs"
    with open(copy, "w", encoding="utf-8") as it:
        it.write(script)
    text = "".join(json.dumps(row) + "\n" for row in rows)
    line = [shutil.which("node") or "node", f"{TOP}/tests/desk/plan_page.mjs", copy]
    done = subprocess.run(line, input=text, capture_output=True, text=True)
    if done.returncode:
        raise AssertionError(done.stderr)
    return [json.loads(row) for row in done.stdout.splitlines()]


@functools.cache
def asked_and_said(subject: Subject, seed: int) -> tuple[Json, Json]:
    """A fleet as the page gets it, and what its plan has to say of it."""
    fleet = Fleet(seed)
    model = fleet.model()
    return questions(subject, fleet, model), said(subject, fleet, model)


def by_the_page(subject: Subject, script: str, room: str, seeds: Iterable[int]) -> int:
    """That this text of desk/plan.js says the same of these fleets; gives how many they were."""
    asked, every = zip(*(asked_and_said(subject, seed) for seed in seeds))
    got = by_node(script, room, asked)
    same("how many are answered", len(got), len(asked))
    for seed, page, wanted in zip(seeds, got, every):
        for part in wanted:
            same(f"{part} of {seed}", page.get(part), wanted[part])
    return len(asked)
