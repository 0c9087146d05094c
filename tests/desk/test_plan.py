"""The plan of a release: client/src/holzhebo/plan.py by a model of the gate and by the program, desk/plan.js by the
former. Random fleets of up to six steps; the numbers are seeds, so that what fails can be tried again."""
from __future__ import annotations

import collections, itertools, json, os, shutil, socket
from collections.abc import Callable
from typing import Any

import pytest

from tests.desk.plan_fleets import Fleet, put
from tests.desk.plan_tries import TOP, Subject, by_node, by_the_model, by_the_page, going, same
from tests.process import Server, text_of
from tests.wire import all_of, answers_in, request

SOURCES = f"{TOP}/client/src"
TEAM = "all-of-us-token-01"


@pytest.fixture(scope="module")
def subject() -> Subject:
    return Subject(SOURCES, "holzhebo")


# By the model, and by one another


def test_by_a_model_of_the_gate(subject: Subject) -> None:
    """Each order is permitted and the longest; each reason is one. All kinds of fleets are among these."""
    seen: collections.Counter[str] = collections.Counter()
    for seed in range(1, 1001):
        for kind, is_so in by_the_model(subject, seed).items():
            seen[kind] += is_so
    few = {kind: number for kind, number in seen.items() if number < LEAST[kind]}
    same("kinds of fleets that are too few", few, {})


LEAST = {"plan": 200, "needs an order": 50, "circle": 50, "greedy is smaller": 2, "goes": 100, "several go": 30}


@pytest.mark.needs("node")
def test_the_page_plans_the_same(subject: Subject, room: str) -> None:
    """To the order of each list: steps, order, what is after what, faults, circles, and how much is asked."""
    same("fleets", by_the_page(subject, text_of(f"{TOP}/desk/plan.js"), room, range(1, 1501)), 1500)
    goes = sum(bool(going(Fleet(seed))) for seed in range(1, 1501))
    same("whether a service goes in enough of them", goes > 150, True)


# Wrong plans: a file, the edit, and it has to be seen

PYTHON = {
    "claimed counts as good": ("plan_steps", "if is_strict or it.kind", "if it.kind"),
    "no matrix for claims": ("plan_steps", 'if is_strict and "strict" not in source:', "if False:"),
    "claimed is a fault everywhere": ("plan_steps", 'if is_strict or it.kind != "claimed"]', "]"),
    "new with new isn't looked at": ("plan", "return self.between(one, [other.new])", "return []"),
    "old ones aren't looked at": ("plan", "if other.old else", "if other.old and one.ends else"),
    "what stays isn't looked at": ("plan", "stays(it, kept) for", "stays(it, kept if it.ends else []) for"),
    "absent ones aren't looked at": ("plan", "if not done.intersection(ys))\n", "if False)\n"),
    "absent ones never come": ("plan", "if not done.intersection(ys))\n", "if True)\n"),
    "releases don't stay": (
        "plan_steps",
        "for place, it in there.items() if place not in chosen]",
        'for place, it in there.items() if place not in chosen and place[0] == "deploy"]',
    ),
    "another instance is replaced": (
        "plan_steps",
        'Step("deploy", new, instance, there.get(place))',
        'Step("deploy", new, instance, there.get(place) or there.get(("deploy", service, "", "")))',
    ),
    "greedy for the largest": ("plan", "            search([x for x in order if x != worst])\n", ""),
    "after without who comes": ("plan", "needed.update([y for y in done if y in ys][:1])", "pass"),
    "after without who goes": ("plan", "needed = {y for y in done if y in self.first[x]}", "needed = set()"),
    "a longer circle": ("plan", "or len(found) < len(best)):", "or len(found) > len(best)):"),
    "one circle only": (
        "plan",
        "            ignored.update(fault for _, fault in found[-1])",
        "            return found",
    ),
    "clashes are no reason": (
        "plan",
        "        found += [fault for row in self.clash for",
        "        [fault for row in self.clash for",
    ),
    "absent ones are no reason": (
        "plan",
        "        found += [fault for lacks in self.lacks for",
        "        [fault for lacks in self.lacks for",
    ),
    "a knot has all": (
        "plan",
        "                if not ready:\n                    stuck = more\n",
        "                if not ready:\n",
    ),
    "who calls what goes isn't seen": ("plan", "if other.old else", "if other.old and not one.ends else"),
    "an end waits for no end": ("plan", "if other.old else", "if other.old and not (one.ends and other.ends) else"),
    "what goes is missed by nobody": ("plan", "stays(it, kept) for", "stays(it, [] if it.ends else kept) for"),
    "what goes waits for its own callers": ("plan_steps", "in found if each.provider != it", "in found if it"),
    "what ends isn't asked for": ("plan_steps", "in steps if it.old)]", "in steps if it.old and not it.ends)]"),
    "a release counts where it doesn't stay": ("plan_steps", "if new not in stays:", "if new not in there.values():"),
    "what comes calls what goes": ("plan", "if one.ends != other.ends else []", "if False else []"),
    "an open environment is asked": ("plan_steps", 'if target["gated"] else []\n    bad', "\n    bad"),
}


@pytest.mark.parametrize("name", PYTHON)
def test_a_wrong_plan_is_seen(name: str, room: str) -> None:
    file, old, new = PYTHON[name]
    package = f"wrong_plan_{list(PYTHON).index(name)}"
    os.mkdir(f"{room}/{package}")
    for each in "plan_steps", "plan", "plan_tell":
        shutil.copy(f"{SOURCES}/holzhebo/{each}.py", f"{room}/{package}")
    text = text_of(f"{room}/{package}/{file}.py")
    same(f"how often {file}.py has {old}", text.count(old), 1)
    with open(f"{room}/{package}/{file}.py", "w", encoding="utf-8") as it:
        it.write(text.replace(old, new))
    wrong = Subject(room, package)
    assert is_seen(lambda seed: by_the_model(wrong, seed))


def is_seen(trial: Callable[[int], Any]) -> bool:
    """Whether one of these fleets shows it."""
    for seed in range(1, 1001):
        try:
            trial(seed)
        except (AssertionError, IndexError, KeyError, ValueError):
            return True
    return False


SCRIPT = {
    "a release counts as a deployment": ("how: isRelease ? 'release' : 'deploy'", "how: 'deploy'"),
    "claimed counts as good": (
        "if (to.strict || it.kind !== 'claimed') found.add(it);",
        "if (it.kind !== 'claimed') found.add(it);",
    ),
    "no claims of the matrix": ("to.strict && !from.strict ? all(it => matrix", "false ? all(it => matrix"),
    "an open environment is asked": ("  if (!to.gated) return found;\n", ""),
    "new with new isn't looked at": ("ends(one, other) : between(one, other));", "ends(one, other) : []);"),
    "old ones aren't looked at": ("(other.old ? beside", "(other.old && one.ends ? beside"),
    "what stays isn't looked at": ("flatMap(other => beside(it, other))", "flatMap(other => without(other, it))"),
    "what goes is missed by nobody": ("flatMap(other => beside(it, other))", "flatMap(other => between(it, other))"),
    "who calls what goes isn't seen": ("(other.old ? beside", "(other.old && !one.ends ? beside"),
    "an end waits for no end": ("(other.old ? beside", "(other.old && !(one.ends && other.ends) ? beside"),
    "what goes waits for its own callers": (" && provider !== it.pacticipant;", ";"),
    "what ends isn't asked for": ("...steps.map(it => it.old)", "...comes.map(it => it.old)"),
    "a release counts where it doesn't stay": ("(here.get(it.place) ?? it.version) === it.version", "true"),
    "what comes calls what goes": ("[...without(one, other), ...without(other, one)]", "[]"),
    "what goes stays": ("steps.set(it.place, { ...it, old: it, how: ENDS[it.how], ends: true });", ";"),
    "greedy for the largest": (
        "for (const out of [clashes.get(worst), [worst]])",
        "for (const out of [clashes.get(worst)])",
    ),
    "after without who comes": ("needed.add(brought[0]);", ";"),
    "clashes are no reason": ("[...this.fixed.flat(), ...clashes, ...nobody]", "[...this.fixed.flat(), ...nobody]"),
    "a longer circle": ("|| found.length < best.length", "|| found.length > best.length"),
    "a fault is there twice": ("if (this.known.has(name)) return;\n", ""),
}


@pytest.mark.needs("node")
@pytest.mark.xdist_group("wrong plans of the page")
@pytest.mark.parametrize("name", SCRIPT)
def test_a_wrong_plan_of_the_page_is_seen(name: str, subject: Subject, room: str) -> None:
    old, new = SCRIPT[name]
    script = text_of(f"{TOP}/desk/plan.js")
    same(f"how often plan.js has {old}", script.count(old), 1)
    with pytest.raises(AssertionError):
        by_the_page(subject, script.replace(old, new), room, range(1, 51))


# By the program


class Asks:
    """Asks a broker as the office."""

    def __init__(self, server: Server) -> None:
        self.server = server

    def get(self, target: str) -> Any:
        status, _, body = self.server.ask("GET", target)
        same(f"GET {target}", status, 200)
        return json.loads(body)


def sent(server: Server, token: str, method: str, path: str, body: Any) -> int:
    return server.ask(method, path, token, json.dumps(body)).status


def test_played_on_the_program(subject: Subject, server: Server) -> None:
    """Each step of an order is answered 200, each that is left 409; without an order of all each of all orders is
    refused somewhere. What is read over HTTP is what the model says."""
    played: collections.Counter[str] = collections.Counter()
    for seed in range(1, 121):
        fleet = Fleet(seed, prefix=f"{seed}-")
        plan = subject.plan_of(fleet.model(), fleet)
        order, _ = plan.largest()
        left = [x for x in plan.all if x not in order]
        orders = list(itertools.permutations(plan.all)) if left and len(plan.all) <= 3 else []
        copies = [f"{fleet.target}-{at}" for at in range(len(orders))]
        made = fleet.requests(server.office, f"{TEAM}-{seed}", copies)
        asks = [(method, path, token, json.dumps(body)) for token, method, path, body in made]
        with server.open() as peer:
            peer.sendall(b"".join(request(*it) for it in asks))
            peer.shutdown(socket.SHUT_WR)
            statuses = [it.status for it in answers_in(all_of(peer))]
        same(f"what is refused of {seed}", [it for it in zip(asks, statuses, strict=True) if it[1] != 200], [])
        same(f"the situation of {seed}", subject.plan_of(Asks(server), fleet).situation, plan.situation)

        def done(environment: str, x: int) -> int:
            step = plan.steps[x]
            return sent(server, f"{TEAM}-{seed}", *put(environment, step.how, step.new, step.instance))

        for copy, each in zip(copies, orders):
            same(f"whether some step of {each} is refused", 409 in [done(copy, x) for x in each], True)
        same(f"the order of {seed}", [done(fleet.target, x) for x in order], [200] * len(order))
        same(f"what is left of {seed}", [done(fleet.target, x) for x in left], [409] * len(left))
        played.update(steps=len(order), left=len(left), orders=len(orders))
    same("whether enough was played", [played[it] > 50 for it in ("steps", "left", "orders")], [True] * 3)


# How much is looked at


def many(clashes: int) -> Any:
    """Versions that come, of which each of the first 2 * clashes doesn't go with the next one but one or two."""
    names = [f"s{at}" for at in range(3 * clashes)]
    faults = []
    for at, each in enumerate(names):
        for other in names[at + 1 : at + 3]:
            side = {"consumer": each, "consumerVersion": "2", "provider": other, "providerVersion": "2"}
            faults.append({**side, "kind": "failed"})
    item = {"instance": "", "version": "2"}
    deployed = [{**item, "pacticipant": it} for it in names]
    return deployed, faults


@pytest.mark.needs("node")
def test_a_search_that_stops_says_so(subject: Subject, room: str) -> None:
    """With some hundred clashes not all is looked at: the page and the command say so, and are done in seconds."""
    deployed, faults = many(33)
    listings = {
        "staging": {"answer": "shown", "environment": "staging", "gated": True, "deployed": deployed, "released": []},
        "live": {"answer": "shown", "environment": "live", "gated": True, "deployed": [], "released": []},
    }

    def beside(name: str, environment: str) -> Any:
        return {
            "faults": [it for it in faults if environment == "staging" and name in (it["consumer"], it["provider"])]
        }

    class Table:
        def get(self, target: str) -> Any:
            if target.startswith("/environments/"):
                return listings[target.split("/")[2]]
            words = dict(it.split("=") for it in target.split("?")[1].split("&"))
            return beside(words["pacticipant"], words["environment"])

    plan = subject.plan.Plan(subject.steps.read(Table(), "staging", "live"))
    order, is_sure = plan.largest()
    same("sure", is_sure, False)
    gate = {
        json.dumps([it["pacticipant"], "2", where], separators=(",", ":")): beside(it["pacticipant"], where)
        for it in deployed
        for where in listings
    }
    row = {"from": listings["staging"], "to": listings["live"], "gate": gate, "matrix": {}}
    got = by_node(text_of(f"{TOP}/desk/plan.js"), room, [row])[0]
    same("the page", (got["order"], got["isSure"]), (order, False))
    teller = subject.tell.Teller(plan, {}, False)
    assert any("a longer one may exist" in it for it in teller.lines())
