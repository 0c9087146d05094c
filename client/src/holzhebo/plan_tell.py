"""What a plan says: in lines for a terminal, or as JSON."""
import re
from typing import Any, Container, Dict, Iterable, List, Set

from holzhebo.faults import Json
from holzhebo.gate.sentences import FAULTS, GONE, Told

from .plan import Plan
from .plan_steps import Fault, Step, Version

LAST = "This is as the broker answers now. Each step is judged again as it is recorded, and a team needs its grant."
# A version that is a hash, of which so many digits are enough if they say which it is.
HASH, DIGITS = re.compile("[0-9a-f]{20,}"), 8


def told(fault: Fault, gone: Container[str]) -> Told:
    """What is said of a fault, if these services go."""
    return GONE if fault.kind == "absent" and fault.provider in gone else FAULTS[fault.kind]


def actors(fault: Fault, gone: Container[str] = ()) -> List[str]:
    """The services whose teams can act."""
    return [{"consumer": fault.consumer.pacticipant, "provider": fault.provider}[it] for it in told(fault, gone).by]


def printable(text: object) -> str:
    return "".join(it if it.isprintable() else f"\\u{{{ord(it):x}}}" for it in str(text))


class Teller:
    """Says a plan in lines."""

    def __init__(self, plan: Plan, contacts: Dict[str, Any], is_whole: bool) -> None:
        self.plan, self.situation, self.contacts, self.is_whole = plan, plan.situation, contacts, is_whole
        self.source, self.target = printable(plan.situation.source), printable(plan.situation.target)
        self.kept = {it for it, _ in plan.situation.kept}
        self.versions = self.kept | {it for step in plan.steps for it in (step.new, step.old) if it}
        self.gone = plan.situation.gone

    def short(self, it: Version) -> str:
        """A version; of a hash 8 digits, or as many as it takes to tell it from others of the service."""
        most = len(it.version) if self.is_whole or not HASH.fullmatch(it.version) else DIGITS
        others = [other.version for other in self.versions if other.pacticipant == it.pacticipant and other != it]
        while most < len(it.version) and any(other.startswith(it.version[:most]) for other in others):
            most += 1
        return printable(it.version[:most])

    def name(self, it: Version) -> str:
        return f"{printable(it.pacticipant)} {self.short(it)}"

    def names(self, steps: Iterable[int], word: str) -> str:
        return word.join(self.name(self.plan.steps[x].new) for x in steps)

    def step(self, it: Step) -> str:
        instance = f", instance {printable(it.instance)}" if it.instance else ""
        old = f" for {self.short(it.old)}" if it.old and not it.ends else ""
        others = sorted(self.short(kept) for kept in self.kept if kept.pacticipant == it.new.pacticipant)
        beside = f" beside {', '.join(others)}" if others else ""
        return f"{it.how} {self.name(it.new)}{instance}{old}{beside}"

    def sentence(self, fault: Fault) -> str:
        one, other = fault.sides()
        names = {"provider": printable(fault.provider), "environment": self.target}
        said = told(fault, self.gone)
        stays = [it for it in (one, other) if it in self.kept]
        way_out = [f"; or take {self.name(it)} out of {self.target}" for it in stays]
        so = said.so.format(**names, one=self.name(one), other=self.name(other))
        return f"{so}: {said.act}" + "".join(way_out)

    def team(self, service: str) -> str:
        contact = self.contacts.get(service)
        return f"{printable(service)}{f' ({printable(contact)})' if contact else ''}"

    # Lines

    def lines(self) -> List[str]:
        order, is_sure = self.plan.largest()
        left = [x for x in self.plan.all if x not in order]
        now = [x for x in order if not self.plan.after(x, order)]
        counts = f"{len(now)} now, {len(order) - len(now)} after others"
        rest = f"; {len(left)} may not go with them" if left else ""
        said = [f"From {self.source} to {self.target}: {len(order)} of {len(self.plan.all)} may go, {counts}{rest}."]
        if not self.situation.is_gated:
            said.append(f"{self.target} isn't gated, so it takes everything in any order.")
        said += self.order(order, is_sure) if order else []
        said += [*self.left(order, left), *self.acts(), *self.circles()] if left else []
        return [*said, "", LAST]

    def order(self, order: List[int], is_sure: bool) -> List[str]:
        steps = self.plan.steps
        width = max(len(self.step(steps[x])) for x in order)
        said = ["", f"In this order{'' if is_sure else ' (a longer one may exist: not all were tried)'}:"]
        for number, x in enumerate(order, 1):
            after = ", ".join(str(order.index(y) + 1) for y in self.plan.after(x, order))
            said.append(f"{number:4}  {self.step(steps[x]).ljust(width)}  {f'after {after}' if after else 'now'}")
        return said

    def left(self, order: List[int], left: List[int]) -> List[str]:
        """What isn't in the order: what it waits for, or without what it may go."""
        plan, said = self.plan, ["", "Not with them, until somebody acts:"]
        act = {*plan.necessary()}
        ring = {x for circle in plan.circles() for x, _ in circle}
        for x in left:
            is_own = x in ring or bool(act & {*plan.found(x, {*plan.all})})
            waits = [y for y in left if plan.first[x].get(y) or any(y in ys for _, ys in plan.lacks[x])]
            instead, _ = plan.largest(x)
            ways = ["waits for " + self.names(waits, ", ")] if waits and not is_own else []
            ways += ["may go without " + self.names([y for y in order if y not in instead], ", ")] if instead else []
            said.append("      " + "  ".join([self.step(plan.steps[x]), *ways]))
        return said

    def acts(self) -> List[str]:
        """Whose turn it is."""
        said, necessary = [], self.plan.necessary()
        for service in sorted({actor for fault in necessary for actor in actors(fault, self.gone)}):
            said += ["", f"To act: the team of {self.team(service)}"]
            said += [f"      {self.sentence(fault)}" for fault in necessary if service in actors(fault, self.gone)]
        return said

    def circles(self) -> List[str]:
        said: List[str] = []
        for circle in self.plan.circles():
            names = self.names([x for x, _ in circle], " and ")
            said += ["", f"None of {names} can go first, as another instance neither.", "One of these is enough:"]
            for _, fault in circle:
                said.append(f"  the team of {' or '.join(self.team(it) for it in actors(fault, self.gone))}")
                said.append(f"      {self.sentence(fault)}")
        return said


def as_json(plan: Plan) -> Json:
    """The same as an object; `without` are the steps of the order, from 1, without which a step that is left may go."""
    order, is_sure = plan.largest()
    done: Set[int] = {*order}

    def fault_as_json(it: Fault) -> Json:
        names = {"consumer": it.consumer.pacticipant, "consumerVersion": it.consumer.version, "kind": it.kind}
        act = actors(it, plan.situation.gone)
        return {**names, "provider": it.provider, "providerVersion": it.provider_version, "act": act}

    def step(x: int) -> Json:
        it = plan.steps[x]
        names = {"how": it.how, "pacticipant": it.new.pacticipant, "version": it.new.version, "instance": it.instance}
        faults = {"now": plan.faults(x, set()), "then": plan.faults(x, done - {x})}
        said = {key: [fault_as_json(it) for it in found] for key, found in faults.items()}
        return {**names, "replaces": it.old.version if it.old and not it.ends else None, **said}

    def without(x: int) -> Json:
        instead, _ = plan.largest(x)
        return [order.index(y) + 1 for y in order if y not in instead] if instead else None

    return {
        "from": plan.situation.source,
        "to": plan.situation.target,
        "gated": plan.situation.is_gated,
        "largest": is_sure,
        "order": [{**step(x), "after": [order.index(y) + 1 for y in plan.after(x, order)]} for x in order],
        "left": [{**step(x), "without": without(x)} for x in plan.all if x not in done],
        "necessary": [fault_as_json(it) for it in plan.necessary()],
        "circles": [[fault_as_json(it) for _, it in circle] for circle in plan.circles()],
    }
