"""The order in which steps are permitted by the gate, each when its turn comes; or why there is none.

Steps are known by their number in situation.steps, and what is done by the set of these. desk/plan.js is the same for
the page, and tests/desk/test_plan.py holds both to one another, to a model of the gate and to the program."""
from typing import Callable, Dict, Iterable, Iterator, List, Optional, Sequence, Set, Tuple

from .plan_steps import Fault, Situation, Step, Version

# How often two that clash are parted: for an order of all, and for one with a certain step.
MOST_SPLITS, FEW_SPLITS = 500, 50


class Plan:
    """What the gate says of a step after others. The state of TO depends on which steps are done, not on their order.

    Done steps only take faults away, but for clashes: a new version that doesn't go with another new one, or that calls
    a service that goes. So without clashes a step that is permitted stays so, and the order is found by doing each as
    soon as it is permitted. With a clash there is no order of all: the later one of the two is refused. Ending
    something is never refused by the gate; it counts as refused if what is there afterwards calls it."""

    def __init__(self, situation: Situation) -> None:
        self.situation, self.steps = situation, situation.steps
        self.all = range(len(self.steps))
        kept = [it for it, _ in situation.kept]
        self.fixed = [self.with_what_stays(it, kept) for it in self.steps]
        self.clash = [self.table(self.clashes, it) for it in self.steps]
        self.first = [self.table(self.needs, it) for it in self.steps]
        self.touched = [[y for y in self.all if y in self.clash[x] or y in self.first[x]] for x in self.all]
        self.lacks = [self.lacking(it) for it in self.steps]

    def between(self, step: Step, others: Iterable[Version]) -> List[Fault]:
        """The faults of the version that a step brings and of these; each once."""
        pairs = [frozenset({step.new, it}) for it in others] if not step.ends else []
        return list(dict.fromkeys(fault for it in pairs for fault in self.situation.bad.get(it, [])))

    def without(self, version: Version, step: Step) -> List[Fault]:
        """The faults of a version if what this step ends is gone."""
        faults = self.situation.without.get(version, []) if step.ends else []
        return [it for it in faults if it.provider == step.new.pacticipant]

    def with_what_stays(self, step: Step, kept: Sequence[Version]) -> List[Fault]:
        ended = [fault for it in dict.fromkeys(kept) for fault in self.without(it, step)]
        return self.between(step, kept) + ended

    def clashes(self, one: Step, other: Step) -> List[Fault]:
        """Why not both can be done."""
        if one.ends or other.ends:
            return [*self.without(one.new, other), *self.without(other.new, one)] if one.ends != other.ends else []
        return self.between(one, [other.new])

    def needs(self, one: Step, other: Step) -> List[Fault]:
        """Why the other has to be done first: what it replaces or ends stays until then."""
        return self.with_what_stays(one, [other.old] if other.old else [])

    def table(self, of: Callable[[Step, Step], List[Fault]], step: Step) -> Dict[int, List[Fault]]:
        found = {y: of(step, other) for y, other in enumerate(self.steps)}
        return {y: faults for y, faults in found.items() if faults}

    def lacking(self, step: Step) -> List[Tuple[Fault, List[int]]]:
        """The absent providers, each with the steps that bring it."""
        return [(it, self.brings(it.provider)) for it in self.situation.absent.get(step.new, []) if not step.ends]

    def brings(self, service: str) -> List[int]:
        return [y for y in self.all if self.steps[y].new.pacticipant == service and not self.steps[y].ends]

    def found(self, x: int, done: Set[int], ignores_clashes: bool = False) -> Iterator[Fault]:
        yield from self.fixed[x]
        for y in self.touched[x]:
            if y not in done:
                yield from self.first[x].get(y, [])
            elif not ignores_clashes:
                yield from self.clash[x].get(y, [])
        yield from (fault for fault, ys in self.lacks[x] if not done.intersection(ys))

    def faults(self, x: int, done: Set[int]) -> List[Fault]:
        """All faults that the gate would answer to step x after these steps."""
        return list(dict.fromkeys(self.found(x, done)))

    def is_refused(self, x: int, done: Set[int], ignored: Set[Fault], ignores_clashes: bool = False) -> bool:
        return any(it not in ignored for it in self.found(x, done, ignores_clashes))

    def order(self, among: Iterable[int], ignored: Iterable[Fault] = (), ignores_clashes: bool = False) -> List[int]:
        """Each of these steps that is permitted, as soon as it is, again and again until none is added."""
        found: List[int] = []
        done: Set[int] = set()
        left, skipped = list(among), {*ignored}
        while True:
            for x in left:
                if not self.is_refused(x, done, skipped, ignores_clashes):
                    found.append(x)
                    done.add(x)
            if not done.intersection(left):
                return found
            left = [x for x in left if x not in done]

    def after(self, x: int, order: List[int]) -> List[int]:
        """After which steps of the order this one is permitted, whatever else of the order is done."""
        done = order[: order.index(x)]
        needed = {y for y in done if y in self.first[x]}
        for _, ys in self.lacks[x]:
            if not needed.intersection(ys):
                needed.update([y for y in done if y in ys][:1])
        return sorted(needed, key=order.index)

    def largest(self, must: Optional[int] = None) -> Tuple[List[int], bool]:
        """The most steps that have an order, in it; and whether that is sure. All steps that could ever go are those of
        the order that ignores clashes; of two of them that clash one is left out, and each of both is tried. If one
        step must be among them, and can't, there are none."""
        best: List[int] = []
        splits, most = 0, MOST_SPLITS if must is None else FEW_SPLITS

        def search(among: Iterable[int]) -> None:
            nonlocal best, splits
            splits += 1
            order = self.order(among, (), True)
            if len(order) <= len(best) or splits > most or must is not None and must not in order:
                return
            clashes = {x: [y for y in order if y in self.clash[x]] for x in order}
            worst = max(order, key=lambda x: len(clashes[x]))
            if not clashes[worst]:
                best = order
                return
            search([x for x in order if x not in clashes[worst]])
            search([x for x in order if x != worst])

        search([x for x in self.all if must is None or x not in self.clash[must]])
        return best, splits <= most

    def necessary(self) -> List[Fault]:
        """The faults of which each by itself leaves no order of all steps: with what stays, of two new versions, of an
        absent provider that no step brings, and of what calls a service that goes."""
        found = [fault for faults in self.fixed for fault in faults]
        found += [fault for row in self.clash for faults in row.values() for fault in faults]
        found += [fault for lacks in self.lacks for fault, ys in lacks if not ys]
        return list(dict.fromkeys(found))

    def circles(self) -> List[List[Tuple[int, Fault]]]:
        """Steps of which none can be the first, even if the necessary faults were mended, with one fault each: a
        shortest circle; then another, as if the faults of those before were mended; until there is an order of all."""
        found: List[List[Tuple[int, Fault]]] = []
        ignored = {*self.necessary()}
        while True:
            done = self.order(self.all, ignored)
            stuck = [x for x in self.all if x not in done]
            if not stuck:
                return found
            found.append(self.circle(stuck, done, ignored) or self.knot(stuck, done, ignored))
            ignored.update(fault for _, fault in found[-1])

    def blocks(
        self, x: int, stuck: Sequence[int], done: Sequence[int], ignored: Set[Fault]
    ) -> List[Tuple[Fault, List[int]]]:
        """Each fault that keeps x from going, with the steps of which one would have to go before."""
        found = [(fault, [y]) for y in stuck for fault in self.first[x].get(y, [])]
        found += [(fault, ys) for fault, ys in self.lacks[x] if ys and not {*ys} & {*done}]
        return [it for it in found if it[0] not in ignored]

    def circle(self, stuck: List[int], done: List[int], ignored: Set[Fault]) -> List[Tuple[int, Fault]]:
        """A shortest circle of steps that each need the next one first. Steps of one version are one."""
        edges: Dict[int, List[Tuple[int, Fault]]] = {}
        for x in stuck:
            blocks = self.blocks(x, stuck, done, ignored)
            edges[x] = [(ys[0], fault) for fault, ys in blocks if len({self.steps[y].new for y in ys}) == 1]
        best: List[Tuple[int, Fault]] = []
        for start in stuck:
            found = shortest(start, edges)
            if found and (not best or len(found) < len(best)):
                best = found
        return best

    def knot(self, stuck: List[int], done: List[int], ignored: Set[Fault]) -> List[Tuple[int, Fault]]:
        """Steps of which none can be the first, and all could go if one were done: if there is no circle, since a
        service that is absent comes in two versions."""
        for x in list(stuck):
            freed = {y for y in self.all if y not in stuck} | {x}
            more = [y for y in stuck if y != x]
            while more:
                ready = [y for y in more if not self.is_refused(y, freed, ignored)]
                if not ready:
                    stuck = more
                    break
                freed |= {*ready}
                more = [y for y in more if y not in freed]
        inside = {x: [it for it, ys in self.blocks(x, stuck, done, ignored) if {*ys} <= {*stuck}] for x in stuck}
        first = {self.steps[x].new: x for x in reversed(stuck)}
        return [(x, inside[x][0]) for x in stuck if first[self.steps[x].new] == x]


def shortest(start: int, edges: Dict[int, List[Tuple[int, Fault]]]) -> List[Tuple[int, Fault]]:
    """A shortest way along these edges from a step back to it."""
    paths: List[List[Tuple[int, Fault]]] = [[(start, fault)] for _, fault in edges[start]]
    ends = [y for y, _ in edges[start]]
    seen = {*ends}
    for path, end in zip(paths, ends):  # both grow
        if end == start:
            return path
        for y, fault in edges[end]:
            if y not in seen:
                seen.add(y)
                paths.append(path + [(end, fault)])
                ends.append(y)
    return []
