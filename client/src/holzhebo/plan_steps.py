"""What one environment has and another hasn't, as steps, and what the broker knows of them: what a plan is made of.

Steps: what FROM has, at an instance of its own or as a release, and TO hasn't. A step puts one version into TO; a
deployment replaces the version of its instance. What only TO has stays, but for services that are said to go: of these
FROM has nothing, and each of their places in TO is a step that ends it.

Two answers a step are asked for, and both are GETs: can-i-deploy of its version to TO has each bad pair of it and of
what is in TO now, and its absent providers; can-i-deploy to FROM has each bad pair of it and of the other steps'
versions, since all of these are in FROM. Whether FROM is gated doesn't matter. If TO is strict and FROM isn't, a pass
that is only claimed is no fault in FROM, and the matrix of each step's version says which are. desk/plan.js is the
same for the page."""
from typing import Dict, FrozenSet, List, NamedTuple, Optional, Protocol, Sequence, Set, Tuple
from urllib.parse import quote, urlencode

from holzhebo.faults import Json, Stop
from holzhebo.threads import in_threads

# How many questions are asked at once, and how often it is begun again if something changes meanwhile.
AT_ONCE, TRIES = 6, 3


class Changed(Exception):
    """Two answers that don't go together: something changed between them."""


class Asks(Protocol):
    """Whoever asks a broker."""

    def get(self, target: str) -> Json:
        """The answer of status 200 to GET of this target; any other is an exception."""


class Version(NamedTuple):
    pacticipant: str
    version: str


class Fault(NamedTuple):
    """A need that isn't good, as the broker names it."""

    consumer: Version
    provider: str
    provider_version: Optional[str]
    kind: str

    def sides(self) -> Tuple[Version, Version]:
        return self.consumer, Version(self.provider, self.provider_version or "")


class Step(NamedTuple):
    """What is done to the environment. `old` is what is gone afterwards: what a deployment replaces, or what ends."""

    how: str
    new: Version
    instance: str
    old: Optional[Version]

    @property
    def ends(self) -> bool:
        return self.how in ENDS.values()


# How what is there came, and how it is ended.
ENDS = {"deploy": "undeploy", "release": "end-support"}


class Situation(NamedTuple):
    """All that a plan depends on. `kept` is in TO and no step replaces it. `bad` has the faults of two versions, if
    there are any, of which one is a step's and the other a step's or in TO now. `absent` has the faults of providers
    that a step's version calls and of which nothing is in TO now; `without` those of services that go, for each version
    that a step brings, replaces or ends, or that stays."""

    source: str
    target: str
    is_gated: bool
    steps: List[Step]
    kept: List[Tuple[Version, str]]
    bad: Dict[FrozenSet[Version], List[Fault]]
    absent: Dict[Version, List[Fault]]
    without: Dict[Version, List[Fault]]

    @property
    def gone(self) -> Set[str]:
        """The services that go."""
        return {it.new.pacticipant for it in self.steps if it.ends}


# What differs


def places_of(listing: Json) -> Dict[Tuple[str, str, str, str], Version]:
    """What is in an environment, by how, service, instance, and of a release its version."""
    items = [(("deploy", it["pacticipant"], it["instance"], ""), it) for it in listing["deployed"]]
    items += [(("release", it["pacticipant"], "", it["version"]), it) for it in listing["released"]]
    return {place: Version(it["pacticipant"], it["version"]) for place, it in items}


def steps_of(
    source: Json, target: Json, without: Sequence[str] = (), gone: Sequence[str] = ()
) -> Tuple[List[Step], List[Tuple[Version, str]]]:
    """The steps, and what of TO no step replaces, with its instance. What TO only releases is released there, and what
    is there counts as released if it stays: a place that FROM has with another version is taken from it."""
    here, there, steps = places_of(source), places_of(target), {}
    stays = {it for place, it in there.items() if here.get(place, it) == it}
    deployed = {place[1] for place in there if place[0] == "deploy"}
    released = {place[1] for place in there if place[0] == "release"}
    for (how, service, instance, _), new in here.items():
        if how == "release" or service in released - deployed:
            place = ("release", service, "", new.version)
            if new not in stays:
                steps[place] = Step("release", new, "", None)
        elif there.get(("deploy", service, instance, "")) != new:
            place = ("deploy", service, instance, "")
            steps[place] = Step("deploy", new, instance, there.get(place))
    for place, it in there.items():
        if it.pacticipant in gone:
            steps[place] = Step(ENDS[place[0]], it, place[2], it)
    chosen = {place: it for place, it in steps.items() if it.new.pacticipant not in without}
    return list(chosen.values()), [(it, place[2]) for place, it in there.items() if place not in chosen]


def must_be_gone(source: Json, target: Json, gone: Sequence[str]) -> None:
    """Services that go are in TO, and FROM has nothing of them."""
    for names, has, said in (
        ({it.pacticipant for it in places_of(source).values()}, True, f"is in {source['environment']}, so it can't go"),
        ({it.pacticipant for it in places_of(target).values()}, False, f"isn't in {target['environment']}"),
    ):
        for it in gone:
            if (it in names) == has:
                raise Stop(f"{it} {said}")


# What is known


def listing_of(asks: Asks, environment: str) -> Json:
    return asks.get("/environments/" + quote(environment, safe=""))


def all_of(asks: Asks, targets: Sequence[str]) -> List[Json]:
    """The answers in order, six asked at once."""
    return in_threads(AT_ONCE, asks.get, targets)


def fault_of(it: Json) -> Fault:
    return Fault(Version(it["consumer"], it["consumerVersion"]), it["provider"], it["providerVersion"], it["kind"])


def gate_of(asks: Asks, versions: Sequence[Version], environment: str) -> List[List[Fault]]:
    """What the gate says of each of these versions there."""
    asked = [{"pacticipant": it.pacticipant, "version": it.version, "environment": environment} for it in versions]
    answers = all_of(asks, ["/can-i-deploy?" + urlencode(it) for it in asked])
    return [[fault_of(it) for it in answer["faults"]] for answer in answers]


def claims_of(asks: Asks, versions: Sequence[Version]) -> List[Fault]:
    """What of these versions passes only by a claim."""
    asked = [{"pacticipant": it.pacticipant, "version": it.version} for it in versions]
    rows = [row for it in all_of(asks, ["/matrix?" + urlencode(it) for it in asked]) for row in it["rows"]]
    return [fault_of({**row, "kind": "claimed"}) for row in rows if row["success"] and row["evidence"] == "claimed"]


def are_whole(faults: Sequence[Fault]) -> bool:
    """Whether each of these, which are of two versions that were asked for, is in the answers of both."""
    return all(faults.count(it) == 2 for it in faults if it.consumer.pacticipant != it.provider)


def faults_of(asks: Asks, source: Json, target: Json, news: Sequence[Version]) -> List[Fault]:
    """The faults of each step's version with what is in TO now and with the other steps' versions, each once."""
    is_strict = "strict" in target
    found = [it for faults in gate_of(asks, news, target["environment"]) for it in faults]
    then = [it for faults in gate_of(asks, news, source["environment"]) for it in faults]
    between = [it for it in then if it.kind != "absent" and {*it.sides()} <= {*news}]
    if not are_whole(between):
        raise Changed
    found += [it for it in between if is_strict or it.kind != "claimed"]
    if is_strict and "strict" not in source:
        found += [it for it in claims_of(asks, news) if {*it.sides()} <= {*news}]
    return list(dict.fromkeys(found))


def without_of(
    asks: Asks, source: Json, versions: Sequence[Version], gone: Sequence[str]
) -> Dict[Version, List[Fault]]:
    """Which of these versions call a service that goes, but for their own: FROM has nothing of it, so that it is absent
    there."""
    answers = gate_of(asks, versions if gone else [], source["environment"])
    calls = [[it for it in faults if it.provider in gone] for faults in answers]
    return {it: [each for each in found if each.provider != it.pacticipant] for it, found in zip(versions, calls)}


def looked_at(asks: Asks, source: Json, target: Json, without: Sequence[str], gone: Sequence[str]) -> Situation:
    steps, kept = steps_of(source, target, without, gone)
    news = list(dict.fromkeys(it.new for it in steps if not it.ends))
    faults = faults_of(asks, source, target, news) if target["gated"] else []
    bad: Dict[FrozenSet[Version], List[Fault]] = {}
    absent: Dict[Version, List[Fault]] = {}
    for it in faults:
        if it.kind == "absent":
            absent.setdefault(it.consumer, []).append(it)
        else:
            bad.setdefault(frozenset(it.sides()), []).append(it)
    stay = list(dict.fromkeys([*news, *(it for it, _ in kept), *(it.old for it in steps if it.old)]))
    calls = without_of(asks, source, stay, gone if target["gated"] else [])
    return Situation(source["environment"], target["environment"], target["gated"], steps, kept, bad, absent, calls)


def read(asks: Asks, source: str, target: str, without: Sequence[str] = (), gone: Sequence[str] = ()) -> Situation:
    """The situation; asked for again if something changes meanwhile."""
    for _ in range(TRIES):
        one, other = listing_of(asks, source), listing_of(asks, target)
        must_be_gone(one, other, gone)
        try:
            found = looked_at(asks, one, other, without, gone)
        except Changed:
            continue
        if (listing_of(asks, source), listing_of(asks, target)) == (one, other):
            return found
    raise Stop("something changes while it is looked at: ask again")
