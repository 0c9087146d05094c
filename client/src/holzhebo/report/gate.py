"""The gate, by its definition, over a copy."""
from typing import List, Set

from holzhebo.report.copy import Copy, Environment, Fault, Need


def needs(copy: Copy, there: Environment, number: int) -> Set[Need]:
    """The pairs of a contract and a provider's version that have to be good for this version to be there."""
    found = set()
    for provider, content in copy.contracts(number):
        others = there.there.get(provider, set())
        found |= {Need(number, provider, content, it) for it in others or [None]}
    own = copy.version(number).pacticipant
    for consumer, content in there.consumed.get(own, []):
        if copy.version(consumer).pacticipant != own:
            found.add(Need(consumer, own, content, number))
    return found


def outcome(copy: Copy, need: Need) -> str:
    """How a need is met: checked or claimed; or not: failed, missing or absent."""
    return "absent" if need.there is None else copy.latest(need.content, need.there) or "missing"


def faults(copy: Copy, there: Environment, number: int) -> List[Fault]:
    """What this version lacks there, in the order of the broker's answers."""
    found = []
    for it in needs(copy, there, number):
        kind = outcome(copy, it)
        if kind != "checked" and (kind != "claimed" or there.strict):
            version = None if it.there is None else copy.version(it.there).version
            found.append(Fault(*copy.version(it.consumer), it.provider, version, kind))
    return sorted(found, key=lambda it: (*it[:3], it.provider_version or ""))
