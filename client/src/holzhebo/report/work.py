"""What each provider has still to verify with its newest version, so that it may go where it is called."""
import collections
from typing import Dict, List, NamedTuple, Optional, Set, Tuple

from holzhebo.api.shapes import key_of
from holzhebo.faults import Json
from holzhebo.report.copy import Copy
from holzhebo.report.markup import MOST, Markup, element, joined, named, table

NEWEST = "the newest"


class Work(NamedTuple):
    """A contract of a consumer's version that is somewhere, or is its newest one with the provider, for which the
    provider's newest version has no result (missing), a failure, or only a claim in a strict environment."""

    provider: str
    version: Optional[str]
    consumer: str
    consumer_version: str
    where: List[str]
    lacks: str


def wanted(copy: Copy) -> Dict[Tuple[int, str], Set[str]]:
    """The contracts that count, by their version and provider, with where the version is."""
    found: Dict[Tuple[int, str], Set[str]] = collections.defaultdict(set)
    for there in copy.environments:
        for number in set().union(*there.there.values()):
            for provider, _ in copy.contracts(number):
                found[number, provider].add(there.name)
    newest = """SELECT max(c.version_number), c.provider FROM contracts c JOIN versions v ON v.number = c.version_number
        GROUP BY v.pacticipant, c.provider"""
    for last, other in copy.rows(newest):
        found[int(str(last)), str(other)].add(NEWEST)
    return found


def work(copy: Copy) -> List[Work]:
    """All that lacks, provider by provider."""
    rows = copy.rows("SELECT pacticipant, max(number) FROM versions GROUP BY 1")
    newest = {str(name): int(str(number)) for name, number in rows}
    strict = {it.name for it in copy.environments if it.strict}
    order = {it.name: at for at, it in enumerate(copy.environments)}
    found = []
    for (number, provider), where in wanted(copy).items():
        content, own = dict(copy.contracts(number))[provider], newest.get(provider)
        outcome = copy.latest(content, own) or "missing" if own is not None else "missing"
        if outcome == "checked" or outcome == "claimed" and not strict & where:
            continue
        version = copy.version(own).version if own is not None else None
        places = sorted(where, key=lambda it: order.get(it, len(order)))
        found.append(Work(provider, version, *copy.version(number), places, outcome))
    return sorted(found, key=lambda it: (it.provider, it.consumer, it.where, it.consumer_version))


def work_json(copy: Copy) -> Json:
    rows = [{**it._asdict(), "team": copy.owners[it.provider]} for it in work(copy)]
    return [{key_of(name): value for name, value in row.items()} for row in rows]


def work_list(copy: Copy) -> Markup:
    rows, every = [], work(copy)
    for it in every[:MOST]:
        own = named(it.version) if it.version is not None else "has no version"
        where = joined((named(place) if place != NEWEST else place for place in it.where), ", ")
        sides = named(it.consumer), named(it.consumer_version)
        rows.append([named(it.provider), named(copy.owners[it.provider]), own, *sides, where, element("b", it.lacks)])
    heads = "provider", "team", "its newest version", "consumer", "version", "where that is", "what lacks"
    more = [element("p", f"and {len(every) - MOST:,} more")] if every[MOST:] else []
    caption = "Contracts without a result that counts, by the newest version of each provider"
    return joined([table(caption, heads, rows, "The newest version of each provider meets all of them."), *more])
