"""What is where, and what is older than it could be."""
from typing import List, Set, Tuple

from holzhebo.gate.sentences import FAULTS
from holzhebo.report.copy import DEPLOYED, Copy, Environment, Fault
from holzhebo.report.gate import faults
from holzhebo.report.markup import MOST, Markup, element, joined, listed, named, sentence, table


def both(pacticipant: str, version: str) -> Markup:
    return sentence("{pacticipant} {version}", pacticipant=pacticipant, version=version)


def reason(copy: Copy, there: Environment, it: Fault) -> Markup:
    """A fault as a sentence, with the teams that can act."""
    told = FAULTS[it.kind]
    teams = list(dict.fromkeys(copy.owners[{"consumer": it.consumer, "provider": it.provider}[by]] for by in told.by))
    text = told.so + ": {kind}, for the team" + ("s {all}" if teams[1:] else " {all}")
    parts = {"one": both(it.consumer, it.consumer_version), "kind": element("b", it.kind)}
    other = both(it.provider, it.provider_version or "")
    names = {"provider": it.provider, "environment": there.name, "all": joined(map(named, teams), " and ")}
    return sentence(text, other=other, **names, **parts)


def refusals(copy: Copy, there: Environment) -> List[Tuple[int, List[Fault]]]:
    """The versions that are in an environment whose gate would have refused them then, with their faults."""
    numbers = sorted(set().union(*there.there.values()), key=copy.version) if there.gated else []
    found = [(it, faults(copy, there, it)) for it in numbers]
    return [(number, lacks) for number, lacks in found if lacks]


def cell(copy: Copy, there: Environment, pacticipant: str, refused: Set[int]) -> Markup:
    """The versions of a pacticipant that are there."""
    lines = []
    for number in sorted(there.there.get(pacticipant, set()), key=copy.version):
        places = there.places[pacticipant, number]
        said = [element("small", f" {', '.join(places)}")] if places != [DEPLOYED] else []
        mark = [element("b", " refused then", class_="no")] if number in refused else []
        lines.append(element("div", named(copy.version(number).version), *said, *mark))
    return joined(lines) if lines else Markup("")


def headed(there: Environment) -> Markup:
    return joined([named(there.name), element("small", f" {there.marks}")])


def board(copy: Copy) -> Markup:
    """What is where, and why the gate would have refused some of it."""
    refused = [(it, refusals(copy, it)) for it in copy.environments]
    names = sorted({name for it in copy.environments for name in it.there})
    heads = ["service", *(headed(it) for it in copy.environments)]
    marked = [(it, {number for number, _ in found}) for it, found in refused]
    rows = [[named(name), *(cell(copy, it, name, found) for it, found in marked)] for name in names]
    parts = [table("Versions by service and environment", heads, rows, "Nothing is anywhere.")]
    for there, found in refused:
        for number, lacks in found[:MOST]:
            title = sentence("{one} in {there}", one=both(*copy.version(number)), there=there.name)
            parts += [element("h3", title), listed([reason(copy, there, it) for it in lacks], "")]
        if len(found) > MOST:
            more = f"In {{there}} {len(found) - MOST:,} more would have been refused."
            parts.append(element("p", sentence(more, there=there.name)))
    count = sum(len(found) for _, found in refused)
    intro = f"Of the versions that are in gated environments, the gate would have refused {count or 'none'} when the copy"
    intro += " was made."
    return joined([element("p", intro), *parts])


def outdated(copy: Copy) -> Markup:
    """Consumers that are somewhere with another contract than their newest one with the same provider."""
    newest = """SELECT v.number, c.content FROM versions v JOIN contracts c ON c.version_number = v.number
        WHERE v.pacticipant = ? AND c.provider = ? ORDER BY v.number DESC LIMIT 1"""
    rows = []
    for there in copy.environments:
        for number in sorted(set().union(*there.there.values()), key=copy.version):
            for provider, content in copy.contracts(number):
                own = copy.version(number)
                last, other = copy.rows(newest, own.pacticipant, provider)[0]
                if other != content:
                    new = copy.version(int(str(last))).version
                    rows.append([named(own.pacticipant), *map(named, (there.name, own.version, provider, new))])
    more = [element("p", f"and {len(rows) - MOST:,} more")] if len(rows) > MOST else []
    heads = "consumer", "environment", "version there", "provider", "newest version with a contract"
    caption = "Versions that are somewhere, and newer ones with another contract"
    return joined([table(caption, heads, rows[:MOST], "Each has the contract of its newest version."), *more])
