"""The rules of sizes and names.

- A crate has at most 110 functions; MORE has one with more, and why. No two of its functions outside `impl` have one
  name, and no two definitions of its specs/ that aren't operators have one.
- No two crates define one word, a name with a capital letter; TWICE has those that do, with why none is taken for
  the other. Nor do they give one name to a type that others may call; TYPES has those that do."""
import os, re
from collections import defaultdict

from definitions import TOP, definitions_in, files_of, text_of
from sources import bare, place

MOST = 110
MORE = {
    # How many matchers of one entry are asked is the larger part of what is over; it may become a crate of its own.
    "pact_rules": 160,
    # Tests alone: each of a call in calls.txt that the program doesn't make.
    "calls": 120,
}
TWICE = {
    # The same of two things.
    "HasRivals": "two of one key that differ: interactions of a file, replies of a file",
    "IsFilled": "what is kept beside an interaction, or a reply, is what it says",
    "IsMade": "the call made this: a body, a command",
    "IsNamed": "a text is a name",
    "IsObject": "a JSON value is an object",
    "IsReading": "what it reads as, or its first fault: a path, a table of rules",
    # For private clauses: no caller reads them.
    "Admits": "each crate of commands, of what it read first",
    "Checks": "private in contract_commands; the program's command `check`",
    "FailsAs": "private in pact_rules; how a call on the tables fails",
    "IsNumbered": "private in contract_commands; rows with numbers",
    "IsPlaceRead": "each crate of commands, of the place that it reads",
    "Reads": "private in pact_rules; how a file is read",
    # Two things of two subjects, which no clause and no crate names together.
    "IsKept": "JSON as a reader keeps it; the rules of tables",
    "IsRefusal": "the answer to a deployment; the fault of a pattern",
    "IsToken": "a caller's token; one of a path expression",
    "State": "the broker's; one of a provider, which is the Pact Specification's word",
    "Step": "the machine's; one down a tree",
}
# The same of public types.
TYPES = {
    "Place": "where a fault is, in a pact file or in recorded replies",
    "Refused": "a database that has no broker, with its connection; a head, with why",
}


def too_large(crates):
    for it in crates:
        most = MORE.get(it.name, MOST)
        if len(it.functions) > most:
            yield f"crates/{it.name}: {len(it.functions)} functions, more than {most}"


def defined(crate):
    """The names that the crate's specs/ define, each with its places; operators aside, which libraries share."""
    places = defaultdict(list)
    for path in files_of(crate.name, "specs", ".antt"):
        for name, number in definitions_in(text_of(path)):
            if "◌" not in name:
                places[name].append(f"{os.path.relpath(path, TOP)}:{number}")
    return places


def twice(crates):
    """What has one name with another of its crate."""
    for crate in crates:
        functions = defaultdict(list)
        for it in crate.functions:
            if not it.type:
                functions[it.name].append(place(it.path, it.code, it.at))
        for what, places in ("functions", functions), ("definitions", defined(crate)):
            for name, found in sorted(places.items()):
                if len(found) > 1:
                    yield f"crates/{crate.name}: {len(found)} {what} {name}: {', '.join(found)}"


def words(crate):
    """The words that its specs/ define, each with a place."""
    return {name: places[-1] for name, places in defined(crate).items() if name[0].isupper()}


def types(crate):
    """Its public types, each with the crate."""
    declared = {it for path in crate.files for it in re.findall(r"(?m)^pub \w+ (\w+)", bare(text_of(path)))}
    return {it: crate.name for it in declared if crate.is_public_type(it)}


def shared(crates, has, what, known, of):
    """Of what each crate has, the names that two give and that aren't among the known ones; and known ones that only one
    crate has."""
    places = defaultdict(list)
    for name, found in (it for crate in crates for it in has(crate).items()):
        places[name].append(found)
    for name, found in sorted(places.items()):
        if len(found) > 1 and name not in known:
            yield f"{len(found)} crates have a {what} {name}: {', '.join(found)}"
    yield from (f"ci/rules/names.py: {of} has {it}, which one crate has" for it in sorted(known) if len(places[it]) < 2)


def faults(product, checks):
    yield from too_large(product + checks)
    yield from twice(product + checks)
    yield from shared(product, words, "word", TWICE, "TWICE")
    yield from shared(product, types, "type", TYPES, "TYPES")
