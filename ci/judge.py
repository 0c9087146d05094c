"""The judge of wrong bodies: reads in what `rt check` printed whether the prover refused an edit, and by which sentence.

`rt check` prints a line for each function that it doesn't prove, as

    fn broker_names::name::Name::as_str: no proof: expected answers in ..; `search` did not prove `returns`
    fn broker_names::name::Name::new: no proof: ..; it calls `broker_names::name::is_valid`, which isn't proved

and its last lines have `logic=proved` or `logic=not-proved` of a whole crate. An edit is refused if its own function
is such a line, for a goal of its own: that what it calls isn't proved is no refusal of it, nor is it one that the check
can't follow what the edit borrows."""
import re

from definitions import text_of
from sources import CLAUSE, closing

LINE = re.compile(r"^fn (\S+): (no proof: .*|not proved.*|could not tell.*)$", re.M)
GOALS = re.compile(r"`search` did not prove ((?:`[^`]+`(?:, )?)+)")
# That it isn't proved only since something else isn't.
RESTS = re.compile(r"it calls|it stands on|a call of `[^`]+`, which has no proof")
NOT_FOLLOWED = "the borrow checker does not cover this function yet"
# What is said of an answer to a goal that the edited function doesn't have; of those that it has nothing is said then.
MISNAMED = "error: .*has no `([^`]+)` that can be named from here"


def named_by(function):
    """How a check calls the function, without the modules of its type: `rows::number_at`, `Path::len`."""
    if function.type:
        return f"{function.type}{function.trait or ''}::{function.name}"
    inside = re.sub(r"^.*/src/|\.rt$", "", function.path)
    return "::".join([*(it for it in inside.split("/") if it not in ("lib", "main", "mod")), function.name])


def lines_of(function, said):
    """What a check says of this function, or of a closure in it, that it doesn't prove."""
    own = named_by(function).split("::")
    for name, told in LINE.findall(said):
        parts = [it for it in name.split("::")[1:] if it != "fn"]
        starts = range(len(parts) - len(own) + 1) if function.type else [0]
        if any(parts[it : it + len(own)] == own for it in starts):
            yield told


def goals_in(function, said):
    """The function's own goals that aren't proved; None if it is proved, or only rests on what isn't."""
    for told in lines_of(function, said):
        if goals := GOALS.search(told):
            return re.findall(r"`([^`]+)`", goals[1])
        if NOT_FOLLOWED in told:
            return None
        if place := re.search(f"{wrong_in(function)}: error", said):
            return [place[1]]
        if not RESTS.search(told):
            return []
    return None


def wrong_in(function):
    """The place of an error in the function's own proof, as the beginning of a line."""
    *modules, name = named_by(function).split("::")
    return rf"(?m)^(?:\./)?(proofs/(?:\S+/)?{'/'.join([*modules, ''])}\+?{re.escape(name)}/\S+)"


def misnamed(function, said):
    """The answers to goals that the edited function doesn't have, each by its file and its name."""
    return {(place.partition(":")[0], name) for place, name in re.findall(f"{wrong_in(function)}: {MISNAMED}", said)}


def sentence(function, goals):
    """The goal that isn't proved, and the clause of the function that it is of, if that can be told."""
    goal = next((it for it in goals if "clause-" in it), goals[0] if goals else "its proof")
    text = text_of(function.path)
    head = function.code[function.at : function.begin]
    clauses = {}
    for it in CLAUSE.finditer(head):
        at = function.at + it.end()
        label = re.search(r"ensures\s+(\w+)", it[0])
        if it[1] == "ensures":
            clauses[label[1] if label else ""] = " ".join(text[at : closing(function.code, at) - 1].split())
    label = re.search(r"clause-(\w+)", goal)
    clause = clauses.get(label[1] if label else "") or (len(clauses) == 1 and [*clauses.values()][0])
    return f"{goal}: {clause}" if clause and goal.startswith("returns") else goal


def why_not_refused(said):
    """What to say of an edit that was tried by itself, in a check of the whole crate, if it isn't refused."""
    if NOT_FOLLOWED in said.text:
        return f"NOT TRIED: {NOT_FOLLOWED}: {re.search(f'{NOT_FOLLOWED}: (.*)', said.text)[1][:300]}"
    if "logic=not-proved" in said.text or "could not tell" in said.text and said.status == 3:
        return None
    if "logic=proved" in said.text:
        return "NOT REFUSED: the crate is still proved"
    return f"NOT TRIED: the check ended with {said.status}: {said.text.strip()[-600:]}"
