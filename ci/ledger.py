"""The ledger of mutants, wrong-bodies/refused.tsv: which function and which sentence refused each, and what that rests
on. A line has the edit, the sum, the function, the sentence and the kit, parted by tabs.

The sum is that of all on which a refusal rests: the edit, the sources of its crate, what crates below it promise, the
judge, and the logic of the kit. An edit whose line has today's sum isn't tried again, but for those that are drawn:
one in ten, by the commit, so that a line that isn't true is found, sooner or later, without anybody's doing. All those
of a crate are drawn together, since a check of one costs nearly as much as a check of as many as fit into it."""
import hashlib, os, re, subprocess
from collections import namedtuple
from functools import lru_cache

from definitions import TOP, files_of, text_of
from edits import edits_of, kept
from kit import version
from rooms import PARTS, below, files_in, line_of
from sources import functions_in

LEDGER = f"{TOP}/wrong-bodies/refused.tsv"
JUDGE = [f"{TOP}/ci/{it}.py" for it in ("judge", "edits", "sources")]
# At least one edit of so many is tried again, though the ledger has it.
DRAWN = 10
Line = namedtuple("Line", "sum function sentence kit")
HEAD = "edit\tsum\tfunction\tsentence\tkit"


def name_of(edit):
    """The edit as the ledger names it: its crate and its name."""
    return f"{os.path.basename(os.path.dirname(edit))}/{os.path.basename(edit).removesuffix('.edit')}"


def digest(*parts):
    return hashlib.sha256(repr(parts).encode()).hexdigest()[:16]


def promised(path):
    """The text of a file of src/ without its comments and without the bodies of its functions."""
    text, at, parts = text_of(path), 0, []
    for it in functions_in(path):
        if it.begin >= at and it.end > it.begin and "const fn" not in text[it.at : it.begin]:
            parts.append(text[at : it.begin])
            at = it.end
    return re.sub(r"(?m)^\s*//.*\n", "", "".join([*parts, text[at:]]))


@lru_cache(None)
def interface(crate):
    """A sum of what crates above see of this one: heads and types, definitions, and lemmas that stand by themselves."""
    heads = [promised(it) for it in files_of(crate, "src", ".rt")]
    specs = [re.sub(r"(?m)^\s*--.*\n", "", text_of(it)) for it in files_of(crate, "specs", ".antt")]
    own = "Proof.antt", "Answers.antt", "Invariants.antt"
    lemmas = [text_of(it) for it in files_of(crate, "proofs", ".antt") if os.path.basename(it) not in own]
    return digest(crate, heads, specs, lemmas)


@lru_cache(None)
def resting(crate):
    """A sum of all on which refusals in this crate rest, but for the edits."""
    files = [it for part in PARTS for it in files_in(f"{TOP}/crates/{crate}/{part}")]
    sources = [(os.path.relpath(it, TOP), text_of(it)) for it in files]
    logic = version().partition(" logic ")[2] or version()
    return digest(line_of(crate), sources, [interface(it) for it in below(crate)], [text_of(it) for it in JUDGE], logic)


def sum_of(crate, edit):
    return digest(resting(crate), text_of(edit))


def rows():
    """The rows of the ledger below its first, as they are now."""
    if not os.path.isfile(LEDGER):
        return []
    with open(LEDGER, encoding="utf-8") as it:
        return it.read().splitlines()[1:]


def lines():
    """The lines of the ledger, by their edits."""
    return {name: Line(*rest) for name, *rest in (it.split("\t") for it in rows())}


def faults(known):
    """What is wrong with the ledger's form: a line has five parts, and is the only one of an edit that is there."""
    names = [it.partition("\t")[0] for it in rows()]
    for at, row in enumerate(rows(), 2):
        name = row.partition("\t")[0]
        if row.count("\t") != 4 or not all(row.split("\t")):
            yield f"wrong-bodies/refused.tsv:{at}: a line is EDIT, SUM, FUNCTION, SENTENCE, KIT"
        elif name not in known:
            yield f"wrong-bodies/refused.tsv:{at}: there is no edit {name}"
        elif names.count(name) > 1:
            yield f"wrong-bodies/refused.tsv:{at}: {name} has another line"


def write(found):
    """Writes these lines into the ledger, in the place of those of the same edits, and drops those of edits that aren't
    there any more."""
    kept = {**lines(), **found}
    files = [f"{at}/{it}" for at, _, names in os.walk(os.path.dirname(LEDGER)) for it in names]
    there = {name_of(it) for it in files if it.endswith(".edit")}
    found = ["\t".join((name, *kept[name])) for name in sorted(kept) if name in there]
    with open(f"{LEDGER}.new", "w", encoding="utf-8") as it:
        it.write("\n".join([HEAD, *found, ""]))
    os.replace(f"{LEDGER}.new", LEDGER)


@lru_cache(None)
def commit():
    """What the draw goes by: the commit, or a sum of the sources where there is none."""
    ran = subprocess.run(["git", "rev-parse", "HEAD"], cwd=TOP, capture_output=True, text=True, check=False)
    return ran.stdout.strip() or digest([text_of(it) for it in files_in(f"{TOP}/crates") if it.endswith(".rt")])


def lot(what):
    """A number that the commit draws for this."""
    return int(digest(commit(), what), 16)


@lru_cache(None)
def drawn():
    """The crates, drawn by the commit, whose edits are tried again: as few as have one in ten of all edits."""
    counts = {it: len(edits_of(it)) for it in kept()}
    found = []
    for it in sorted(counts, key=lot):
        if sum(counts[name] for name in found) * DRAWN < sum(counts.values()):
            found.append(it)
    return found
