"""Tries mutants: bodies that an edit makes wrong, and that the contracts of their crates have to refuse.

As many are tried in one check as are in different functions, and only these functions are checked, over the contracts
of those that they call, which are taken as proved, by a hole in the place of each proof: the proofs are tried apart.
Each has to be refused for its own body. One that isn't is tried by itself, by a check of the whole crate. All of it in
a room of its own (rooms.py), by `rt check`, which begins with what the crate's build left; judge.py reads what it
prints."""
import contextlib, os, re, shutil, time

import ledger
from definitions import TOP, text_of
from edits import BODIES, edits_of, functions_of, only_functions, rounds_of, taken_as_proved, texts_with
from judge import goals_in, lines_of, misnamed, named_by, sentence, why_not_refused
from kit import Said, rt, version
from lanes import Task
from measured import Row, measured
from rooms import below, lay

USUAL = Row(200, 200, 3000)
# How much the checks yield to others.
YIELDS = 15


class Tries:
    """Edits of a crate, what refuses each, and what their tries took."""

    def __init__(self, kept, name, edits):
        self.kept, self.name, self.edits = kept, name, edits
        self.refused, self.lost, self.checks, self.seconds, self.memory, self.elapsed = {}, {}, 0, 0, 0, 0

    def check(self, edits, words, proofs={}):
        """A check with these edits and proofs. One that ends without a judgement, killed for memory most likely, is run
        once more."""
        texts, why = texts_with(self.name, edits)
        if why:
            return Said(why, 2, 0, 0)
        lay(self.name, self.folder)
        for path, text in {**texts, **proofs}.items():
            os.makedirs(os.path.dirname(f"{self.folder}/{path}"), exist_ok=True)
            for it in ("Invariants", "Answers") if path.endswith("/Proof.antt") else ():
                with contextlib.suppress(FileNotFoundError):
                    os.remove(f"{self.folder}/{os.path.dirname(path)}/{it}.antt")
            with open(f"{self.folder}/{path}", "w", encoding="utf-8") as it:
                it.write(text)
        for _ in range(2):
            said = rt(["check", "--jobs", "1", *words], self.folder, YIELDS)
            self.checks, self.seconds = self.checks + 1, self.seconds + said.seconds
            self.memory = max(self.memory, said.memory)
            if said.status in (0, 1, 3) or re.search(r"error[\[:]|has no function", said.text):
                break
        return said

    def try_alone(self, edit):
        said = self.check([edit], [])
        if why := why_not_refused(said):
            self.lose(edit, why)
        else:
            self.tell_refused(edit, functions_of(self.name, edit), said)

    def lose(self, edit, why):
        self.lost[edit] = why
        print(f"mutants: {ledger.name_of(edit)}: {why}", flush=True)

    def tell_refused(self, edit, functions, said):
        """Notes by which function and sentence it is refused: its own function's, if that says so."""
        for it in sorted(only_functions(functions), key=named_by):
            if (goals := goals_in(it, said.text)) is not None:
                self.refused[edit] = named_by(it), sentence(it, goals)
                return
        other = re.search(r"^fn (\S+): (?:no proof|not proved|could not tell)", said.text, re.M)
        self.refused[edit] = (other[1] if other else self.name), "its proof"

    def try_round(self, edits):
        functions = {it: only_functions(functions_of(self.name, it)) for it in edits}
        said = self.check_only(edits, set().union(*functions.values()))
        for edit in edits:
            if not said or all(goals_in(it, said.text) is None for it in functions[edit]):
                self.try_alone(edit)
            elif any(misnamed(it, said.text) for it in functions[edit]):
                self.try_without_misnamed(edit, functions[edit], said)
            else:
                self.tell_refused(edit, functions[edit], said)

    def try_without_misnamed(self, edit, functions, said):
        """Tries it without the answers to goals that its functions don't have, or without all, if it is no answer but
        what they are made of that isn't there. A goal that is left unproved and had no answer refuses it; if none is
        left, but it isn't proved either, it is as before: the proof at hand fails."""
        before, answers, dropped = said, {}, set()
        while said and (found := set().union(*(misnamed(it, said.text) for it in functions))):
            if any(answers.get(path) == "" for path, _ in found):
                break
            for path, name in found:
                text = answers.get(path, text_of(f"{TOP}/crates/{self.name}/{path}"))
                own = re.search(rf"(?ms)^pub {re.escape(name)} : .*?(?:\n\n|\Z)", text)
                dropped.update([name] if own else re.findall(r"(?m)^pub (\S+) :", text))
                answers[path] = text.replace(own[0], "") if own else ""
            said = self.check_only([edit], functions, answers)
        for it in sorted(functions, key=named_by):
            if left := [goal for goal in said and goals_in(it, said.text) or [] if goal not in dropped]:
                self.refused[edit] = named_by(it), sentence(it, left)
                return
        if said and not [told for it in functions for told in lines_of(it, said.text)]:
            self.lose(edit, "NOT REFUSED: it is proved without the answers to goals that it doesn't have")
        else:
            self.tell_refused(edit, functions, before)

    def check_only(self, edits, functions, answers={}):
        """A check of these functions with these answers, but for what has no name by which it can be asked for. Each
        other one is taken as proved, or, where that can't be, is checked if they call it."""
        names, proofs = {named_by(it) for it in functions}, {**taken_as_proved(self.name, functions), **answers}
        while names:
            words = [word for it in sorted(names) for word in ("--only", it)] + ["--allow-holes"]
            said = self.check(edits, words, proofs)
            unknown = re.search(r"has no function `([^`]+)`", said.text) if said.status == 2 else None
            if unknown and unknown[1] in names:
                names.remove(unknown[1])
            elif proofs != answers and not re.search(r"^fn \S+: ", said.text, re.M):
                proofs = answers
            else:
                return said
        return None

    def run(self):
        began = time.time()
        with self.kept.room(self.name, begins_with_own=True) as self.folder:
            for edits in rounds_of(self.name, self.edits):
                self.try_round(edits)
        self.elapsed = time.time() - began
        return not self.lost

    def row(self):
        return Row(round(self.elapsed), round(self.seconds), self.memory >> 20, len(self.edits), self.checks)

    def lines(self):
        """The lines of the ledger for those that were refused."""
        return {
            ledger.name_of(edit): ledger.Line(ledger.sum_of(self.name, edit), *by, version())
            for edit, by in self.refused.items()
        }


class Definitions(Tries):
    """Wrong definitions of a crate: what any part of the crate refuses is refused."""

    def try_round(self, edits):
        for it in edits:
            self.try_alone(it)


def left_of(name, anew):
    """The edits of a crate that are to be tried: those that the ledger doesn't have for today's sources, and those that
    are drawn."""
    known = ledger.lines()
    has = lambda it: (line := known.get(ledger.name_of(it))) and line.sum == ledger.sum_of(name, it)
    return [it for it in edits_of(name) if anew or name in ledger.drawn() or not has(it)]


def names_goal(sentence):
    """Whether it names a goal that isn't proved, and not only a place at which the proof at hand fails."""
    return sentence != "its proof" and not re.fullmatch(r"proofs/\S+:\d+:\d+", sentence)


def unconfirmed(tries):
    """The lines of the ledger that have today's sum, and name another function or sentence than what was found. A goal
    and a place in the proof at hand don't contradict each other: a check that reaches a limit says only the place."""
    known = ledger.lines()
    for name, found in tries.lines().items():
        line = known.get(name)
        if not line or line.sum != found.sum:
            continue
        differs = line.sentence != found.sentence and names_goal(line.sentence) == names_goal(found.sentence)
        if line.function != found.function:
            yield f"{name}: the ledger says that {line.function} refuses it, and {found.function} does"
        elif line.kit == found.kit and differs:
            yield f"{name}: the ledger says that it is refused by `{line.sentence}`, and it is by `{found.sentence}`"


def waits_of(name, builds):
    """The builds, of these, that have to end before edits of a crate are tried: those below it, and its own."""
    return [("build", it) for it in (*below(name), name) if ("build", it) in builds]


def tasks_of(tries, builds):
    """What of the lanes tries these, the dearest first."""
    took = measured()["mutants"]
    return {
        ("mutants", it.name): Task(
            waits_of(it.name, builds),
            took.get(it.name, USUAL).elapsed * len(it.edits) / max(took.get(it.name, USUAL).count, 1),
            took.get(it.name, USUAL).memory << 20,
            lambda _, it=it: it.run(),
            yields=True,
        )
        for it in tries
    }


class Sample:
    """One mutant of a crate, drawn by the commit, that the kit's own judge has to refuse too: `rt must-fail`, in a
    room of its own."""

    def __init__(self, kept, name):
        self.kept, self.name, self.why, self.seconds = kept, name, None, 0
        self.edit = min(edits_of(name), key=lambda it: ledger.lot(f"sample {it[len(BODIES):]}"))

    def run(self):
        with self.kept.room(self.name, begins_with_own=True) as folder:
            os.mkdir(f"{folder}/must-fail")
            shutil.copy(self.edit, f"{folder}/must-fail")
            said = rt(["must-fail", self.name], os.path.dirname(os.path.dirname(folder)), YIELDS)
            told = re.search(rf"{re.escape(os.path.basename(self.edit))}: refused", said.text)
            self.seconds = said.seconds
            if said.status or not told:
                self.why = f"{ledger.name_of(self.edit)}, by rt must-fail: {said.text.strip()[-600:]}"
        return not self.why
