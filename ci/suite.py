"""Everything that is tried before a merge, part by part. `./test` says how it is called."""
import argparse, collections, filecmp, os, re, subprocess, sys, threading, time

import ledger, measured
from build import COMPILERS, OUT, PROGRAM, USUAL, Build
from definitions import TOP
from edits import edits_of, in_gate, kept
from kit import free, processors, version
from lanes import Lanes, Task
from mutation import Sample, Tries, left_of, tasks_of, unconfirmed, waits_of
from pytests import OnProgram
from rooms import Kept, below, files_in, listed

# What is tried of the text, each part a script of ci/.
STATIC = {
    "what the checks need of Debian": ["ci/needs", "--install"],
    "the places that documents name": ["ci/links"],
    "the words of documents": ["ci/words"],
    "the rules of the project": ["ci/house"],
    "the imports": ["ci/imports"],
    "the form of the sources": ["ci/formats"],
    "the lists of what has to be believed": ["ci/believed"],
    "the list of what has to be read": ["ci/read"],
    "the calls that READMEs list": ["ci/readmes"],
    "the calls that callers are promised": ["ci/calls"],
    "the table of times": ["ci/times"],
    "the edits can be made": ["ci/mutants", "--read"],
    "the judge, the ledger and what is kept": ["ci/trials"],
}
# What needs a kit.
VERDICT, BUILT, SAME, LINES = "rt ci", "./build", "./build beside rt ci", "the command lines of documents"
MUTANTS, SAMPLE = "mutants of ", "by rt must-fail, one of "
# How much of why a part failed is said once more at the end, in letters.
WIDEST = 1000
# What a check of `rt ci` may still grow to while it goes on beside the others, in bytes.
LARGEST = 5_000_000_000


class Suite:
    """The parts that are run, and how each ended."""

    def __init__(self, given):
        self.given, self.began, self.printing = given, time.time(), threading.Lock()
        self.ends, self.why = {}, {}
        self.memory = self.tried = 0

    def chosen(self, names):
        return [it for it in names if not self.given.k or self.given.k in it]

    def tell(self, word, name, more=""):
        """Says how a part ended: `ok`, `FAILED` or `not run`. Gives whether it went well."""
        with self.printing:
            self.ends[name], self.why[name] = word, more
            print(f"{word:<7} {name}{more and f': {more}'}\n", end="", flush=True)
        return word != "FAILED"

    def named(self, word):
        return [name for name, ended in self.ends.items() if ended == word]

    def script(self, name, words):
        """A part that is a script, which has to end with 0."""
        began = time.time()
        ran = subprocess.run(words, cwd=TOP, capture_output=True, text=True, errors="replace", check=False)
        if ran.returncode:
            print(ran.stdout + ran.stderr, end="", flush=True)
            return self.tell("FAILED", name, f"{' '.join(words)} ends with {ran.returncode}")
        return self.tell("ok", name, f"{time.time() - began:.1f} s")

    def end(self):
        failed, skipped = self.named("FAILED"), self.named("not run")
        for name in failed:
            print("FAILED:", ": ".join(filter(None, [name, self.why.get(name, "")[:WIDEST]])))
        took, count = round(time.time() - self.began), processors()
        if self.tried and not self.given.k and self.given.record:
            measured.record({("./test", str(count)): measured.Row(took, 0, self.memory, self.tried)})
        most = f", and {self.memory / 1000:.1f} GB of memory" if self.memory else ""
        print(f"it took {took} seconds on {count} processors{most}")
        more = f", {len(skipped)} skipped" if skipped else ""
        print(f"{len(self.named('ok'))} passed, {len(failed)} failed{more}", flush=True)
        if not self.ends:
            print(f"no part and no test has {self.given.k} in its name: ./test --list has the names", file=sys.stderr)
        return 1 if failed or not self.ends else 0


def unproved(said):
    """The lines by which `rt ci` says that something isn't proved, each behind the line before it, which may say why."""
    rows = [line.strip() for line in said]
    return [f"{why}: {row}" for why, row in zip(rows, rows[1:]) if row.endswith(" NOT PROVED")]


class Verdict(threading.Thread):
    """`rt ci`, whose last line has to count every crate and every edit of must-fail/."""

    def __init__(self, suite):
        super().__init__()
        self.suite, self.said = suite, []

    def run(self):
        began = time.time()
        how = {"cwd": TOP, "stdin": subprocess.DEVNULL, "stdout": subprocess.PIPE, "stderr": subprocess.STDOUT}
        ran = subprocess.Popen(["rt", "ci"], text=True, errors="replace", **how)
        for line in ran.stdout:
            self.said.append(line)
            if line.startswith("rt: "):
                print(f"{time.time() - began:6.0f} s  {line}", end="", flush=True)
        count = re.fullmatch(r"(\d+) passed, 0 failed\n?", self.said[-1] if self.said else "")
        wanted = len(listed()) + sum(len(in_gate(it)) for it in listed())
        if ran.wait() == 0 and count and int(count[1]) == wanted:
            self.suite.tell("ok", VERDICT, f"{count[1]} passed, {time.time() - began:.0f} s")
        else:
            print("".join(self.said[-300:]), end="")
            why = [f"status {ran.returncode}; {wanted} have to pass: {self.said[-1:]}", *unproved(self.said)]
            self.suite.tell("FAILED", VERDICT, "; ".join(why))


class OnKit:
    """The parts that need a kit, side by side: `rt ci`; what ./build does; and mutants, over the libraries that it
    makes."""

    def __init__(self, suite, names):
        self.suite, self.names, self.store = suite, names, Kept()
        self.mutants = [Tries(self.store, it, left_of(it, suite.given.anew)) for it in self.crates(MUTANTS)]
        self.samples = [Sample(self.store, it) for it in self.crates(SAMPLE)]
        tried = {*self.crates(MUTANTS), *self.crates(SAMPLE)}
        wanted = {it for name in tried for it in (*below(name), name) if it in below(PROGRAM)}
        self.build = Build(self.store, [*sorted(wanted), *([PROGRAM] if BUILT in names or SAME in names else [])])

    def crates(self, kind):
        return [it for it in kept() if kind + it in self.names]

    def tasks(self):
        builds = self.build.tasks()
        tasks = {**builds, **tasks_of(self.mutants, builds)}
        for it in self.mutants:
            key = "mutants", it.name
            tasks[key] = tasks[key]._replace(call=lambda _, it=it: self.try_mutants(it))
        for it in self.samples:
            call = lambda _, it=it: self.try_sample(it)
            took, waits = self.build.took.get(it.name, USUAL), waits_of(it.name, builds)
            tasks["sample", it.name] = Task(waits, took.elapsed, took.memory << 20, call, yields=True)
        if LINES in self.names:
            tasks["lines", ""] = Task([], 0, 2 << 30, lambda _: self.suite.script(LINES, ["ci/commands"]), yields=True)
        return tasks

    def try_mutants(self, tries):
        tries.run()
        name, recorded = tries.name, self.suite.given.record
        spared = len(edits_of(name)) - len(tries.edits)
        wrong = [f"{ledger.name_of(it)}: {why}" for it, why in tries.lost.items()]
        wrong += [] if recorded else unconfirmed(tries)
        if recorded:
            with self.suite.printing:
                ledger.write(tries.lines())
                measured.record({} if spared else {("mutants", name): tries.row()})
        said = f"{len(tries.refused)} refused, {spared} by the ledger; {tries.checks} checks, {tries.seconds:.0f} s"
        return self.suite.tell("FAILED" if wrong else "ok", MUTANTS + name, "; ".join(wrong) or said)

    def try_sample(self, sample):
        well, name = sample.run(), SAMPLE + sample.name
        said = f"{os.path.basename(sample.edit)}, {sample.seconds:.0f} s"
        return self.suite.tell("ok" if well else "FAILED", name, sample.why or said)

    def run(self):
        verdict = Verdict(self.suite)
        if VERDICT in self.names:
            verdict.start()
        lanes = Lanes(self.tasks(), lambda: LARGEST if verdict.is_alive() else 0)
        ends = lanes.run(lambda: self.build.tells_of(lanes))
        lost = [name for (kind, name), well in ends.items() if kind == "build" and not well]
        if BUILT in self.names:
            self.suite.tell("FAILED" if lost else "ok", BUILT, " ".join(lost) or f"{len(self.build.names)} crates")
        if VERDICT in self.names:
            verdict.join()
        if SAME in self.names:
            self.compare()
        if self.suite.given.record:
            measured.record({("proof", name): row for name, row in self.build.rows.items()})
        self.suite.memory, self.suite.tried = lanes.memory, sum(len(it.edits) for it in self.mutants)
        for it in [it for it in self.names if it not in self.suite.ends]:
            self.suite.tell("FAILED", it, "NOT TRIED: what it needs isn't proved, or it stopped in the middle")

    def compare(self):
        """Whether the program that ./build keeps is what `rt ci` built, to the byte. If it isn't, the libraries that
        differ, and what is above them, are built once more: that build has to give it. What differed is said."""
        if lost := [f"there is no {it}" for pair in self.programs() for it in pair if not os.path.isfile(it)]:
            self.suite.tell("FAILED", SAME, "; ".join(lost))
            return
        why = self.differing()
        if why:
            unlike = self.unlike()
            said = "; ".join([*why, *(f"{file} of {' '.join(names)}" for file, names in unlike)])
            print(f"{SAME}: {said}; built once more", flush=True)
            first = {PROGRAM, *(it for _, names in unlike for it in names)}
            self.store.forget([it for it in self.build.names if first & {it, *below(it)}])
            lanes = Lanes(self.build.tasks())
            lanes.run(lambda: self.build.tells_of(lanes))
            why = [f"{it}, twice; at first {said}" for it in self.differing()]
        self.suite.tell("FAILED" if why else "ok", SAME, "; ".join(why))

    def programs(self):
        """The programs of ./build, each with that of `rt ci`."""
        return [(f"{self.store.at}/{PROGRAM}{it}", f"{OUT}/{PROGRAM}{it}") for it in COMPILERS]

    def differing(self):
        """Which of the programs differ."""
        return [f"{it} differs" for it, other in self.programs() if not filecmp.cmp(it, other, shallow=False)]

    def unlike(self):
        """The files of libraries that the two made otherwise, each with its crates, without those that differ in each."""
        crates, found = below(PROGRAM), collections.defaultdict(list)
        for name in crates:
            own, other = f"{self.store.at}/crates/{name}/out", f"{TOP}/crates/{name}/out"
            for file in (os.path.relpath(it, own) for it in files_in(own)):
                pair = f"{own}/{file}", f"{other}/{file}"
                if os.path.isfile(pair[1]) and not filecmp.cmp(*pair, shallow=False):
                    found[file.replace(name, "*")].append(name)
        return [(file, names) for file, names in found.items() if len(names) < len(crates)]


def words_given():
    read = argparse.ArgumentParser(prog="./test", description="Tries everything before a merge.")
    read.add_argument("--program", metavar="PATH", type=os.path.abspath, help="only what tries this built program")
    read.add_argument("-k", metavar="WORD", help="only the parts and the tests that have WORD in their names")
    read.add_argument("--list", action="store_true", help="the names of the parts")
    read.add_argument("--anew", action="store_true", help="tries also the mutants that the ledger has")
    read.add_argument("--record", action="store_true", help="writes the ledger, and what the parts took, into the tree")
    read.add_argument("--allow-not-run", action="store_true", help="what can't be run is skipped, and doesn't fail")
    return read.parse_known_args()


def main():
    given, more = words_given()
    suite = Suite(given)
    os.environ["PATH"] = f"{TOP}/ci/documented:{os.environ['PATH']}"
    os.environ["PYTHONDONTWRITEBYTECODE"] = "1"
    only_tests = bool(given.program or more)
    on_program = OnProgram(suite, given.program or f"{OUT}/{PROGRAM}", more)
    static = dict(list(STATIC.items())[: 1 if only_tests else None])
    by_crate = [kind + it for kind in (MUTANTS, SAMPLE) for it in kept()]
    on_kit = [] if only_tests else [VERDICT, BUILT, SAME, LINES, *by_crate]
    chosen = suite.chosen([*static, *on_kit])
    if given.list:
        print("\n".join([*chosen, *on_program.files()]))
        return 0
    for name in suite.chosen(static):
        suite.script(name, static[name])
    if suite.named("FAILED") and not given.allow_not_run:
        return suite.end()
    if names := suite.chosen(on_kit):
        print(f"{version()}; {processors()} processors, {free() / 1e9:.0f} GB of memory free", flush=True)
        OnKit(suite, names).run()
    on_program.run()
    return suite.end()


if __name__ == "__main__":
    sys.exit(main())
