"""Builds the program, and the library of each crate below it. `./build` says how it is used."""
import os, shutil, sys, time

from definitions import TOP
from kit import free, processors, rt, version
from lanes import Lanes, Task
from measured import Row, measured, record
from rooms import Kept, below, listed

PROGRAM = "broker"
OUT = f"{TOP}/crates/{PROGRAM}/out"
# How each of the two compilers builds a proved program, and what is added to the program's name.
COMPILERS = {"": ["run"], ".by-rattle": ["run", "--backend", "rattle"]}
# What a crate takes that wasn't measured, and what it is said to take at least, in MB.
USUAL = Row(120, 120, 3000)


class Build:
    """The libraries of these crates and of those below them, and the program."""

    def __init__(self, kept, names=(PROGRAM,)):
        self.kept, self.began, self.rows, self.done, self.failed = kept, time.time(), {}, set(), []
        self.names = list(dict.fromkeys(it for name in names for it in (*below(name), name)))
        self.took = measured()["proof"]
        self.log = open(f"{kept.at}/build.log", "w", encoding="utf-8")

    def chain(self, name):
        """The seconds of the longest chain of crates that wait for this one, with its own."""
        above = [self.chain(it) for it in self.names if name in listed()[it]]
        return self.took.get(name, USUAL).elapsed + max(above, default=0)

    def tasks(self):
        return {
            ("build", name): Task(
                [("build", it) for it in listed()[name]],
                1_000_000 + self.chain(name),
                self.took.get(name, USUAL).memory << 20,
                lambda jobs, name=name: self.build(name, jobs),
                4,
            )
            for name in self.names
        }

    def build(self, name, jobs):
        began = time.time()
        was_built = self.kept.is_built(name) and (name != PROGRAM or all(map(os.path.isfile, self.made())))
        if not was_built:
            with self.kept.room(name, begins_with_own=True) as folder:
                said = self.programs(folder) if name == PROGRAM else rt(["lib", "--jobs", str(jobs)], folder)
                self.log.write(f"== {name}\n{said.text}\n")
                self.log.flush()
                if said.status:
                    self.failed.append(name)
                    self.tell(f"{name} is NOT PROVED, status {said.status}: {said.text.rstrip()[-800:]}")
                    return False
                self.kept.keep(name, folder)
                self.rows[name] = Row(round(time.time() - began), round(said.seconds), said.memory >> 20)
        self.done.add(name)
        took = "was proved before" if was_built else f"is proved: {time.time() - began:.0f} s"
        self.tell(f"{name} {took}")
        return True

    def made(self):
        """Where the programs are kept."""
        return [f"{self.kept.at}/{PROGRAM}{ending}" for ending in COMPILERS]

    def programs(self, folder):
        """Proves the program, and builds it by each of the two compilers."""
        texts, seconds, memory = [], 0, 0
        for ending, words in COMPILERS.items():
            said = rt([*words, "--", "--version"], folder)
            texts, seconds, memory = [*texts, said.text], seconds + said.seconds, max(memory, said.memory)
            if said.status:
                break
            shutil.copy2(f"{folder}/out/{PROGRAM}", f"{self.kept.at}/{PROGRAM}{ending}")
        return said._replace(text="".join(texts), seconds=seconds, memory=memory)

    def tell(self, what):
        at = f"{time.time() - self.began:6.0f} s  {len(self.done):2} of {len(self.names)}"
        print(f"{at}  {what}\n", end="", flush=True)

    def tells_of(self, lanes):
        self.tell(f"goes on with {', '.join(sorted(it for _, it in lanes.running))}")


def place(kept):
    """Puts the programs that are kept to where the repository's scripts look for them."""
    os.makedirs(OUT, exist_ok=True)
    for ending in COMPILERS:
        shutil.copy2(f"{kept.at}/{PROGRAM}{ending}", f"{OUT}/.new")
        os.replace(f"{OUT}/.new", f"{OUT}/{PROGRAM}{ending}")


def main(words):
    if words not in ([], ["--record"]):
        print("./build takes no words but --record: its first lines say more", file=sys.stderr)
        return 2
    kept = Kept()
    build = Build(kept)
    tasks = build.tasks()
    most = sum(sorted(it.memory for it in tasks.values())[-processors() :])
    print(f"{version()}: proves {len(tasks)} crates, {processors()} side by side, and keeps them in {kept.at}")
    print(f"it may take {most / 1e9:.0f} GB of memory, and {free() / 1e9:.0f} are free: with less, fewer side by side")
    lanes = Lanes(tasks)
    ends = lanes.run(lambda: build.tells_of(lanes))
    if not all(ends.values()):
        print(f"the program isn't built: {build.log.name} says why")
        return 1
    place(kept)
    took = round(time.time() - build.began)
    if words:
        record({("./build", str(processors())): Row(took, 0, lanes.memory, len(build.rows))})
    print(f"{os.path.relpath(OUT)}/{PROGRAM} is built: {took} seconds, {lanes.memory / 1000:.1f} GB of memory")
    return 0


if __name__ == "__main__":
    sys.exit(main(sys.argv[1:]))
