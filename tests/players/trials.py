"""The steps of a file of stops and its sessions (stops.py), tried at every call."""
import functools, itertools, tempfile
from collections.abc import Callable
from typing import NamedTuple
from tests.players.files import statements
from tests.players.shims import MEMORY
from tests.players.stopped import ENDS, MOST_CALLS, NEVER, NO_FILES, SIDES, WELL, Done, Files, Stop, acted, read, ways
from tests.players.stops import Step, Stops
from tests.players.streams import shown
from tests.players.texts import answered
from tests.wire import Wrong, difference

STORE, STOPPED = answered('500 {"answer":"store"}'), answered('503 {"answer":"stopped"}')
# What is kept of the files before, the program that acts on them, and what is lost.
Found = tuple[bytes, bytes]


class Trial(NamedTuple):
    """A step, its number, what it is done on, and the answers to the questions before it and after it."""

    program: str
    place: int
    office: str
    questions: bytes
    step: Step
    base: Files
    before: bytes
    after: bytes

    def act(self, files: Files, act: bytes | str, stop: Stop = NEVER, **settings: str) -> Done:
        return acted(self.program, self.office, files, act, stop, **settings)

    def asked(self, files: Files) -> bytes:
        """What the questions are answered over copies of the files; nothing if there is no broker."""
        return self.act(files, self.questions).out

    def found(self, files: Files) -> Found:
        """What the questions are answered over the files that a stop left, and again once the step is done again, if it
        may be."""
        kept = self.asked(files)
        if self.step.kind == "once":
            return kept, self.after
        return kept, self.asked(self.act(files, self.step.act).written)

    def lapse(self, out: bytes, ended: tuple[int, bytes], found: Found) -> str | None:
        """How the step lapses that put this out and ended so, and left what was found so; None if it doesn't."""
        kept, again = found
        if ended not in ENDS:
            return f"the program ends with {ended[0]}, {shown(ended[1])}"
        if out not in (self.step.answer, b"", STORE):
            return f"answered otherwise:\n{difference(self.step.answer, out)}"
        if kept != self.after and (out == self.step.answer or kept != self.before):
            return f"something is taken:\n{difference(self.after, kept)}"
        if again != self.after:
            return f"done again it leaves something else:\n{difference(self.after, again)}"
        return None

    def stop(self, side: str, **settings: str) -> int:
        """Stops the step at every call of a file, until no call is refused: how many stops there were."""
        find, cuts = functools.lru_cache(maxsize=8)(self.found), 0
        for passes in range(MOST_CALLS):
            done = self.act(self.base, self.step.act, Stop(side, passes), **settings)
            for files in ways(done):
                if lapse := self.lapse(done.out, done.ended, find(files)):
                    raise Wrong(f"step {self.place}, stopped after {passes} calls of the {side}: {lapse}")
            cuts += done.out != self.step.answer
            if done.is_whole:
                return ended_at(passes, cuts, done.out == self.step.answer)
        raise Wrong(f"step {self.place}: the calls of the {side} don't end")

    def judge(self, done: Done) -> None:
        """Tries what the step answers unstopped, and whether it writes, if it may not, or a question tells it."""
        if (done.out, done.ended) != (self.step.answer, WELL):
            said = f"{difference(self.step.answer, done.out)}\n{done.ended}"
            raise Wrong(f"step {self.place} is answered otherwise:\n{said}")
        if self.step.kind != "idle" and self.before == self.after:
            raise Wrong(f"no question tells step {self.place}")
        if self.step.kind == "idle" and done.written != self.act(self.base, b"").written:
            raise Wrong(f"step {self.place} writes to a file")


def ended_at(passes: int, cuts: int, is_well: bool) -> int:
    """How many stops there were as no call was refused: nothing was tried, unless those before it cut something and it
    doesn't."""
    if not cuts or not is_well:
        raise Wrong(f"nothing was stopped within {passes} calls")
    return passes


def made(program: str, stops: Stops) -> Files:
    """The files before the first step."""
    if stops.statements:
        with tempfile.TemporaryDirectory(dir=MEMORY) as folder:
            statements(f"{folder}/broker.db", ";\n".join(stops.statements))
            return Files(None, read(f"{folder}/broker.db"))
    if stops.steps[0].act == "create":
        return NO_FILES
    created = acted(program, stops.office, NO_FILES, "create").written
    begun = acted(program, stops.office, created, stops.first)
    if begun.out != stops.answers:
        raise Wrong(f"what comes first is answered otherwise:\n{difference(stops.answers, begun.out)}")
    return begun.written


def trials(program: str, stops: Stops) -> list[Trial]:
    """The steps, each done unstopped on what the one before it left."""
    files, after, found = made(program, stops), b"", list[Trial]()
    for place, step in enumerate(stops.steps, 1):
        trial = Trial(program, place, stops.office, stops.questions, step, files, b"", b"")
        done = trial.act(files, step.act)
        before = after if found else trial.asked(files)
        after = trial.asked(done.written)
        found.append(trial._replace(before=before, after=after))
        found[-1].judge(done)
        files = done.written
    are_told_at_the_end(stops, after)
    return found


def are_told_at_the_end(stops: Stops, kept: bytes) -> None:
    if stops.last and kept != stops.last:
        raise Wrong(f"the questions are answered otherwise at the end:\n{difference(stops.last, kept)}")


# The sessions


# Whether the log and the database are left as they were last synced: all ways.
SYNCED = [*itertools.product((False, True), repeat=2)]


class Run(NamedTuple):
    """What came of sessions: what each put out, what the questions are answered after them, and whether no call was
    refused."""

    outs: list[bytes]
    kept: bytes
    is_whole: bool


def acknowledged(out: bytes) -> bytes:
    """The answers of a session that acknowledge something."""
    front = out.removesuffix(STOPPED)
    return front.removesuffix(STORE) if front.endswith(STORE) else out


def may_be(stopped: Run, run: Run) -> bool:
    """Whether what was stopped may be this run: the same is left, and what was acknowledged is done in it."""
    are_done = (wanted.startswith(acknowledged(out)) for out, wanted in zip(stopped.outs, run.outs))
    return stopped.kept == run.kept and all(are_done)


class Sessions:
    """Sessions in a row, and the runs that they may have been, the last of them whole."""

    def __init__(self, program: str, stops: Stops) -> None:
        self.stops, self.base = stops, made(program, stops)
        # What begins alike is done once: most runs of sessions differ only at their ends.
        self.act = functools.lru_cache(maxsize=32)(functools.partial(acted, program, stops.office))
        every = stops.runs()
        self.streams, self.runs = every[-1], [self.run(streams) for streams in every]
        for steps, out in zip(stops.sessions(), self.runs[-1].outs):
            if out != b"".join(it.answer for it in steps):
                raise Wrong(f"a session is answered otherwise: got {shown(out)}")
        are_told_at_the_end(stops, self.runs[-1].kept)

    def run(self, streams: list[bytes], stop: Stop = NEVER, are_synced: tuple[bool, ...] = (False, False)) -> Run:
        """What comes of sessions that are sent these streams, if each stops there and leaves the log and the database
        as they were last synced or as they were written."""
        files, outs, is_whole = self.base, list[bytes](), True
        for stream in streams:
            done = self.act(files, stream, stop)
            files = Files(*(synced if it else last for it, synced, last in zip(are_synced, done.synced, done.written)))
            outs.append(done.out)
            is_whole &= done.is_whole
        return Run(outs, self.act(files, self.stops.questions).out, is_whole)

    def stop(self, side: str) -> int:
        """Stops each of the sessions at every call of a file, with each way of what is left, until no call is refused:
        how many stops there were."""
        cuts = dict.fromkeys(SYNCED, 0)
        for passes in range(MOST_CALLS):
            stopped = {it: self.run(self.streams, Stop(side, passes), it) for it in SYNCED}
            for are_synced, run in stopped.items():
                if not any(may_be(run, it) for it in self.runs):
                    said = f"{passes} calls of the {side}, {are_synced}: something is taken"
                    raise Wrong(f"sessions, stopped after {said}:\n{difference(self.runs[-1].kept, run.kept)}")
                cuts[are_synced] += run.outs != self.runs[-1].outs
            if all(it.is_whole for it in stopped.values()):
                are_well = all(it.outs == self.runs[-1].outs for it in stopped.values())
                return ended_at(passes, min(cuts.values()), are_well)
        raise Wrong(f"sessions: the calls of the {side} don't end")


# All


@functools.cache
def trials_of(program: str, stops: Stops) -> list[Trial]:
    return trials(program, stops)


@functools.cache
def sessions_of(program: str, stops: Stops) -> Sessions:
    return Sessions(program, stops)


def stop_step(stops: Stops, place: int, side: str, program: str) -> int:
    return trials_of(program, stops)[place].stop(side)


def stop_sessions(stops: Stops, side: str, program: str) -> int:
    return sessions_of(program, stops).stop(side)


def plays_of(stops: Stops) -> dict[str, Callable[[str], object]]:
    """What is stopped of a file, each by its name: given the program, it says how many stops there were."""
    found: dict[str, Callable[[str], object]] = {}
    for side in SIDES:
        for place in range(0 if stops.in_sessions else len(stops.steps)):
            found[f"step {place + 1}, {side}"] = functools.partial(stop_step, stops, place, side)
        if stops.in_sessions:
            found[f"sessions, {side}"] = functools.partial(stop_sessions, stops, side)
    return found
