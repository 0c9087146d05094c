"""Each request of the program for memory is refused, one in each run, over three streams of requests: the first run, a
contract that goes live, and replies that are checked (refuse.c). In each run the command that the refusal met is
answered 503 {"answer":"memory"} and all others as if it hadn't been sent; or the program ends with status 3 after whole
answers; or a commit was refused, and the broker is stopped: at most once in the making, and at most once at a command,
and never at one that changes nothing. The same of what an audit asks for after the file is opened."""
import collections, functools, os, subprocess
from collections.abc import Iterator
from concurrent.futures import ThreadPoolExecutor
import pytest
from tests.players.files import statements
from tests.players.scenario import Scenario, file_of
from tests.players.shims import library
from tests.process import Ended, bytes_of, ran, text_of
from tests.wire import OFFICE, PATIENCE, Wrong, answer, same
from tests.world import fleet_file, folded

pytestmark = pytest.mark.needs("cc")
STREAMS = "first-run", "goes-live", "checked-replies"
MEMORY, STORE = answer(503, '{"answer":"memory"}'), answer(500, '{"answer":"store"}')
STOPPED = answer(503, '{"answer":"stopped"}')
NO_MEMORY, NOT_MADE, CUT_OFF = (3, "memory\n"), (3, "open 5\n"), (3, "serve 3\n")
# How a run may end, by what the program says, if there is no answer yet.
AT_ONCE = {NO_MEMORY: "memory", (3, "open 4\n"): "open 4", NOT_MADE: "open 5"}
NOTHING_CHANGED = "503 at a command that changes nothing"
# Each end that the first run has.
ENDS = {*AT_ONCE.values(), "serve 3 after whole answers", NOTHING_CHANGED, "503"}
Outcome = tuple[str, "int | str | None"]


def parted(out: bytes) -> list[bytes]:
    """The answers in the output, each whole, as bytes."""
    found = []
    while out:
        head, end, rest = out.partition(b"\r\n\r\n")
        length = int(head.split(b"content-length: ")[1].split(b"\r\n")[0])
        if length > len(rest):
            raise Wrong(f"an answer that is cut: {out!r}")
        found.append(head + end + rest[:length])
        out = rest[length:]
    return found


class Stream:
    """The requests of a scenario and their answers, as a replay reads them, whose requests for memory are refused one
    by one."""

    def __init__(self, program: str, name: str) -> None:
        stream = Scenario(file_of(name)).streams[0]
        self.program, self.requests, self.answers = program, stream.messages, [it.text for it in stream.answers]
        self.words = [program, "replay", "--office-token", OFFICE]
        self.without = functools.cache(self.run_without)
        self.outcome = functools.cache(self.judged)

    def run(self, requests: list[bytes], **settings: str) -> tuple[Ended, list[bytes]]:
        """How a replay of these ends, and its answers."""
        done = ran(self.words, b"".join(requests), env={**os.environ, **settings})
        return done, parted(done.output.encode())

    def run_without(self, places: frozenset[int]) -> list[bytes]:
        """The answers of a run with memory, to which these requests aren't sent."""
        return self.run([it for place, it in enumerate(self.requests) if place not in places])[1]

    def count(self, room: str) -> int:
        """How many requests for memory the program makes, if none is refused."""
        done, answers = self.run(self.requests, LD_PRELOAD=library("refuse"), COUNTED=f"{room}/counted")
        same("the run without a refusal", (done.status, answers), (0, self.answers))
        return counted(room)

    def judged(self, done: Ended) -> Outcome:
        """What comes of a run that ends so, and at which command the store failed, if it did."""
        answers = parted(done.output.encode())
        ended = done.status, done.errors
        if ended in AT_ONCE and not answers:
            return AT_ONCE[ended], "making" if ended == NOT_MADE else None
        if ended == CUT_OFF and self.are_begun(answers):
            return "serve 3 after whole answers", None
        if ended == (0, "") and len(answers) == len(self.requests):
            return self.full_outcome(answers)
        raise Wrong(f"it ends otherwise: {done}")

    def full_outcome(self, answers: list[bytes]) -> tuple[str, int | None]:
        """The same if each request has an answer."""
        if STORE in answers:
            failed = answers.index(STORE)
            after = answers[failed + 1 :]
            if not self.changes(failed):
                raise Wrong(f"the broker was stopped by request {failed + 1}, which changes nothing")
            if self.are_begun(answers[:failed]) and after == [STOPPED] * len(after):
                return "a store that failed", failed
        elif self.are_begun(answers):
            if MEMORY not in answers:
                return "as without the refusal", None
            return "503" if self.changes(answers.index(MEMORY)) else NOTHING_CHANGED, None
        raise Wrong(f"it is answered otherwise: {answers}")

    def are_begun(self, answers: list[bytes]) -> bool:
        """Whether these first answers are those of a run without the requests that are answered 503."""
        places = frozenset(place for place, one in enumerate(answers) if one == MEMORY)
        others = [one for one in answers if one != MEMORY]
        return self.without(places)[: len(others)] == others

    def changes(self, place: int) -> bool:
        """Whether the command at this place changes something: else its transaction ends by ROLLBACK."""
        return b'\r\n\r\n{"answer":"done"' in self.answers[place]


def counted(room: str) -> int:
    return int(text_of(f"{room}/counted"))


def refused(words: list[str], room: str, first: int, last: int) -> list[tuple[int, Ended]]:
    """How the runs of these words end in which the request for memory of each of these numbers is refused."""
    settings = {"LD_PRELOAD": library("refuse"), "REFUSED": f"{first}-{last}", "INPUT": f"{room}/input"}
    done = subprocess.run(words, env={**os.environ, **settings}, capture_output=True, timeout=10 * PATIENCE)
    same("what refuses memory", (done.returncode, done.stderr), (0, b""))
    found = [*ends_in(done.stdout)]
    same("the runs", [number for number, _ in found], [*range(first, last + 1)])
    return found


def ends_in(told: bytes) -> Iterator[tuple[int, Ended]]:
    """The runs that are told of, each with its number."""
    while told:
        line, _, told = told.partition(b"\n")
        number, status, *lengths = map(int, line.split())
        output, errors, told = told[: lengths[0]], told[lengths[0] : sum(lengths)], told[sum(lengths) :]
        yield number, Ended(os.waitstatus_to_exitcode(status), output.decode(), errors.decode())


def each_refused(stream: Stream, room: str, count: int) -> Iterator[tuple[int, Ended]]:
    """How the run ends in which each of so many requests is refused, on all processors."""
    with open(f"{room}/input", "wb") as it:
        it.write(b"".join(stream.requests))
    size = 256
    with ThreadPoolExecutor(len(os.sched_getaffinity(0))) as workers:
        firsts = range(1, count + 1, size)
        for found in workers.map(lambda it: refused(stream.words, room, it, min(it + size - 1, count)), firsts):
            yield from found


@pytest.mark.parametrize("name", STREAMS)
def test_each_request_is_refused(program: str, room: str, name: str) -> None:
    stream = Stream(program, name)
    count = stream.count(room)
    same("how often a second run asks for memory", stream.count(room), count)
    found = list[Outcome]()
    for number, done in each_refused(stream, room, count):
        try:
            found.append(stream.outcome(done))
        except Wrong as fault:
            raise Wrong(f"as request {number} of {count} for memory is refused, {fault}") from None
    same("the runs", len(found), count)
    failures = collections.Counter(place for _, place in found if place is not None)
    assert all(times == 1 for times in failures.values()), f"the store failed more than once: {failures}"
    assert any(outcome == "open 5" for outcome, _ in found), "no refused COMMIT of the making is reported"
    if name == STREAMS[0]:
        same("which ends were seen", {outcome for outcome, _ in found} - {"as without the refusal"}, ENDS)


# How many of the requests of an audit are refused, the last of all: those before them are of the opening.
LAST = 600
BROKEN = Ended(1, "results, row 1: in latest an older result is named, or none\n", "")


@pytest.mark.parametrize("text, usual", [("", Ended(0, "", "")), ("DELETE FROM latest", BROKEN)])
def test_each_request_of_an_audit_is_refused(program: str, room: str, text: str, usual: Ended) -> None:
    """It ends as with memory, or with 3; the file stays as it was."""
    file, no_memory = fleet_file(program, room), Ended(3, "", "memory\n")
    folded(program, file)
    statements(file, text)
    before = bytes_of(file)
    words = [program, "audit", "--file", file]
    env = {**os.environ, "LD_PRELOAD": library("refuse"), "COUNTED": f"{room}/counted"}
    same("with memory", ran(words, env=env), usual)
    open(f"{room}/input", "wb").close()
    count = counted(room)
    ends = collections.Counter(it for _, it in refused(words, room, count - LAST + 1, count))
    same("other ends", {*ends} - {usual, no_memory, Ended(3, "", "open 4\n")}, set[Ended]())
    assert ends[no_memory] > LAST / 2, ends
    same("the file", bytes_of(file) == before, True)
