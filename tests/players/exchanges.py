"""The messages of streams with their answers, one by one: of scenarios, of stops, and of the run that README.md shows.

Each answer is to one message, in their order. A message that isn't a whole request, or isn't read further, is refused
(400, 413, 431 or 501), and nothing after it is answered; nor is what comes after an answer that closes the connection,
nor a message that isn't whole when the stream ends. All other requests are answered."""
import re
from collections.abc import Iterator, Sequence
from functools import cache
from pathlib import Path
from typing import NamedTuple
from tests.players.scenario import Scenario
from tests.players.stops import Stops
from tests.players.texts import DATA
from tests.process import TOP
from tests.wire import Answer, Wrong, answers_in, head_in

WHOLE = re.compile(rb"(?s)[\r\n]*([A-Z]+) (/\S*) HTTP/1\.[01]\r?\n((?:[^\r\n]+\r?\n)*)\r?\n")
REFUSED = 400, 413, 431, 501
NO_REQUEST = "", "", b""
Named = tuple[str, Answer]


class Exchange(NamedTuple):
    """A request and its answer, with the place where they are written. What is no request has no method."""

    place: str
    method: str
    path: str
    body: bytes
    answer: Answer

    def is_refused(self) -> bool:
        return self.answer.status in REFUSED

    def is_last(self) -> bool:
        return self.is_refused() or self.answer.headers.get("connection") == "close"


def parted(text: bytes) -> Iterator[tuple[str, str, bytes]]:
    """The whole requests with which a stream begins: method, path and body."""
    at = 0
    while head := WHOLE.match(text, at):
        length = re.findall(rb"(?im)^content-length: *(\d+) *\r?$", head[3])
        at = head.end() + int(length[0] if length else 0)
        if at > len(text):
            return
        yield head[1].decode(), head[2].decode(errors="replace"), text[head.end() : at]


def named(place: str, answered: bytes) -> list[Named]:
    """The answers that follow one another, each with its place."""
    return [(f"{place}, answer {number}", it) for number, it in enumerate(answers_in(answered), 1)]


def exchanges_in(sent: bytes, answers: Sequence[Named]) -> list[Exchange]:
    """Those of a stream; fails unless all that has to be answered is, and nothing else."""
    asked, found = [*parted(sent)], list[Exchange]()
    for place, answer in answers:
        if found and found[-1].is_last():
            raise Wrong(f"{place}: the connection is closed by the answer before it")
        found.append(Exchange(place, *(asked[len(found)] if len(found) < len(asked) else NO_REQUEST), answer))
        if not found[-1].method and not found[-1].is_refused():
            raise Wrong(f"{place}: what is no request is answered {answer.status}")
    if len(found) < len(asked) and not (found and found[-1].is_last()):
        method, path, _ = asked[len(found)]
        raise Wrong(f"{found[-1].place if found else 'the stream'}: then {method} {path} isn't answered")
    return found


def of_scenario(file: Path) -> Iterator[Exchange]:
    """Those of a scenario's own streams. The answer to a HEAD is its head alone."""
    for stream in (it for it in Scenario(file).streams if it.is_own):
        texts = ((it.place, it.text) for it in stream.answers)
        read = [(place, head_in(it)[0] if it.endswith(b"\r\n\r\n") else answers_in(it)[0]) for place, it in texts]
        yield from exchanges_in(stream.sent, read)


def of_stops(file: Path) -> Iterator[Exchange]:
    """Those of the steps that are requests, and of the questions, if their answers are written."""
    its = Stops(file)
    for number, step in enumerate(its.steps, 1):
        if isinstance(step.act, bytes):
            yield from exchanges_in(step.act, named(f"{file.name}, step {number}", step.answer))
    if its.last:
        yield from exchanges_in(its.questions, named(f"{file.name}, questions", its.last))


def of_shown_run() -> Iterator[Exchange]:
    """Those of the run that README.md shows."""
    sent, answered = (Path(TOP, "crates/broker", name).read_bytes() for name in ("stdin", "stdout"))
    yield from exchanges_in(sent, named("crates/broker/stdout", answered))


@cache
def exchanges() -> list[Exchange]:
    """All of them, as they are written."""
    files = [*sorted((DATA / "scenarios").glob("*.scenario")), *sorted((DATA / "stops").iterdir())]
    by_kind = {".scenario": of_scenario, ".stops": of_stops}
    found = [it for file in files if file.suffix in by_kind for it in by_kind[file.suffix](file)]
    return [*found, *of_shown_run()]
