"""Steps that are stopped at every call on the broker's files. Their file is NAME.stops; a line that begins with two
spaces goes on where the line before it ended; the others are:

    # TEXT, or nothing              no part of the file
    @ CALLER TOKEN                  a caller's token; the first is the office's
    & NAME                          what the scenario NAME says comes first, unstopped, on a new broker. Of the lines of
                                    a scenario (scenario.py) it has only callers, requests, answers and `= end`
    > CALLER METHOD PATH BODY       a step, a request; the caller may be `-`, for none, and the body may be left out
    < STATUS FIELD | FIELD BODY     its answer; fields beside those of each answer come between bars; the body begins
                                    with `{`
    >* CALLER METHOD PATH BODY      such a step, which is also done again on what each stop left; then the questions
                                    are answered as after it
    >= CALLER METHOD PATH BODY      such a step, also done again, that writes nothing: the files have the bytes that a
                                    connection without a request leaves
    * create                        a step, also done again, that makes the broker; it is the first
    * migrate                       a step, also done again, that migrates the tables
    ! STATEMENT                     the statements make the tables, in place of a broker
    ? CALLER METHOD PATH BODY       a question, asked over copies, so that what it changes is forgotten; if answers
                                    are written under the questions they are those after all steps
    = sessions                      two steps each are a session, over one start of the program, stopped after so many
                                    calls since then; the sessions are stopped in a row, and the questions are asked
                                    after them: their answers are those after some first requests of each session were
                                    done, among them what it acknowledged

The steps are done one after another over the two files of a broker, its log and its database. Each is done again and
again on copies of what was before it: the log, and then the database, passes no call of the program on, or one, two and
so on, and refuses all after them, until none is refused (tests/faults/stops.c). Of each file there is then what was
last synced or what was written, in all four ways, as after a loss of power or an end of the process. The program opens
them again, and the questions are asked: their answers are those of before the step or those of after it, and after it
if the step was acknowledged."""
import itertools
from collections.abc import Callable, Sequence
from pathlib import Path
from typing import NamedTuple
from tests.players.texts import DATA, answered, asked, lines_in
from tests.wire import Wrong

# How many requests a session has.
SESSION = 2
KINDS = {">": "once", ">*": "repeated", ">=": "idle"}
# What makes a broker or migrates it, and the command that does.
MAKINGS = {"create": "init", "migrate": "migrate"}


class Step(NamedTuple):
    """What is done, its bytes or a making, and the answer to it, of a making `done`."""

    kind: str
    act: bytes | str
    answer: bytes


def stream_of(steps: Sequence[Step], count: int) -> bytes:
    """The first so many requests of these steps."""
    return b"".join(it.act for it in steps[:count] if isinstance(it.act, bytes))


class Stops:
    """A file of stops."""

    def __init__(self, file: Path) -> None:
        self.name, self.callers = file.stem, dict[str, str]()
        self.first, self.answers, self.statements = b"", b"", list[str]()
        self.steps, self.questions, self.last = list[Step](), b"", b""
        self.asks = self.in_sessions = False
        for place, line in lines_in(file):
            self.take_line(place, line, self.take_marked)
        self.office = next(iter(self.callers.values()))

    def take_line(self, place: str, line: str, take: Callable[[str, str], None]) -> None:
        mark, _, text = line.partition(" ")
        try:
            if mark and not mark.startswith("#"):
                take(mark, text)
        except (KeyError, IndexError, ValueError) as it:
            raise Wrong(f"{place}: no such line: {line[:200]} ({it!r})") from None

    def take_marked(self, mark: str, text: str) -> None:
        """Takes a line by its mark."""
        if mark == "&":
            for place, line in lines_in(DATA / "stops" / f"{text}.scenario"):
                self.take_line(place, line, self.take_first)
        elif mark == "@":
            self.take_first(mark, text)
        elif mark in KINDS:
            self.steps.append(Step(KINDS[mark], self.request(text), b""))
            self.asks = False
        elif mark == "*" and text in MAKINGS:
            self.steps.append(Step("repeated", text, b"done"))
        elif mark == "<" and self.asks:
            self.last += answered(text)
        elif mark == "<":
            self.steps[-1] = self.steps[-1]._replace(answer=self.steps[-1].answer + answered(text))
        elif mark == "?":
            self.questions += self.request(text)
            self.asks = True
        elif mark == "!":
            self.statements.append(text)
        elif (mark, text) == ("=", "sessions"):
            self.in_sessions = True
        else:
            raise ValueError(mark)

    def take_first(self, mark: str, text: str) -> None:
        """Takes a line of what comes first."""
        if mark == "@":
            name, _, token = text.partition(" ")
            self.callers.setdefault(name, token)
        elif mark == ">":
            self.first += self.request(text)
        elif mark == "<":
            self.answers += answered(text)
        elif (mark, text) != ("=", "end"):
            raise ValueError(mark)

    def request(self, text: str) -> bytes:
        """A request by the caller that a text names first, if it isn't `-`."""
        name, _, rest = text.partition(" ")
        return asked(None if name == "-" else self.callers[name], rest)

    def sessions(self) -> list[list[Step]]:
        return [self.steps[place : place + SESSION] for place in range(0, len(self.steps), SESSION)]

    def runs(self) -> list[list[bytes]]:
        """The streams of the sessions if of each so many first requests are sent, in each way; last all."""
        counts = itertools.product(range(SESSION + 1), repeat=len(self.sessions()))
        return [[stream_of(it, count) for it, count in zip(self.sessions(), each)] for each in counts]
