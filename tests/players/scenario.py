"""A scenario: requests and their answers, byte for byte. Its file is NAME.scenario; a line that begins with two spaces
goes on where the line before it ended; the others are:

    # TEXT, or nothing                  no part of the scenario
    & NAME                              the lines of the scenario NAME come first; it has no such line itself
    @ CALLER TOKEN                      a caller's token; the first is the office's
    > CALLER METHOD PATH BODY           a request; the caller may be `-`, for none, and the body may be left out
    < STATUS FIELD | FIELD BODY         the next answer; fields beside those of each answer come between bars; the body
                                        begins with `{`
    >> TEXT and << TEXT                 bytes that are sent, and the bytes of the next answer, with the escapes `\\r`,
                                        `\\n`, `\\t`, `\\0`, `\\\\` and `\\xHH`
    >+ COUNT TEXT                       such bytes so many times
    >/ CALLER METHOD PATH BODY          the request once with each beginning of its body, from nothing to all but the
                                        last byte
    </ STATUS FIELD | FIELD BODY        the answer to each of them
    = end, = rest or = closed           how the stream ends: after a whole message, in an unfinished one, or closed by
                                        an answer; what follows is another stream to the same broker; if the last stream
                                        has no such line, it is `end`
    ! STATEMENT                         the stream ends, if it hasn't yet; the broker is closed, the statement, with the
                                        escapes of `>>`, is executed on its tables, and the broker is opened again on
                                        them; the statement may be left out; if there are several one after another, the
                                        broker is opened after the last"""
from pathlib import Path
from typing import NamedTuple
from tests.players.texts import DATA, answered, asked, lines_in, unescaped
from tests.wire import Wrong

FOLDERS = "scenarios", "stops"


class Wanted(NamedTuple):
    """An answer: the place of its line, its bytes, and what was asked before it, as the scenario says it."""

    place: str
    text: bytes
    asked: str


class Stream:
    """What is sent in one stream, and what must come back."""

    def __init__(self, is_own: bool) -> None:
        self.statements: list[str] = []
        self.messages: list[bytes] = []
        self.answers: list[Wanted] = []
        self.ended, self.is_own = "end", is_own

    @property
    def sent(self) -> bytes:
        return b"".join(self.messages)

    def is_idle(self) -> bool:
        return not self.messages and not self.answers


def file_of(name: str) -> Path:
    """The file of the scenario of this name."""
    for folder in FOLDERS:
        if (file := DATA / folder / f"{name}.scenario").exists():
            return file
    raise Wrong(f"there is no scenario {name}")


class Scenario:
    """A scenario: its callers and its streams."""

    def __init__(self, file: Path) -> None:
        self.name, self.callers = file.stem, dict[str, str]()
        self.streams, self.current, self.cut = list[Stream](), Stream(True), 0
        # What is asked since the last answer that is wanted.
        self.asked, self.is_answered = "", False
        for place, line in lines_in(file):
            if line.startswith("& "):
                self.take_other(line[2:])
            else:
                self.take_line(place, line)
        if not self.current.is_idle() or self.current.statements or not self.streams:
            self.end_stream("end")
        if not self.callers:
            raise Wrong(f"{self.name} has no caller")
        self.office = next(iter(self.callers.values()))

    def take_other(self, name: str) -> None:
        """Takes the lines of another scenario."""
        self.current.is_own = False
        for place, line in lines_in(file_of(name)):
            self.take_line(place, line)
        self.current.is_own = True

    def take_line(self, place: str, line: str) -> None:
        mark, _, text = line.partition(" ")
        try:
            self.take_marked(place, mark, text)
        except (KeyError, ValueError, Wrong) as it:
            raise Wrong(f"{place}: no line of a scenario: {line[:200]} ({it})") from None

    def take_marked(self, place: str, mark: str, text: str) -> None:
        """Takes a line by its mark."""
        if mark.startswith(">"):
            self.asked, self.is_answered = text if self.is_answered else f"{self.asked} {text}".strip(), False
        if mark == "@":
            name, _, token = text.partition(" ")
            self.callers.setdefault(name, token)
        elif mark == ">":
            self.current.messages.append(asked(*self.by_caller(text)))
        elif mark == ">>":
            self.current.messages.append(unescaped(text))
        elif mark == ">+":
            count, _, text = text.partition(" ")
            self.current.messages.append(unescaped(text) * int(count))
        elif mark == ">/":
            self.send_each(*self.by_caller(text))
        elif mark == "<":
            self.want(place, answered(text))
        elif mark == "</":
            self.want_each(place, answered(text))
        elif mark == "<<":
            self.want(place, unescaped(text))
        elif mark == "!":
            self.add_statement(text)
        elif mark == "=" and text in ("end", "rest", "closed"):
            self.end_stream(text)
        elif mark and not mark.startswith("#"):
            raise Wrong("no such mark")

    def by_caller(self, text: str) -> tuple[str | None, str]:
        """The token of the caller that a text names first, if it isn't `-`, and the rest of the text."""
        name, _, rest = text.partition(" ")
        if name != "-" and name not in self.callers:
            raise Wrong(f"no line `@ {name} TOKEN` before it")
        return self.callers.get(name), rest

    def send_each(self, token: str | None, text: str) -> None:
        """Sends such a request with each beginning of its body in place of it."""
        self.cut = len((text.split(" ", 2) + ["", ""])[2].encode())
        self.current.messages += [asked(token, text, count) for count in range(self.cut)]

    def want(self, place: str, text: bytes) -> None:
        self.current.answers.append(Wanted(place, text, self.asked))
        self.is_answered = True

    def want_each(self, place: str, text: bytes) -> None:
        """Wants this answer from each of the requests that were sent so."""
        if self.cut == 0:
            raise Wrong("no request is sent so")
        self.current.answers += [Wanted(place, text, f"{self.asked}, cut after {it} bytes") for it in range(self.cut)]

    def add_statement(self, text: str) -> None:
        """Takes a statement, which is executed once the current stream has ended."""
        if not self.current.is_idle():
            self.end_stream("end")
        self.current.statements.append(unescaped(text).decode(errors="replace"))

    def end_stream(self, ended: str) -> None:
        """Ends the current stream so, and begins another."""
        self.current.ended = ended
        self.streams.append(self.current)
        self.current = Stream(self.current.is_own)

    def count(self) -> int:
        return sum(len(it.answers) for it in self.streams)

    def longest(self) -> int:
        """The length of the longest stream of the scenario's own."""
        return max((len(it.sent) for it in self.streams if it.is_own), default=0)

    def is_one_stream(self) -> bool:
        """Whether all streams are one, as `replay` reads it."""
        return all(it.ended == "end" for it in self.streams[:-1]) and not any(it.statements for it in self.streams)
