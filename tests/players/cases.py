"""Cases: questions about pact files and recorded replies, which are asked by `normalise` and `check` (questions.py).
Expected values come from the Pact Specification, from files as pact-jvm, pact-js and pact-ruby write them, and from
docs/, never from the program. Their file is NAME.cases. A line that begins with two spaces goes on where the line
before it ended; the others are:

    # TEXT, or nothing   no part of the cases
    ? QUESTION           what the cases after it ask; the fields of earlier cases are forgotten
    FIELD TEXT           a field of the case; it holds for the cases after it too, until it is given again
    | TEXT               a line feed and the text after the last field
    + COUNT TEXT         the text so many times more after the last field; `#` in it is the number of the copy, from 1
                         on
    _ LENGTH             spaces after the last field, up to so many bytes
    = TEXT               the wanted answer, which ends a case; what the program says of a fault is an answer too
    ==                   the same answer again
    / TEXT               the answer that is wanted for each beginning of the last field that lacks a byte or more

Each question is written with its fields and its answer at the function that answers it. A question about a part of an
interaction is asked of a pact with that interaction alone and a reply to it: `pass` is yes, and `fail 0` is no."""
from pathlib import Path
from typing import NamedTuple
from tests.players.questions import QUESTIONS, Fault, Fields, Program
from tests.players.texts import numbered_in
from tests.wire import Wrong, difference


class Case(NamedTuple):
    """A case: its line, the question, the fields that it is asked with, each after the other, and the answer."""

    line: int
    question: str
    asks: list[Fields]
    wanted: str


class Sheet:
    """What a file of cases has said so far, and its cases."""

    def __init__(self) -> None:
        self.question, self.last = "", ""
        self.wanted: str | None = None
        self.fields: Fields = {}
        self.cases: list[Case] = []
        self.is_open = False

    def begin(self, name: str) -> None:
        if self.is_open:
            raise Wrong("the case before has no answer")
        if name not in QUESTIONS:
            raise Wrong(f"no question {name}")
        self.question, self.fields, self.last = name, {}, ""

    def take_field(self, mark: str, text: str) -> None:
        """A field, or what goes on with the last one."""
        self.is_open = True
        if mark in ("|", "+", "_"):
            self.fields[self.last] += self.more(mark, text)
        elif self.question and mark in QUESTIONS[self.question].fields:
            self.fields[mark], self.last = text, mark
        else:
            raise Wrong(f"no field {mark}")

    def more(self, mark: str, text: str) -> str:
        if mark == "|":
            return "\n" + text
        if mark == "_":
            return " " * (int(text) - len(self.fields[self.last].encode()))
        count, _, copy = text.partition(" ")
        if "#" not in copy:
            return copy * int(count)
        return "".join(copy.replace("#", str(number)) for number in range(1, int(count) + 1))

    def end(self, line: int, mark: str, text: str) -> None:
        """The end of a case: it is asked once, or with each beginning of its last field."""
        self.is_open = False
        if mark != "==":
            self.wanted = text
        if not self.question or self.wanted is None:
            raise Wrong("there is no question, or no answer before")
        given = [dict(self.fields)]
        if mark == "/":
            whole = self.fields[self.last]
            given = [{**self.fields, self.last: whole[:end]} for end in range(len(whole))]
        self.cases.append(Case(line, self.question, given, self.wanted))

    def take(self, number: int, line: str) -> None:
        mark, _, text = line.partition(" ")
        if mark == "?":
            self.begin(text)
        elif mark in ("=", "==", "/"):
            self.end(number, mark, text)
        elif mark not in ("", "#"):
            self.take_field(mark, text)


def cases_of(file: Path) -> list[Case]:
    """The cases of a file."""
    sheet, number = Sheet(), 0
    for number, line in numbered_in(file):
        try:
            sheet.take(number, line)
        except (Wrong, LookupError, ValueError) as why:
            raise Wrong(f"{file.name}:{number}: {why or repr(why)}") from None
    if sheet.is_open:
        raise Wrong(f"{file.name}:{number}: the last case has no answer")
    return sheet.cases


def play(file: Path, case: Case, program: str) -> None:
    """Asks the question; each of its answers has to be the wanted one."""
    for fields in case.asks:
        try:
            got = QUESTIONS[case.question].answer(Program(program), fields)
        except Fault as fault:
            got = str(fault)
        if got != case.wanted:
            said = "\n".join(f"{name} {text:.600}" for name, text in fields.items())
            what = f"{file.name}:{case.line}: {case.question}, of\n{said}"
            raise Wrong(f"{what}\n{difference(case.wanted, got)}")
