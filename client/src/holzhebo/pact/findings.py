"""What is found in a pact file."""
from typing import Callable, List, NamedTuple, Optional, Tuple

from holzhebo.faults import Json
from holzhebo.pact.json import kind

MOST_BYTES = 1048576
VERSION_3 = (
    "write a file of version 3: `PactV3` in pact-js, `PactSpecVersion.V3` in pact-jvm, `NewV3Pact` in pact-go,"
    ' `with_specification("V3")` in pact-python'
)


class Fault(NamedTuple):
    """A fault: the broker's line for it, where it is, what is wrong there, and what to write instead."""

    line: str
    path: str
    what: str
    remedy: str


Judge = Callable[[str], Optional[bool]]  # whether the broker takes a pattern, None if that can't be said


class Findings:
    """What is found in a pact file."""

    def __init__(self, judge: Judge) -> None:
        self.judge = judge
        self.faults: List[Fault] = []
        self.unjudged: List[Tuple[str, str]] = []
        self.idle: List[Tuple[str, str]] = []  # where something has no effect, and why

    def fault(self, number: str, path: str, what: str, remedy: str) -> None:
        self.faults.append(Fault(f"pact {number}", path, what, remedy))

    def shape(self, place: str, value: Json, remedy: str, path: str = "") -> None:
        """The value at this place has another shape."""
        self.fault(f"3 {place}", path or f"$.{place}", f"it is {kind(value)}", remedy)
