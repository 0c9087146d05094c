"""The program `broker` on this machine: it judges what needs no broker that serves."""
import json, os, subprocess, tempfile
from typing import Dict, List, Optional

from holzhebo.api.sentences import PATTERN
from holzhebo.faults import DONE, NO, UNDONE, Stop
from holzhebo.files import write_file
from holzhebo.pact.findings import Fault, Findings
from holzhebo.pact.rules import PATTERNS
from holzhebo.text import reason, short, shown


SECONDS = 60


class Program:
    """The program `broker` on this machine: it judges what needs no broker that serves."""

    def __init__(self, path: str) -> None:
        self.path = path
        self.judged: Dict[str, bool] = {}

    def run(self, words: List[str], text: bytes = b"") -> "subprocess.CompletedProcess[bytes]":
        try:
            return subprocess.run([self.path, *words], input=text, capture_output=True, timeout=SECONDS)
        except subprocess.TimeoutExpired:
            raise Stop(f"{shown(self.path)} {words[0]} doesn't end within {SECONDS} seconds") from None
        except (OSError, ValueError) as why:
            raise Stop(f"{shown(self.path)} can't be run: {reason(why)}") from None

    def fault(self, content: bytes) -> Optional[str]:
        """The first fault of a pact file."""
        done = self.run(["normalise"], content)
        line = said_by(done)
        if done.returncode not in (DONE, UNDONE) or done.returncode and not line.startswith("pact "):
            raise Stop(f"{self.path} normalise ends with {done.returncode}: {short(line)}")
        return line if done.returncode else None

    def judge(self, pattern: str) -> Optional[bool]:
        """Whether a pattern by itself is taken."""
        if pattern not in self.judged:
            rules = {"body": {"$": {"matchers": [{"match": "regex", "regex": pattern}]}}}
            one = {"description": "", "request": {}, "response": {"matchingRules": rules}}
            pact = {"consumer": {"name": "a"}, "provider": {"name": "b"}, "interactions": [one]}
            self.judged[pattern] = self.fault(json.dumps(pact).encode()) is None
        return self.judged[pattern]

    def failing(self, pact: str, replies: str) -> List[int]:
        """Which interactions of a pact fail by recorded replies, as these texts have them."""
        with tempfile.TemporaryDirectory() as room:
            words = ["check"]
            for name, text in ("pact", pact), ("replies", replies):
                words += [f"--{name}", os.path.join(room, name)]
                write_file(words[-1], text)
            done = self.run(words)
        if done.returncode not in (DONE, NO):
            line = said_by(done)
            why = PATTERN if line == "check 2" else f"check ends with {done.returncode}: {short(line)}"
            raise Stop(f"{shown(self.path)}: {why}")
        said = done.stdout.split()
        if said[:1] != [b"pass" if done.returncode == DONE else b"fail"] or not all(it.isdigit() for it in said[1:]):
            raise Stop(f"{shown(self.path)} check says: {short(repr(done.stdout))}")
        return [int(it) for it in said[1:]]

    def normal(self, content: bytes) -> str:
        """The normal text of a pact file."""
        done = self.run(["normalise"], content)
        if done.returncode != DONE:
            raise Stop(f"{shown(self.path)} normalise: {short(said_by(done))}")
        return done.stdout.decode("utf-8", "replace")


def said_by(done: "subprocess.CompletedProcess[bytes]") -> str:
    return done.stderr.decode("utf-8", "replace").rstrip("\n")


def program_at(path: Optional[str]) -> Optional[Program]:
    """The program that is named here, or by HOLZHEBO_PROGRAM."""
    path = path or os.environ.get("HOLZHEBO_PROGRAM")
    return Program(path) if path else None


def with_first(found: Findings, line: Optional[str]) -> None:
    """The broker's first fault stands first, also one that was found by it alone."""
    if line is None or found.faults and found.faults[0].line == line:
        return
    what, remedy = "the broker finds this fault", "see docs/LIMITS.md"
    if line.startswith("pact 7.7"):
        what, remedy = "one of its patterns can't be used, or those of the file are too large together", PATTERNS
    found.faults.insert(0, Fault(line, "$", what, remedy))
