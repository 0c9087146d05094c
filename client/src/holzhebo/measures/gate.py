"""What today's gate would refuse of what is in the environments, by the newest copy of the file."""
import os, re, tempfile
from typing import Dict, Optional

from holzhebo.measures.measure import Measure, Number, label
from holzhebo.report.board import refusals
from holzhebo.report.copy import Copy

NAME = "refused_versions"
ABOUT = "Versions in a gated environment that its gate would refuse today, by the newest copy"
LINE = re.compile(rf'broker_{NAME}{{(environment=".*")}} (\d+)')


def mark_of(path: str) -> str:
    """A comment that names a copy, so that the next run knows whether it is the same."""
    about = os.stat(path)
    return f"# {NAME} of {path!a}, {about.st_size} bytes, {about.st_mtime_ns}"


def refused_in(path: str) -> Dict[str, Number]:
    """How many versions would be refused, of each gated environment."""
    with tempfile.TemporaryDirectory() as room:
        copy = Copy(path, room)
        return {label("environment", it.name): len(refusals(copy, it)) for it in copy.environments if it.gated}


def written_before(output: Optional[str], mark: str) -> Optional[Dict[str, Number]]:
    """What the file of measures says of the same copy, since reading a large one takes seconds."""
    if output is None or not os.path.isfile(output):
        return None
    with open(output, encoding="utf-8", errors="replace") as it:
        lines = it.read().split("\n")
    found = [it for it in map(LINE.fullmatch, lines) if it]
    return {it[1]: int(it[2]) for it in found} if mark in lines else None


def of_gate(path: str, output: Optional[str], mark: str) -> Measure:
    found = written_before(output, mark)
    return Measure(NAME, "gauge", ABOUT, refused_in(path) if found is None else found)
