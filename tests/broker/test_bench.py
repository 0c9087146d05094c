"""That the scripts of bench/ which ask a built program print their tables, of small files."""
import sys
from tests.process import run
from tests.wire import same


def test_capacity(program: str, room: str) -> None:
    """Its tables, of a small file without sums and with them."""
    rows = run([sys.executable, "bench/capacity.py", program, "20"], env={"TMPDIR": room}).split("\n")
    begins = "| 20 | no |", "| 20 | yes |", "| can-i-deploy |"
    same("rows", [len([it for it in rows if it.startswith(begin)]) for begin in begins], [1, 1, 1])


def test_shared(program: str, room: str) -> None:
    """Its rows of small files: results with a run each, and without."""
    rows = run([sys.executable, "bench/shared.py", program, "500"], env={"TMPDIR": room}).split("\n")
    found = [it for it in rows if it.startswith(("| 500 | each |", "| 500 | none |"))]
    same("rows", [it.count("|") for it in found], [12, 12])
