"""The types of the scripts and of the tests are written, and right; what users run is tried as Python 3.9 has it. The
tests have no name that nothing uses, and no long module."""
import ast
from pathlib import Path
import pytest
from tests.process import TOP, run

pytestmark = [pytest.mark.needs("mypy"), pytest.mark.first]
# What it found of a file is kept, until the file or one that it needs changes.
MYPY = ["/usr/bin/python3", "-m", "mypy", "--strict", "--scripts-are-modules", "--cache-dir", "out/mypy"]
# What Python 3.9 has to run.
OLDEST = ["client/src/holzhebo", "client/hatch_build.py", "client/pages.py", "client/zip", "tools/report", "tools/run.py"]


def test_the_scripts_of_users() -> None:
    run([*MYPY, "--python-version", "3.9", *OLDEST])


def test_the_tests() -> None:
    run([*MYPY, "tests"])


@pytest.mark.needs("pyflakes3")
def test_the_names_of_the_tests() -> None:
    run(["pyflakes3", "tests", "ci/pytests.py", "ci/suite.py"])


def test_the_modules_of_the_tests() -> None:
    """None has over 300 lines, or reads the words of a command line as it is imported."""
    for file in Path(TOP, "tests").rglob("*.py"):
        text = file.read_text(encoding="utf-8")
        assert text.count("\n") <= 300, file
        done = [it for it in ast.parse(text).body if not isinstance(it, (ast.FunctionDef, ast.ClassDef, ast.If))]
        names = {node.attr for it in done for node in ast.walk(it) if isinstance(node, ast.Attribute)}
        assert "argv" not in names, file
