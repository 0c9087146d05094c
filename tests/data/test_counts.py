"""Nothing was lost of the files that are played: each is there, with as many answers, command lines, cases or steps as
the file `counts` beside it says."""
from collections.abc import Callable
from pathlib import Path
import pytest
from tests.players.cases import cases_of
from tests.players.lines import CommandLine, steps_of
from tests.players.scenario import Scenario
from tests.players.stops import Stops
from tests.players.texts import DATA, written_counts
from tests.wire import same

COUNTS: dict[str, tuple[str, Callable[[Path], int]]] = {
    "scenarios": (".scenario", lambda file: Scenario(file).count()),
    "lines": (".lines", lambda file: sum(isinstance(it, CommandLine) for it in steps_of(file))),
    "cases": (".cases", lambda file: len(cases_of(file))),
    "stops": (".stops", lambda file: len(Stops(file).steps)),
}


@pytest.mark.parametrize("folder", COUNTS)
def test_nothing_was_lost(folder: str) -> None:
    end, count = COUNTS[folder]
    files = [*(DATA / folder).glob(f"*{end}")]
    if folder == "scenarios":
        files += (DATA / "stops").glob("*.scenario")
    assert files
    both = {it.stem: count(it) for it in files}, written_counts(folder)
    found, written = ("\n".join(f"{name}: {its[name]}" for name in sorted(its)) for its in both)
    same(f"tests/data/{folder}/counts", found, written)
