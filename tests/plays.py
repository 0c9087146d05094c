"""The files of tests/data that are played on the program: pytest collects each, on each of both builds, and each of its
plays is an item. The top of players/{scenario,lines,cases,stops}.py says what such a file has."""
import os
from collections.abc import Callable, Iterator
from functools import partial
from pathlib import Path
from typing import Any
import pytest
from tests.players import cases, lines, scenario, scenario_plays, stops, trials
from tests.wire import NotRun, Wrong

BUILDS = {"llvm": "", "by-rattle": ".by-rattle"}
# What plays an item, given the program.
Play = Callable[[str], object]


def built(config: pytest.Config, end: str = "") -> str:
    """The path of the built program, of the build that ends so."""
    path = str(config.getoption("program")) + end
    if not os.access(path, os.X_OK):
        raise NotRun(f"there is no program {path}")
    return path


def of_scenario(file: Path, turn: int) -> dict[str, Play]:
    read = scenario.Scenario(file)
    plays = scenario_plays.plays_of(read, turn, len(BUILDS))
    return {it.name(): partial(scenario_plays.play, read, it) for it in plays}


def of_lines(file: Path, _: int) -> dict[str, Play]:
    """The command lines of a file. They share a folder for each program, since each finds what those before it left."""
    folders: dict[str, lines.Folder] = {}

    def play(place: int, program: str) -> None:
        if program not in folders:
            folders[program] = lines.Folder(program, file)
        folders[program].play_to(place)

    found = enumerate(lines.steps_of(file))
    return {f"{it.number}: {it.text[:60]}": partial(play, at) for at, it in found if isinstance(it, lines.CommandLine)}


def of_cases(file: Path, _: int) -> dict[str, Play]:
    return {f"{it.line}: {it.question}": partial(cases.play, file, it) for it in cases.cases_of(file)}


def of_stops(file: Path, _: int) -> dict[str, Play]:
    return trials.plays_of(stops.Stops(file))


KINDS = {".scenario": of_scenario, ".lines": of_lines, ".cases": of_cases, ".stops": of_stops}


class PlayItem(pytest.Item):
    """A play of a file on a build of the program."""

    def __init__(self, *, build: str, play: Play, **more: Any) -> None:
        super().__init__(**more)
        self.build, self.play = build, play

    def runtest(self) -> None:
        self.play(built(self.config, BUILDS[self.build]))

    def repr_failure(self, excinfo: "pytest.ExceptionInfo[BaseException]", *_: Any) -> Any:
        """What is otherwise, without the lines of these files."""
        return str(excinfo.value) if excinfo.errisinstance(Wrong) else super().repr_failure(excinfo)

    def reportinfo(self) -> tuple[Path, None, str]:
        return self.path, None, f"{self.path.name} on the build {self.name}"


class PlayFile(pytest.File):
    """A file of plays."""

    def collect(self) -> Iterator[pytest.Item]:
        for turn, build in enumerate(BUILDS):
            for name, play in KINDS[self.path.suffix](self.path, turn).items():
                item = PlayItem.from_parent(self, name=f"{build}: {name}", build=build, play=play)
                if self.path.suffix == ".lines":
                    item.add_marker(pytest.mark.xdist_group(f"{self.path.name} {build}"))
                yield item


def file_of(path: Path, parent: pytest.Collector) -> pytest.Collector | None:
    """What collects the plays of this file, if it is one of plays."""
    return PlayFile.from_parent(parent, path=path) if path.suffix in KINDS else None
