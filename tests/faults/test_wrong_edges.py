"""That the tests see a program whose edge is wrong: where it takes words, bytes, peers and time from the system, and
hands bytes back. No contract speaks of these lines (docs/READ.md), so a program that is wrong there is proved as well.
Each of these gives the built program the effect of one such line, by a library that comes before the C library's calls
(edge.c) or by a script in its place, and a test, run on it, has to fail."""
import os, subprocess
from typing import NamedTuple
import pytest
from tests.players.shims import library
from tests.process import TOP
from tests.wire import Wrong

pytestmark = [pytest.mark.needs("cc", "sh")]
PYTEST = ["/usr/bin/python3", "-m", "pytest"]
USUAL = ["-q", "-x", "--color", "no"]
SOCKETS, FLOODS, LINES = "tests/broker/test_sockets.py", "tests/faults/test_floods.py", "tests/data/lines"
AS_IT_IS = 'exec "$program" "$@"'


class Wrongly(NamedTuple):
    """The tests that see it: a file, and an expression that chooses some of it; the script that is run as the program,
    for $program; and in how many runs they see it at least once: more than one, if whether bytes are there before they
    are asked for decides it, since that depends on what else the machine does."""

    file: str
    only: str
    script: str = AS_IT_IS
    runs: int = 1


COUNTED = SOCKETS, "test_connections_are_counted"
SEVERAL = SOCKETS, "test_a_connection_of_several_requests_is_one"
# By the names that edge.c knows.
CALLS = {
    "last-byte-is-lost": Wrongly(*COUNTED),
    "bytes-are-turned": Wrongly(*COUNTED),
    "first-byte-twice": Wrongly("tests/data/scenarios/runs.scenario", "llvm"),
    "half-is-sent": Wrongly(*COUNTED),
    "each-second-is-lost": Wrongly(*SEVERAL),
    "what-is-seen-is-lost": Wrongly(*COUNTED),
    "nothing-is-seen": Wrongly(FLOODS, "silent and llvm"),
    "all-are-ready": Wrongly(FLOODS, "silent and llvm"),
    "no-read-waits": Wrongly("tests/faults/test_through_nginx.py", "kept", runs=3),
    "the-door-never-waits": Wrongly(*SEVERAL),
    "each-file-is-there": Wrongly(f"{LINES}/serve.lines", "llvm"),
    "each-address": Wrongly(SOCKETS, "test_only_loopback_is_listened_on"),
    "time-stands": Wrongly(FLOODS, "three and llvm", runs=3),
    "time-runs": Wrongly("tests/faults/test_slow_peers.py", "cut"),
    "input-lacks-a-byte": Wrongly(f"{LINES}/normalise.lines", "llvm"),
    "output-is-lost": Wrongly(f"{LINES}/can-i-deploy.lines", "llvm"),
    "output-on-errors": Wrongly(f"{LINES}/can-i-deploy.lines", "llvm"),
    "errors-are-lost": Wrongly(f"{LINES}/opening.lines", "llvm"),
}
SCRIPTS = {
    "words beyond eight are lost": Wrongly(
        f"{LINES}/can-i-deploy.lines", "llvm", 'exec "$program" "$1" "$2" "$3" "$4" "$5" "$6" "$7" "$8"'
    ),
    "empty words are dropped": Wrongly(
        f"{LINES}/can-i-deploy.lines", "llvm", 'for it; do shift; [ -z "$it" ] || set -- "$@" "$it"; done; exec "$program" "$@"'
    ),
    "each command is run twice": Wrongly(f"{LINES}/init.lines", "llvm", '"$program" "$@"; exec "$program" "$@"'),
    "the status is always 0": Wrongly(f"{LINES}/opening.lines", "llvm", '"$program" "$@"; exit 0'),
    "the words are on standard error": Wrongly(f"{LINES}/init.lines", "llvm", f'echo "$@" >&2; {AS_IT_IS}'),
    "the words are on standard output": Wrongly(f"{LINES}/init.lines", "llvm", f'echo "$@"; {AS_IT_IS}'),
    "another file is taken": Wrongly(
        f"{LINES}/opening.lines", "llvm", 'for it; do shift; set -- "$@" "${it%.db}"; done; exec "$program" "$@"'
    ),
    "standard input is a file's": Wrongly(f"{LINES}/normalise.lines", "llvm", 'exec "$program" "$@" < /dev/null'),
}


def program_with(program: str, room: str, script: str, wrong: str = "") -> str:
    """A program in this folder that is run as this script, on both builds' paths."""
    library_of = f"export LD_PRELOAD={library('edge')} WRONG_EDGE={wrong}\n" if wrong else ""
    for end in "", ".by-rattle":
        path = f"{room}/broker{end}"
        with open(path, "w", encoding="utf-8") as it:
            it.write(f"#!/bin/sh\nprogram={program}{end}\n{library_of}{script}\n")
        os.chmod(path, 0o755)
    return f"{room}/broker"


def tried(program: str, room: str, seen_by: Wrongly) -> "subprocess.CompletedProcess[str]":
    """Runs the tests on this program."""
    words = [*PYTEST, seen_by.file, "-k", seen_by.only, f"--program={program}", *USUAL]
    words += ["-o", f"cache_dir={room}/cache", "--basetemp", f"{room}/tests"]
    return subprocess.run(words, cwd=TOP, capture_output=True, text=True, timeout=300, check=False)


def has_to_end(ran: "subprocess.CompletedProcess[str]", status: int) -> None:
    """Pytest ends with 1 if tests were run, and one failed."""
    if ran.returncode != status:
        raise Wrong(f"pytest ends with {ran.returncode} and not {status}:\n{ran.stdout[-3000:]}{ran.stderr[-1000:]}")


@pytest.mark.parametrize("wrong", CALLS)
def test_a_wrong_call_is_seen(program: str, room: str, wrong: str) -> None:
    seen_by, path = CALLS[wrong], program_with(program, room, AS_IT_IS, wrong)
    ran = tried(path, room, seen_by)
    for _ in range(1, seen_by.runs):
        if ran.returncode == 0:
            ran = tried(path, room, seen_by)
    has_to_end(ran, 1)


@pytest.mark.parametrize("wrong", SCRIPTS)
def test_a_wrong_start_is_seen(program: str, room: str, wrong: str) -> None:
    has_to_end(tried(program_with(program, room, SCRIPTS[wrong].script), room, SCRIPTS[wrong]), 1)


# What sees them; the floods pass on a right program by themselves, in half a minute.
SEEN_BY = dict.fromkeys((it.file, it.only) for it in (*CALLS.values(), *SCRIPTS.values()) if it.file != FLOODS)


@pytest.mark.parametrize("seen_by", SEEN_BY, ids=" ".join)
def test_they_pass_if_nothing_is_wrong(program: str, room: str, seen_by: tuple[str, str]) -> None:
    has_to_end(tried(program_with(program, room, AS_IT_IS, "nothing"), room, Wrongly(*seen_by)), 0)
