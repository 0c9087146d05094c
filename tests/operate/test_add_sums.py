"""examples/add-sums.py: a copy with page sums of a file that has none answers as that does; and it is whole, or not there,
if the disk becomes full or the script is killed."""
import os
from concurrent.futures import ThreadPoolExecutor, wait
import pytest
from tests.operate.test_examples import asked
from tests.process import TOP, Server, ran, run
from tests.proxy import await_that
from tests.wire import same

pytestmark = pytest.mark.needs("sqlite3")


@pytest.fixture
def old(fleet: Server, room: str) -> str:
    """A file without sums, as an earlier program made it."""
    fleet.stop()
    run(["sqlite3", "-bail", f"{room}/old.db"], text=run(["sqlite3", "-bail", fleet.file, ".dump"]))
    same("reserved bytes", [reserved(fleet.file), reserved(f"{room}/old.db")], [8, 0])
    return f"{room}/old.db"


def reserved(file: str) -> int:
    """How many bytes at the end of each page are free for a sum: eight in a file with sums."""
    with open(file, "rb") as it:
        return it.read(21)[20]


def test_with_sums(program: str, old: str, room: str) -> None:
    """It and its copy with sums answer the same."""
    new = f"{room}/new.db"
    with Server(program, old) as server:
        before = asked(server)
    same("what is said", run(["examples/add-sums.py", old, new]), f"{new} holds the rows of {old}, with sums\n")
    run(["examples/add-sums.py", old, new], 1)
    same("reserved bytes of both", [reserved(old), reserved(new)], [0, 8])
    with Server(program, new) as server:
        same("answers with sums", asked(server), before)


@pytest.mark.parametrize("words", [[], ["old.db"], ["old.db", "new.db", "more"]], ids=len)
def test_words(words: list[str]) -> None:
    same("how it ends", ran([f"{TOP}/examples/add-sums.py", *words]), (1, "", "usage: add-sums.py FILE NEW\n"))


HALTED = """#!/bin/sh
case "$*" in *VACUUM*)
  if mkdir {room}/begun 2> /dev/null; then while [ ! -e {room}/seen ]; do sleep 0.01; done; fi ;;
esac
exec /usr/bin/sqlite3 "$@"
"""


def test_two_at_once(old: str, room: str) -> None:
    """One makes the copy; the other one waits for it, and finds it there."""
    os.mkdir(f"{room}/bin")
    with open(f"{room}/bin/sqlite3", "w", encoding="utf-8") as it:
        it.write(HALTED.format(room=room))
    os.chmod(f"{room}/bin/sqlite3", 0o755)
    words, env = [f"{TOP}/examples/add-sums.py", old, f"{room}/new.db"], {"PATH": f"{room}/bin:{os.environ['PATH']}"}
    with ThreadPoolExecutor(2) as workers:
        one = workers.submit(ran, words, env={**os.environ, **env})
        await_that(lambda: os.path.exists(f"{room}/begun") or one.done(), "the first one works")
        other = workers.submit(ran, words, env={**os.environ, **env})
        wait([other], 2)
        with open(f"{room}/seen", "w", encoding="ascii"):
            pass
        ended = [one.result(), other.result()]
    said = f"{old} isn't there, or {room}/new.db is there already\n"
    same("how they end", [(it.status, it.errors) for it in ended], [(0, ""), (1, said)])
    same("the rows of both", *(run(["sqlite3", "-bail", it, ".dump"]) for it in (old, f"{room}/new.db")))


@pytest.mark.needs("strace")
def test_in_the_middle(old: str, room: str) -> None:
    """A disk that takes no more, and a kill, as the sums are written: the copy isn't there, and the next run makes it."""
    new, there = f"{room}/new.db", set(os.listdir(room))
    # sqlite3 writes its files by another call.
    trace = ["strace", "-f", "-qq", "-o", f"{room}/trace", "-P", new, "-P", f"{new}.part", "-e", "trace=write"]
    for what, left in ("error=ENOSPC", set()), ("signal=KILL", {"new.db.part"}):
        ended = ran([*trace, "-e", f"inject=write:{what}:when=1", f"{TOP}/examples/add-sums.py", old, new])
        said = "" if left else f"{new} can't be made: No space left on device\n"
        same(what, (ended.status != 0, ended.output, ended.errors), (True, "", said))
        same(f"the files after {what}", set(os.listdir(room)) - there - {"trace"}, left)
    run(["examples/add-sums.py", old, new])
    same("the files", set(os.listdir(room)) - there - {"trace"}, {"new.db"})
