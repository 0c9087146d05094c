"""An audit that is killed changes nothing: it is ended by signal 9 at one of its calls on the broker's file or on its log
(stops.c), before the call is made. The bytes of both are those of before, also after the next opening, by which an
audit finds the same; and what was acknowledged is there."""
import contextlib, os, signal
from collections.abc import Iterator
import pytest
from tests.broker.parts import auditing, kept, question, unchanged
from tests.players.shims import library
from tests.process import Server, ran, text_of
from tests.wire import OFFICE, same
from tests.world import ALREADY, RED, fleet_file, folded

pytestmark = [pytest.mark.needs("cc"), pytest.mark.by_both]
# How many of the first calls, of the last ones and of those between them are the last for an audit.
FIRST, LAST, BETWEEN = 6, 12, 12
LATE = "PUT", "/pacticipants/shop/versions/late", RED


def without_log(file: str, log: str) -> None:
    """Removes the log without a row that an opening makes, if there is to be none."""
    if log == "no log":
        with contextlib.suppress(FileNotFoundError):
            os.remove(f"{file}-wal")


def filled(program: str, room: str, log: str) -> str:
    """The file of a broker, with the newest rows in its log or without a log."""
    file = fleet_file(program, room)
    folded(program, file)
    without_log(file, "no log")
    if log == "rows in the log":
        with Server(program, file) as server:
            server.do(*LATE)
            server.kill()
        assert os.path.getsize(f"{file}-wal") > 4096
    return file


def settings(file: str, room: str, **more: str) -> dict[str, str]:
    shim = {"LD_PRELOAD": library("stops"), "STOPS_FILE": file, "STOPS_KEPT": f"{room}/counts"}
    return {**os.environ, **shim, **more}


def counted(program: str, file: str, room: str) -> dict[str, int]:
    """How many calls an audit makes on each of the two files."""
    os.mkdir(f"{room}/counts")
    same("an audit", ran([program, *auditing(file)], env=settings(file, room)), (0, "", ""))
    of_database, _, of_log, _ = map(int, text_of(f"{room}/counts/calls").split())
    return {"database": of_database, "log": of_log}


def chosen(count: int) -> Iterator[int]:
    """So many of the calls, by how many come before each."""
    between = range(FIRST, max(FIRST, count - LAST), max(1, count // BETWEEN))
    yield from sorted({*range(min(FIRST, count)), *between, *range(max(0, count - LAST), count)})


@pytest.mark.parametrize("side", ["database", "log"])
@pytest.mark.parametrize("log", ["rows in the log", "no log"])
def test_a_killed_audit_changes_nothing(program: str, room: str, log: str, side: str) -> None:
    os.mkdir(f"{room}/broker")
    file = filled(program, f"{room}/broker", log)
    count = counted(program, file, room)[side]
    # With rows in the log some are read of it; else it is opened and found to be empty.
    assert count >= (40 if side == "database" else 10 if log == "rows in the log" else 1), count
    before, asked = kept(f"{room}/broker"), ran([program, *question(file, RED)])
    unchanged(f"{room}/broker", before)
    for passes in chosen(count):
        without_log(file, log)
        env = settings(file, room, STOPS_SIDE=side, STOPS_PASSES=str(passes), STOPS_KILLS="1")
        same(f"killed after {passes} calls", ran([program, *auditing(file)], env=env), (-signal.SIGKILL, "", ""))
        unchanged(f"{room}/broker", before)
        if passes % 3 == 0:
            same("the next audit", ran([program, *auditing(file)]), (0, "", ""))
            same("the next question", ran([program, *question(file, RED)]), asked)
            unchanged(f"{room}/broker", before)
    with Server(program, file) as server:
        if log == "rows in the log":
            server.gives((200, ALREADY), *LATE)
        server.gives((200, ALREADY), "PUT", "/teams/red", OFFICE, '{"token":"%s"}' % RED)
