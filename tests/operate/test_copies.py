"""Copies of a broker's file by examples/backup.sh, keep-copies.sh and nightly.sh, in bad nights: two at once, a clock
that jumps, a folder that is a link, a slow folder, and a program of the machine that keeps a port busy. The broker is
never left stopped, and a new copy is never removed."""
import os, tempfile, threading, time
from collections.abc import Iterator
import pytest
from tests.operate.scripts import await_halt, edited, goes_on, keep, keep_words, names, set_clock
from tests.operate.service import Service, only, read
from tests.players.files import statements
from tests.process import TOP, run
from tests.wire import same
from tests.world import RED

pytestmark = pytest.mark.needs("curl", "sqlite3")


@pytest.mark.parametrize("text", ["", "UPDATE results SET run = char(9) || '9' WHERE number = 2"])
def test_night(service: Service, text: str) -> None:
    """There are a copy, a page, and nothing else. If a row of the copy breaks a rule, that is said, with status 1."""
    service.systemctl("stop")
    statements(service.file, text)
    service.start()
    folder, page = f"{service.room}/backup", f"{service.room}/report.html"
    it = service.begin(["examples/nightly.sh", service.program, service.file, folder, "3", page, "broker"])
    said = it.communicate()[0].splitlines()
    (copy,) = names(service)
    line = f"the audit of {folder}/{copy} ends with 1: results, row 2: a gap in the numbers, or no run"
    same("how it ends", (it.returncode, said[1:]), (1, [line]) if text else (0, []))
    assert read(page).startswith("<!"), "no page is made"
    same("what is left", [it for it in os.listdir(service.room) if it.startswith("report.html.")], [])


def test_two_at_once(service: Service) -> None:
    """As two timers start them: each waits for the other, and both have a copy."""
    for _ in range(4):
        both = [service.begin(keep_words(service, 100)) for _ in range(2)]
        said = [it.communicate()[0] for it in both]
        same("how they end", ([it.returncode for it in both], said[0] + said[1]), ([0, 0], said[0] + said[1]))
    same("how many copies there are", len(names(service)), 8)
    same("whether the broker goes on", service.state() != "T", True)


def test_copy_and_restore_at_once(service: Service) -> None:
    copy = service.backup("0.db")
    for _ in range(3):
        both = [service.begin(service.restore_words(copy)), service.begin(keep_words(service, 100))]
        said = [it.communicate()[0] for it in both]
        same("how they end", ([it.returncode for it in both], said), ([0, 0], said))
    same("how many copies there are", len(names(service)), 4)


def test_clock_jumps(service: Service) -> None:
    """The copy that was made stays, though its date is before those of others; that is said, and ends with 1."""
    for date, status, there in [
        ("2026-11-28T020000Z", 0, ["28T020000"]),
        ("2026-11-28T020500Z", 0, ["28T020000", "28T020500"]),
        ("2026-11-28T021000Z", 0, ["28T020500", "28T021000"]),
        ("2026-11-27T020000Z", 1, ["27T020000", "28T020500", "28T021000"]),
        ("2026-11-27T020500Z", 1, ["27T020000", "27T020500", "28T020500", "28T021000"]),
        ("2026-11-27T021000Z", 1, ["27T020500", "27T021000", "28T020500", "28T021000"]),
        ("2026-11-28T021500Z", 0, ["28T021000", "28T021500"]),
    ]:
        set_clock(service, date)
        keep(service, 2, status)
        same(f"the copies at {date}", names(service), [f"broker-2026-11-{it}Z.db" for it in there])


def test_date_to_come(service: Service) -> None:
    """A copy of a far date takes nobody's place; and a second machine doesn't take it for the newest."""
    with open(f"{service.room}/backup/broker-2099-01-01T000000Z.db", "w", encoding="ascii"):
        pass
    for _ in range(2):
        before = set(names(service))
        keep(service, 1, 1)
        same("new copies", len(set(names(service)) - before), 1)
        same("copies in all", len(names(service)), 2)


def test_same_second(service: Service) -> None:
    """A name that is taken isn't used again: the script waits for the next second."""
    set_clock(service, "2026-11-28T020000Z")
    keep(service)
    it = service.begin(keep_words(service))
    time.sleep(0.5)
    same("whether it waits", it.poll(), None)
    set_clock(service, "2026-11-28T020001Z")
    same("its end", it.wait(60), 0)
    only(f"{service.room}/backup", ["broker-2026-11-28T020000Z.db", "broker-2026-11-28T020001Z.db"])


def test_earlier_names(service: Service) -> None:
    """Copies of an earlier program, with colons in their names, are counted with the others, by their dates."""
    for it in "broker-2026-11-27T02:00:00Z.db", "broker-2026-11-27T03:00:00Z.db", "broker-of-old.db":
        with open(f"{service.room}/backup/{it}", "w", encoding="ascii"):
            pass
    set_clock(service, "2026-11-27T023000Z")
    keep(service, 2, 1)
    earlier = ["broker-2026-11-27T02:00:00Z.db", "broker-2026-11-27T03:00:00Z.db", "broker-of-old.db"]
    only(f"{service.room}/backup", ["broker-2026-11-27T023000Z.db", *earlier])
    set_clock(service, "2026-11-27T040000Z")
    keep(service, 2)
    only(f"{service.room}/backup", ["broker-2026-11-27T040000Z.db", *earlier[1:]])


def test_linked_folder(service: Service) -> None:
    """A folder that is a link to another disk is cleared as any other."""
    link = f"{service.room}/link"
    os.symlink(f"{service.room}/backup", link)
    for hour in "01", "02", "03":
        set_clock(service, f"2026-11-28T{hour}0000Z")
        keep(service, 2, 0, link)
    same("the copies", names(service), [f"broker-2026-11-28T{it}0000Z.db" for it in ("02", "03")])


def test_named_like_an_option(service: Service) -> None:
    """A folder whose name begins with - is cleared as any other, and a page is made of what is in it."""
    os.mkdir(f"{service.room}/-x", 0o700)
    words = [f"{TOP}/examples/nightly.sh", service.program, service.file, "-x", "2", "-page", "broker"]
    for hour in "01", "02", "03":
        set_clock(service, f"2026-11-28T{hour}0000Z")
        run(["env", "-C", service.room, *words], 0, service.env)
    only(f"{service.room}/-x", [f"broker-2026-11-28T{it}0000Z.db" for it in ("02", "03")])
    assert read(f"{service.room}/-page").startswith("<!"), "no page is made"


SLOW = """#!/bin/sh
for last; do :; done
case $last in {slow}/*) sleep 2 ;; esac
exec /usr/bin/cp "$@"
"""


@pytest.fixture
def other_disk() -> Iterator[str]:
    with tempfile.TemporaryDirectory(dir="/dev/shm") as it:
        yield it


@pytest.mark.timing
def test_slow_folder(service: Service, other_disk: str) -> None:
    """A slow disk of the copies doesn't keep the broker waiting."""
    service.tool("cp", SLOW.format(slow=other_disk))
    waits, ends = [], threading.Event()

    def ask() -> None:
        while not ends.is_set():
            began = time.monotonic()
            service.ask("GET", "/environments/live", RED)
            waits.append(time.monotonic() - began)
            time.sleep(0.02)

    asking = threading.Thread(target=ask)
    asking.start()
    began = time.monotonic()
    keep(service, 3, 0, other_disk)
    took = time.monotonic() - began
    ends.set()
    asking.join()
    assert took > 2, took
    assert max(waits) < 1.9, max(waits)
    only(service.folder, ["broker.db", "broker.db-wal"])


def test_copying_without_an_end(service: Service) -> None:
    """The broker goes on after a while, and there is no copy."""
    script = edited(service, "backup.sh", "seq 300", "seq 15")
    service.tool("cp", f'#!/bin/sh\n: > {service.room}/halted\nsleep 15\nexec /usr/bin/cp "$@"\n')
    it = service.begin([script, service.program, service.file, f"{service.room}/backup/0.db", "broker"])
    await_halt(service, it)
    goes_on(service, 12)
    same("its end", it.wait(60), 1)
    only(f"{service.room}/backup", [])


SILENT = """#!/bin/sh
if [ "$1" = serve ] && [ ! -e {room}/hung ]; then
  : > {room}/hung
  for at; do [ "$last" = --listen ] && port=${{at##*:}}; last=$at; done
  exec /usr/bin/python3 -c 'import socket, sys, time
it = socket.create_server(("127.0.0.1", int(sys.argv[1])))
time.sleep(60)' "$port"
fi
exec {program} "$@"
"""


@pytest.mark.timing
def test_silent_connection(service: Service) -> None:
    """Somebody who takes the one connection of the copy, and is silent, costs some seconds and no copy."""
    script = edited(service, "backup.sh", "seq 500", "seq 50")
    program = service.tool("silent", SILENT.format(room=service.room, program=service.program))
    began = time.monotonic()
    run([script, program, service.file, f"{service.room}/backup/0.db", "broker"], 0, service.env)
    assert os.path.exists(f"{service.room}/hung")
    assert time.monotonic() - began < 50
    only(f"{service.room}/backup", ["0.db"])


def test_acknowledged(service: Service) -> None:
    """Copies one after another while a client writes: each has all that was acknowledged before it."""
    done: list[int] = []
    ends = threading.Event()

    def write() -> None:
        while not ends.is_set():
            service.do("PUT", f"/pacticipants/shop/versions/build-{len(done)}", RED)
            done.append(len(done))

    writing = threading.Thread(target=write)
    writing.start()
    seen = []
    for at in range(3):
        seen.append(len(done))
        service.backup(f"{at}.db")
    ends.set()
    writing.join()
    for at, count in enumerate(seen):
        query = "SELECT count(*) FROM versions WHERE version LIKE 'build-%'"
        there = int(run(["sqlite3", f"{service.room}/backup/{at}.db", query]))
        assert there >= count, (at, there, count)
    assert seen[-1] > seen[0], seen
