"""examples/keep-copies.sh, killed at each of its calls that change a file, or while the broker is stopped: the broker
goes on, a copy is whole or not there, and the next run makes one and removes what is left. And one that nobody ends,
which reports nothing wrong."""
import os, signal, subprocess, time
import pytest
from tests.operate.halts import halted, halting
from tests.operate.scripts import HALT, await_halt, goes_on, keep, keep_words, names, quick
from tests.operate.service import Service, only, read
from tests.process import ran, run
from tests.proxy import await_that
from tests.wire import same
from tests.world import RED

pytestmark = pytest.mark.needs("curl", "sqlite3")
CHANGING = ["cp", "rm", "mktemp", "ln", "mv", "sync"]


@pytest.mark.first
@pytest.mark.root
def test_killed_at_each_call(service: Service) -> None:
    words = [f"{quick(service)}/keep-copies.sh", *keep_words(service, 2)[1:]]
    halting(service, CHANGING)
    calls, paused = 0, 0
    for at, status in halted(service, words, "kill"):
        calls = at
        assert status < 0, (at, status)
        paused += service.state() == "T"
        goes_on(service, 20)
        for name in [it for it in names(service) if it.endswith(".db")]:
            run(["examples/test-copy.sh", service.program, f"{service.room}/backup/{name}"])
        run(words, 0, service.env)
        same(f"what is left after {at}", [it for it in names(service) if not it.endswith(".db")], [])
        only(service.folder, ["broker.db", "broker.db-wal"])
        same("an answer", service.ask("GET", "/environments/live", RED).status, 200)
    assert calls > 10 and paused > 0, (calls, paused)


@pytest.mark.parametrize("what", ["the script", "its group"])
def test_killed_in_the_pause(service: Service, what: str) -> None:
    """By signal 9, while the broker is stopped: it goes on; what is left is removed by the next run."""
    service.tool("cp", HALT.format(room=service.room))
    env = {**os.environ, **service.env}
    it = subprocess.Popen(keep_words(service), env=env, text=True, start_new_session=True)
    await_halt(service, it)
    same("the state in the pause", service.state(), "T")
    if what == "the script":
        os.kill(child(it.pid, "backup.sh"), signal.SIGKILL)
    else:
        os.killpg(it.pid, signal.SIGKILL)
    goes_on(service, 20)
    it.wait(60)
    for left in sleeping(service):
        os.kill(left, signal.SIGKILL)
    os.remove(f"{service.room}/bin/cp")
    keep(service)
    same("what is in the folder", [len(names(service)), names(service)[0][:11]], [1, "broker-2026"])


def child(pid: int, name: str) -> int:
    """The process that it has started, itself or by `timeout`, and that runs this script."""
    with open(f"/proc/{pid}/task/{pid}/children", encoding="ascii") as it:
        for number in it.read().split():
            words = read(f"/proc/{number}/cmdline").split("\0")
            if words[0] == "timeout":
                return child(int(number), name)
            if any(word.endswith(name) for word in words[:2]):
                return int(number)
    raise AssertionError(f"{pid} has no {name}")


def sleeping(service: Service) -> list[int]:
    """The processes that a halted cp has become: they were started with this room in their environment."""
    found = []
    for it in [it for it in os.listdir("/proc") if it.isdigit()]:
        try:
            with open(f"/proc/{it}/environ", "rb") as env, open(f"/proc/{it}/cmdline", "rb") as line:
                if line.read() == b"sleep\x0060\x00" and service.room.encode() in env.read():
                    found.append(int(it))
        except OSError:
            pass
    return found


def test_killed_at_the_page(service: Service) -> None:
    """By signal 9, as nightly.sh makes its page: what is left is removed by the next run, and the page is there."""
    page, report = f"{service.room}/report.html", f"{service.room}/tools/report"
    words = [f"{quick(service)}/nightly.sh", *keep_words(service)[1:-1], page, "broker"]
    os.mkdir(os.path.dirname(report))
    for text, status in (HALT.format(room=service.room), -signal.SIGKILL), ("#!/bin/sh\necho done\n", 0):
        with open(report, "w", encoding="ascii") as it:
            it.write(text)
        os.chmod(report, 0o755)
        with subprocess.Popen(words, env={**os.environ, **service.env}, start_new_session=True) as night:
            if status:
                await_that(lambda: os.path.exists(f"{service.room}/halted") or night.poll() is not None, "it is begun")
                os.killpg(night.pid, signal.SIGKILL)
            same("how it ends", night.wait(60), status)
    same("the page", read(page), "done\n")
    same("what is left", [it for it in os.listdir(service.room) if it.startswith("report.html.")], [])


def test_left(service: Service) -> None:
    """What killed runs left is removed by the next one; what another one works in isn't."""
    folder = f"{service.room}/backup"
    copy = "broker-2026-11-27T020000Z.db.part"
    for name in f"{copy}.abcdef", f"{copy}.used00", "mine.part.abcdef":
        os.mkdir(f"{folder}/{name}")
        with open(f"{folder}/{name}/part.db", "w", encoding="ascii"):
            pass
    os.mkdir(f"{service.folder}/broker.db.copying.abcdef")
    with subprocess.Popen(["flock", f"{folder}/{copy}.used00", "sleep", "60"]) as used:
        time.sleep(0.2)
        keep(service)
        used.terminate()
    same("what stays", [it for it in names(service) if ".part." in it], [f"{copy}.used00", "mine.part.abcdef"])
    only(service.folder, ["broker.db", "broker.db-wal"])


def test_nothing_is_wrong(service: Service) -> None:
    """With fewer copies than are kept, as many, and more."""
    for _ in range(3):
        ended = ran(keep_words(service, 2), env={**os.environ, **service.env})
        same("how it ends", (ended.status, ended.errors), (0, ""))
    same("how many there are", len(names(service)), 2)
