"""What examples/restore.sh must never lose: the file that was there, whatever comes between. Two restores at once and
one after another, with a clock that doesn't move; killed at each call, or with a call that fails; and a program of the
service's own user, which puts links into the folder."""
import os, re, shutil, subprocess, sys, time
import pytest
from tests.operate.halts import halted, halting, signalled_as_it_ends
from tests.operate.scripts import quick, set_clock
from tests.operate.service import NOBODY, Service, content, only
from tests.process import await_port, ran, run, text_of
from tests.wire import same
from tests.world import RED

pytestmark = pytest.mark.needs("curl", "sqlite3")
MUTATING = ["mv", "rm", "rmdir", "mkdir", "mktemp", "cat", "sync"]


def copies_of(service: Service, count: int) -> list[str]:
    """Different copies."""
    made = []
    for at in range(count):
        service.do("PUT", f"/pacticipants/shop/versions/copy{at}", RED)
        made.append(service.backup(f"{at}.db"))
    return made


def pair(folder: str) -> tuple[bytes, bytes]:
    """The file and its log there."""
    found = content(folder)
    return found.get("broker.db", b""), found.get("broker.db-wal", b"")


def bytes_of(copy: str) -> tuple[bytes, bytes]:
    with open(copy, "rb") as it:
        return it.read(), b""


def kept_pairs(service: Service) -> list[tuple[bytes, bytes]]:
    return [(it.get("broker.db", b""), it.get("broker.db-wal", b"")) for it in service.kept()]


def words_of(service: Service, copy: str) -> list[str]:
    return ["examples/restore.sh", service.program, copy, service.file]


def test_one_after_another(service: Service) -> None:
    """Three in one second, by a clock that doesn't move: all that was there is kept."""
    copies = copies_of(service, 3)
    service.lose_power()
    set_clock(service, "2026-11-28T020000Z")
    there = [pair(service.folder)]
    assert there[0][1], "the log is empty"
    for copy in copies:
        run(words_of(service, copy), 0, service.env)
        there.append(bytes_of(copy))
    same("the file", pair(service.folder) == there[-1], True)
    same("what is kept", sorted(kept_pairs(service)) == sorted(there[:-1]), True)


def test_two_at_once(service: Service) -> None:
    """Each waits for the other: both end well, and nothing is lost."""
    copies = copies_of(service, 2)
    service.lose_power()
    first = pair(service.folder)
    for _ in range(6):
        ends = [it.wait() for it in [service.begin(words_of(service, copy)) for copy in copies]]
        same("how they end", ends, [0, 0])
        last = pair(service.folder)
        others = [bytes_of(it) for it in copies if bytes_of(it) != last]
        same("the file is one of the copies", len(others), 1)
        kept = kept_pairs(service)
        assert first in kept and others[0] in kept, [len(it[0]) for it in kept]
        assert all(it[0] for it in kept), "a log without its file"
        for name in os.listdir(service.folder):
            if ".before-" in name:
                shutil.rmtree(f"{service.folder}/{name}")
        first = last


def as_before(service: Service, first: tuple[bytes, bytes], copy: tuple[bytes, bytes]) -> None:
    """The file is the one of before with its log, or the new one and what was there is kept: never half of one."""
    now, kept = pair(service.folder), kept_pairs(service)
    if now == first:
        same("what is kept beside the file of before", kept, [])
    else:
        same("the file", now == copy, True)
        same("what is kept", kept == [first], True)


def reset(service: Service, first: tuple[bytes, bytes]) -> None:
    shutil.rmtree(service.folder)
    os.mkdir(service.folder, 0o700)
    for end, text in zip(("", "-wal"), first):
        with open(service.file + end, "wb") as it:
            it.write(text)
        os.chown(service.file + end, NOBODY, NOBODY)
    os.chown(service.folder, NOBODY, NOBODY)


@pytest.mark.first
@pytest.mark.root
@pytest.mark.parametrize("with_log", [False, True])
def test_killed_at_each_call(service: Service, with_log: bool) -> None:
    """Then the next run, of the same copy, ends well; what was there is kept, whole, once."""
    source = copies_of(service, 1)[0]
    service.lose_power()
    first = pair(service.folder)
    if with_log:
        shutil.copy(f"{service.folder}/broker.db-wal", f"{source}-wal")
    copy = bytes_of(source)[0], content(os.path.dirname(source)).get("0.db-wal", b"")
    words = [f"{quick(service)}/restore.sh", *words_of(service, source)[1:]]
    halting(service, MUTATING)
    calls, states = 0, set()
    for at, status in halted(service, words, "kill"):
        calls = at
        assert status < 0, (at, status)
        states.add((pair(service.folder) == first, os.path.exists(service.file), pair(service.folder) == copy))
        run(words, 0, service.env)
        same(f"the file, killed at {at}", pair(service.folder) == copy, True)
        kept = kept_pairs(service)
        assert first in kept and all(it in (first, copy) for it in kept), (at, [(len(a), len(b)) for a, b in kept])
        same("what else is in the folder", [it for it in os.listdir(service.folder) if "restoring" in it], [])
        reset(service, first)
    same("a run that is not killed", pair(service.folder) == copy or pair(service.folder) == first, True)
    assert calls > 12 and len(states) >= 3, (calls, states)


@pytest.mark.root
def test_failing_at_each_call(service: Service) -> None:
    """A call that fails: it ends with 1, and all is as before, or it is restored and what was there is kept."""
    source = copies_of(service, 1)[0]
    service.lose_power()
    first, copy = pair(service.folder), bytes_of(source)
    words = [f"{quick(service)}/restore.sh", *words_of(service, source)[1:]]
    halting(service, MUTATING)
    ends = []
    for at, status in halted(service, words, "fail"):
        ends.append(status)
        assert status in (0, 1), (at, status)
        as_before(service, first, copy)
        assert status == 1 or pair(service.folder) == copy, at
        reset(service, first)
    assert ends.count(1) > 8, ends


def test_in_the_middle(service: Service) -> None:
    """By a signal while the service is stopped, it is as it was and served again."""
    before, copy = service.answers(), service.backup("0.db")
    service.do("POST", "/environments/live/deployments", RED, '{"pacticipant":"shop","version":"1"}')
    last = service.answers()
    assert before != last
    service.tool("mv", '#!/bin/sh\n: > %s/reached\nsleep 1000 & wait\n' % service.room)
    os.chmod(service.room, 0o777)
    it = service.begin(service.restore_words(copy))
    while not os.path.exists(f"{service.room}/reached"):
        assert it.poll() is None, it.communicate()
        time.sleep(0.02)
    assert not service.is_served()
    os.remove(f"{service.room}/bin/mv")
    subprocess.run(["pkill", "-TERM", "-P", str(it.pid)], check=False)
    it.terminate()
    same("its status", it.wait(60), 1)
    for _ in range(200):
        if service.is_served():
            break
        time.sleep(0.05)
    same("the answers", service.answers(), last)
    same("what is kept", service.kept(), [])
    only(service.folder, ["broker.db", "broker.db-wal"])


def test_signalled_as_it_ends(service: Service) -> None:
    """A step fails while the service is stopped, and a signal comes as it begins to clean up: it does so all the same."""
    copy = service.backup("0.db")
    service.do("POST", "/environments/live/deployments", RED, '{"pacticipant":"shop","version":"1"}')
    last = service.answers()
    service.tool("mkdir", '#!/bin/sh\n[ "$1" != old ] || exit 1\nexec /usr/bin/mkdir "$@"\n')
    run(service.restore_words(copy), 1, {**service.env, **signalled_as_it_ends(service.room, "restore.sh")})
    await_port(service.port)
    same("the answers", service.answers(), last)
    only(service.folder, ["broker.db", "broker.db-wal"])


ATTACK = """
import os, sys, time
folder, secret = sys.argv[1:]
while True:
    for name in os.listdir(folder):
        path = f"{folder}/{name}"
        if name in ("broker.db", "broker.db-wal", "moved") or os.path.islink(path):
            continue
        try:
            if os.path.isdir(path):
                os.rename(path, f"{folder}/moved.{time.monotonic_ns()}")
            else:
                os.unlink(path)
            os.symlink(secret, path)
        except OSError:
            pass
"""


@pytest.mark.root
def test_links_in_the_way(service: Service) -> None:
    """A program of the service's user, which puts links in the place of what root makes, gets nothing of root's."""
    copy = copies_of(service, 1)[0]
    service.lose_power()
    secret, place = f"{service.room}/secret", f"{service.room}/place"
    os.mkdir(place, 0o755)
    with open(secret, "w", encoding="ascii") as it:
        os.chmod(secret, 0o600)
        it.write("root's\n")
    for target in secret, place:
        words = ["setpriv", "--reuid", str(NOBODY), "--regid", str(NOBODY), "--clear-groups"]
        attacker = subprocess.Popen([*words, sys.executable, "-c", ATTACK, service.folder, target])
        try:
            for _ in range(10):
                ran(words_of(service, copy), env={**os.environ, **service.env})
                for name in os.listdir(service.folder):
                    if os.path.islink(f"{service.folder}/{name}"):
                        os.unlink(f"{service.folder}/{name}")
        finally:
            attacker.kill()
            attacker.wait()
        now = os.stat(secret)
        same("root's file", (now.st_uid, now.st_mode & 0o777, text_of(secret)), (0, 0o600, "root's\n"))
        only(place, [])


def test_names(service: Service) -> None:
    """What is kept has a name without a colon, which scp and Windows take."""
    copy = copies_of(service, 1)[0]
    said = service.restore(copy)
    kept, = re.findall(r"what was there is kept in (\S+)\n", said)
    assert re.fullmatch(rf"{service.file}\.before-\d{{4}}-\d\d-\d\dT\d{{6}}Z\.\w{{6}}", kept), kept
