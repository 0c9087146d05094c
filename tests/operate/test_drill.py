"""The drill: a broker's file is backed up while it is served, lost, and restored, by the scripts of examples/. Its file
has rows in the log as it is copied; the copy has to be one file with page sums that answers as the broker did. Then the
file is lost with its log, or a bit of it flips, and examples/restore.sh has to bring back every answer. With a damaged
copy, or without the service, it has to change nothing. A copy may be two files, or on a disk that takes nothing."""
import os, shutil, stat
import pytest
from tests.operate.service import Service, content, flip, only
from tests.process import TOP, Server, free_port, run
from tests.wire import same
from tests.world import RED

SUMS_AT, SUMS = 20, 8
pytestmark = pytest.mark.needs("curl", "sqlite3")
DEPLOYMENT = '{"pacticipant":"shop","version":"1"}'


def test_one_file(service: Service) -> None:
    """All rows were in the log; the copy alone has them."""
    before, copy = service.answers(), service.backup("copy.db")
    assert os.path.getsize(f"{service.file}-wal"), "the log was empty as the file was copied"
    found = content(os.path.dirname(copy))
    same("the files of the backup", list(found), [os.path.basename(copy)])
    same("its room for sums", found[os.path.basename(copy)][SUMS_AT], SUMS)
    same("its mode", stat.S_IMODE(os.stat(copy).st_mode), 0o600)
    alone = shutil.copy(copy, f"{service.room}/alone.db")
    with Server(service.program, alone) as server:
        address, service.address = service.address, server.address
        same("its answers", service.answers(), before)
        service.address = address


SERVES = """#!/bin/sh
[ "$1" = serve ] && [ -e {room}/refusal ] && {{ cat {room}/refusal >&2; {then}; exit 3; }}
exec {program} "$@"
"""


def refusing(service: Service, line: str, then: str) -> str:
    """A program whose `serve` is refused with this line, and what it does then."""
    with open(f"{service.room}/refusal", "w", encoding="utf-8") as it:
        it.write(f"{line}\n")
    return service.tool("refusing", SERVES.format(room=service.room, program=service.program, then=then))


def test_refused(service: Service) -> None:
    """A port that is in use is replaced by another one; a copy that isn't served is none."""
    copy = service.backup("copy.db")
    other = service.backup("other.db", refusing(service, "listen", f"rm {service.room}/refusal"))
    same("the refusal", os.path.exists(f"{service.room}/refusal"), False)
    os.remove(other)
    service.script("backup.sh", refusing(service, "file", "true"), service.file, other, "broker", status=1)
    only(os.path.dirname(copy), ["copy.db"])


def test_lost(service: Service) -> None:
    """What was done after the backup is lost with the file; all before it is there again."""
    before, copy = service.answers(), service.backup("copy.db")
    service.do("POST", "/environments/live/deployments", RED, DEPLOYMENT)
    service.lose_power()
    for name in os.listdir(service.folder):
        os.remove(f"{service.folder}/{name}")
    said = service.restore(copy)
    same("what restore.sh says", said.split("\n")[1:], [f"{service.file} is restored, and broker serves it", ""])
    same("the answers", service.answers(), before)
    same("what was kept", service.kept(), [])
    now = os.stat(service.file)
    same("the owner", now.st_uid, os.stat(service.folder).st_uid)
    same("the mode", stat.S_IMODE(now.st_mode), 0o600)


def test_damaged(service: Service) -> None:
    """A bit flips in the file, which has all rows, while it isn't served: the broker refuses it, and it is kept."""
    before, copy = service.answers(), service.backup("copy.db")
    service.restore(copy)
    service.systemctl("stop")
    flip(service.file)
    damaged = content(service.folder)["broker.db"]
    words = ["serve", "--file", service.file, "--listen", "127.0.0.1:1", "--connections", "1"]
    same("what it prints", run(["timeout", "60", service.program, *words], 3), "")
    service.restore(copy)
    same("the answers", service.answers(), before)
    same("what was kept", [it["broker.db"] == damaged for it in service.kept()].count(True), 1)


def test_bad_copy(service: Service) -> None:
    """Nothing is changed by a copy that is damaged, or by one for a file in use."""
    before, copy = service.answers(), service.backup("copy.db")
    bad = shutil.copy(copy, f"{service.room}/bad.db")
    flip(bad)
    found = content(service.folder)
    same("restore.sh of a damaged copy", service.restore(bad, 1), "")
    service.script("test-copy.sh", service.program, bad, status=1)
    service.script("restore.sh", service.program, copy, service.file, status=1)
    service.script("restore.sh", service.program, copy, service.file, "another", status=1)
    same("the folder", content(service.folder) == found, True)
    only(service.folder, list(found))
    same("the answers", service.answers(), before)


def test_two_files(service: Service) -> None:
    """A copy with its log, as a snapshot of a disk has it, is restored with both."""
    before, copy = service.answers(), service.backup("copy.db")
    service.do("POST", "/environments/live/deployments", RED, DEPLOYMENT)
    after = service.answers()
    service.lose_power()
    for end in "", "-wal":
        shutil.copy(service.file + end, f"{service.room}/snapshot.db{end}")
    service.restore(copy)
    same("the answers of the copy", service.answers(), before)
    service.restore(f"{service.room}/snapshot.db")
    same("the answers of the snapshot", service.answers(), after)
    said = service.restore(copy)
    assert f"3 of these are in {service.folder}: remove those that nobody needs\n" in said, said
    same("kept, with a log each but after a clean end", [len(it) for it in service.kept()], [2, 2, 2])


def test_linked_copy(service: Service) -> None:
    """A copy with its log may be named by a link, as to the latest of many: it has the same rows by that name."""
    after, link = service.answers(), f"{service.room}/latest.db"
    service.lose_power()
    os.mkdir(f"{service.room}/snapshot")
    for end in "", "-wal":
        shutil.copy(service.file + end, f"{service.room}/snapshot/broker.db{end}")
    os.symlink("snapshot/broker.db", link)
    same("test-copy.sh", service.script("test-copy.sh", service.program, link), "format 2 with 3 contracts\n")
    service.restore(link)
    same("the answers", service.answers(), after)


READ_ONLY = 'mount --bind "$0" "$0"; mount -o remount,bind,ro "$0"; exec "$@"'


@pytest.mark.root
@pytest.mark.needs("unshare")
def test_disk_that_takes_nothing(service: Service) -> None:
    """A copy on a disk that is only read, as a snapshot of it: it is tested elsewhere, where nothing is left."""
    before, copy = service.answers(), service.backup("copy.db")
    service.do("POST", "/environments/live/deployments", RED, DEPLOYMENT)
    elsewhere = f"{service.room}/elsewhere"
    os.mkdir(elsewhere, 0o700)
    words = ["unshare", "--mount", "bash", "-euc", READ_ONLY, os.path.dirname(copy), *service.restore_words(copy)]
    run(words, 0, {**service.env, "TMPDIR": elsewhere})
    same("the answers", service.answers(), before)
    only(os.path.dirname(copy), ["copy.db"])
    only(elsewhere, [])


def test_open_disk(service: Service) -> None:
    """Who makes a folder for copies by a link to it, or names a copy like an option, gets the copy too."""
    os.symlink(f"{service.room}/backup", f"{service.room}/link")
    names = ["-x", "--help", "-n", "a b", "c'd"]
    for name in names:
        words = ["backup.sh", service.program, service.file, name, "broker"]
        run(["env", "-C", f"{service.room}/link", f"{TOP}/examples/{words[0]}", *words[1:]], 0, service.env)
    only(f"{service.room}/backup", names)


# Two disks whose files have the same numbers, as those of two brokers that have each a disk of its own; one is served.
TWO_DISKS = """cd "$0"
for it in one two; do
  mkdir $it
  mount -t tmpfs none $it
  "$1" init --file $it/broker.db --office-token office-token-0001
done
[ "$(stat -c %i one/broker.db)" = "$(stat -c %i two/broker.db)" ]
"$1" serve --file one/broker.db --listen "127.0.0.1:$2" --connections 1000 &
trap "kill $!" EXIT
until curl -q -s --noproxy '*' "http://127.0.0.1:$2/" > /dev/null; do sleep 0.05; done
if "$3/backup.sh" "$1" one/broker.db one.db 2> said; then exit 1; fi
cat said
"$3/backup.sh" "$1" two/broker.db two.db
"""


@pytest.mark.root
@pytest.mark.needs("unshare")
def test_two_disks(program: str, room: str) -> None:
    """Whether a file is in use is asked of this file, and not of one that has its number on another disk."""
    words = ["unshare", "--mount", "bash", "-euc", TWO_DISKS, room, program, str(free_port()), f"{TOP}/examples"]
    said = f"{room}/one/broker.db is in use: stop the service, or say which process serves it\n"
    same("what is said", run(words), f"{said}{room}/two.db holds format 2 with 0 contracts\n")
