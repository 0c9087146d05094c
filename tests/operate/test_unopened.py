"""A file that the program doesn't open, with the line `file`: missing, in use, forbidden, foreign, linked, damaged, or
with an odd log. examples/which.sh has to say which of them it is, as the user `nobody`, and so has the journal."""
import os, pwd, re, socket, subprocess
import pytest
from tests.process import Server, bytes_of, free_port, ran, run
from tests.wire import OFFICE, same

NOBODY = pwd.getpwnam("nobody")
pytestmark = [pytest.mark.root, pytest.mark.needs("runuser")]


def as_nobody(*words: str) -> list[str]:
    return ["runuser", "-u", "nobody", "--", *words]


@pytest.fixture
def folder(open_room: str) -> str:
    """A folder that is nobody's."""
    it = f"{open_room}/lib"
    os.mkdir(it, 0o700)
    os.chown(it, NOBODY.pw_uid, NOBODY.pw_gid)
    return it


@pytest.fixture
def file(folder: str, open_program: str) -> str:
    """A broker's file there, nobody's too."""
    it = f"{folder}/broker.db"
    words = [open_program, "init", "--file", it, "--office-token", OFFICE]
    run(as_nobody("sh", "-c", 'umask 077; exec "$@"', "sh", *words))
    return it


def refused(file: str, program: str, line: str = "file\n", port: int = 0) -> None:
    """The program, as nobody, doesn't open it, or isn't let to this port."""
    listen = f"127.0.0.1:{port or free_port()}"
    words = as_nobody("timeout", "60", program, "serve", "--file", file, "--listen", listen, "--connections", "1")
    it = subprocess.run(words, capture_output=True, text=True, check=False)
    same(f"serve of {file}", (it.returncode, it.stderr), (3, line))


def named(file: str, program: str, wanted: str) -> list[str]:
    """The last line that is printed for it has to begin so, and is a sentence with its path. The lines before it."""
    said = run(["examples/which.sh", program, file, "nobody"]).rstrip("\n").split("\n")
    same("what it is called", said[-1].split(":")[0], wanted)
    assert file in said[-1], said
    return said[:-1]


def test_missing(file: str, folder: str, open_program: str) -> None:
    os.rename(file, f"{folder}/elsewhere.db")
    refused(file, open_program)
    named(file, open_program, "missing")


def test_in_use(file: str, open_program: str) -> None:
    with Server(open_program, file) as server:
        refused(file, open_program)
        before = named(file, open_program, "in use, by /proc/NUMBER/..")
        same("the processes", {it.split("/")[2] for it in before}, {str(server.process.pid)})


def test_forbidden_file(file: str, open_program: str) -> None:
    os.chown(file, 0, 0)
    refused(file, open_program)
    named(file, open_program, "forbidden")


def test_forbidden_log(file: str, open_program: str) -> None:
    """As it is after root copied both files there."""
    with open(f"{file}-wal", "w", encoding="ascii"):
        os.chmod(f"{file}-wal", 0o600)
        os.chown(f"{file}-wal", 0, 0)
    refused(file, open_program)
    named(file, open_program, "forbidden")


def test_forbidden_folder(file: str, folder: str, open_program: str) -> None:
    if os.path.exists(f"{file}-wal"):
        os.remove(f"{file}-wal")
    os.chown(folder, 0, 0)
    os.chmod(folder, 0o755)
    refused(file, open_program)
    named(file, open_program, "forbidden")


def test_foreign(file: str, open_program: str) -> None:
    with open(file, "w", encoding="ascii") as it:
        it.write("a list of things to buy\n" * 100)
    refused(file, open_program)
    named(file, open_program, "foreign")


def test_view_more(file: str, folder: str, open_program: str) -> None:
    """A view for a report, an index that is gone and a column more are named, each in a line."""
    script = "CREATE VIEW report AS SELECT 1; DROP INDEX contents_by_digest; ALTER TABLE grants ADD COLUMN since TEXT;"
    declared = run(as_nobody("sqlite3", "-bail", file, ".dump"))
    for it in os.scandir(folder):
        os.remove(it.path)
    run(as_nobody("sqlite3", "-bail", file), text=declared + script)
    refused(file, open_program, "open 2\n")
    lines = ["it has also: column grants.since TEXT", "it has also: view report", "it lacks: index contents_by_digest"]
    same("what differs", sorted(named(file, open_program, "foreign")), lines)


def test_damaged(file: str, open_program: str) -> None:
    with open(file, "r+b") as it:
        it.seek(5000)
        byte = it.read(1)[0]
        it.seek(5000)
        it.write(bytes([byte ^ 1]))
    refused(file, open_program)
    named(file, open_program, "damaged")


def test_linked(file: str, folder: str, open_program: str) -> None:
    """A second name, as `cp -al` makes one."""
    os.link(file, f"{folder}/second.db")
    refused(file, open_program)
    named(file, open_program, "linked")


def test_by_a_link(file: str, folder: str, open_room: str, open_program: str) -> None:
    """A file that is named by a link has its log, its folder and its names where it is itself."""
    os.symlink(file, f"{open_room}/link.db")
    words = ["examples/which.sh", open_program, f"{open_room}/link.db", "nobody"]
    os.link(file, f"{folder}/second.db")
    same("with a second name", run(words).split(" ")[:2], ["linked:", file])
    with open(f"{file}-wal", "w", encoding="ascii"):
        os.chmod(f"{file}-wal", 0o600)
        os.chown(f"{file}-wal", 0, 0)
    said = f"forbidden: nobody may not read and write {file}, its log and their folder\n"
    same("with a log that is root's", run(words), said)


@pytest.mark.parametrize("kind", ["fifo", "dangling link", "folder"])
def test_odd_log(file: str, open_program: str, kind: str) -> None:
    log = f"{file}-wal"
    if os.path.exists(log):
        os.remove(log)
    if kind == "dangling link":
        os.symlink("/nowhere/log", log)
    else:
        (os.mkfifo if kind == "fifo" else os.mkdir)(log)
        os.chown(log, NOBODY.pw_uid, NOBODY.pw_gid)
    refused(file, open_program)
    named(file, open_program, "odd log")


def test_sound(file: str, open_program: str) -> None:
    """A file that wasn't opened for another reason, as too few descriptors."""
    named(file, open_program, "sound")


def test_listen(file: str, open_program: str) -> None:
    """Its port is another account's: the sentence has the command that says whose."""
    with socket.create_server(("127.0.0.1", 0)) as taken:
        refused(file, open_program, "listen\n", taken.getsockname()[1])
        said = run(["examples/which.sh", open_program, file, "nobody"])
        command = re.findall("after the line listen see by (.*) who has the port", said)
        pattern = rf"127\.0\.0\.1:{taken.getsockname()[1]} .*pid={os.getpid()},"
        assert re.search(pattern, run(command[0].split())), said


def test_another_database(file: str, open_program: str) -> None:
    os.remove(file)
    run(as_nobody("sqlite3", file, "CREATE TABLE one (two)"))
    refused(file, open_program, "open 2\n")
    named(file, open_program, "foreign")


def test_in_a_unit(file: str, open_program: str) -> None:
    """As ExecStopPost it is silent unless the service ended with 3; nothing is changed by it."""
    before = bytes_of(file)
    for status, said in ("0", ""), ("15", ""), ("3", "sound"):
        words = ["examples/which.sh", open_program, file, "nobody"]
        ended = ran(words, env={**os.environ, "EXIT_STATUS": status})
        same(f"after {status}", ended.output.split(":")[0].strip(), said)
    same("the file", bytes_of(file) == before, True)
