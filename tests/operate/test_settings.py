"""The scripts of examples/ for somebody with settings of his own, by which sqlite3 prints otherwise and curl asks a
proxy: they say the same. sqlite3 finds his home in the list of users, so they are run where that has another one."""
import os, re
import pytest
from tests.process import Server, run, text_of
from tests.wire import same
from tests.world import DONE, fleet_file, new_file

APART = 'mount --bind "$0" /etc/passwd; exec "$@"'
SETTINGS = ".headers on\n.mode column\n"
DEPLOYMENT = 'environments/live/deployments {"pacticipant":"shop","version":"1"}'
DROPPED = "CREATE VIEW report AS SELECT 1; DROP INDEX contents_by_digest;"


@pytest.fixture
def users(room: str) -> str:
    """A list of users in which root's home is a folder with settings for sqlite3."""
    with open(f"{room}/.sqliterc", "w", encoding="ascii") as it:
        it.write(SETTINGS)
    with open(f"{room}/passwd", "w", encoding="utf-8") as it:
        it.write(re.sub(r"(?m)^(root:.*):[^:]*:([^:]*)$", rf"\1:{room}:\2", text_of("/etc/passwd")))
    same("the settings are read", said_by(it.name, "sqlite3", ":memory:", "SELECT 1 AS one"), "one\n---\n1  \n")
    return it.name


def said_by(users: str, *words: str) -> str:
    return run(["unshare", "--mount", "bash", "-euc", APART, users, *words])


@pytest.mark.root
@pytest.mark.needs("runuser", "sqlite3", "unshare")
def test_of_sqlite3(program: str, room: str, users: str) -> None:
    file, copy, plain = fleet_file(program, room), f"{room}/copy.db", f"{room}/plain.db"
    said = said_by(users, "examples/backup.sh", program, file, copy)
    same("backup.sh, by test-copy.sh", said, f"{copy} holds format 2 with 3 contracts\n")
    said = said_by(users, "script", "-qec", f"examples/test-copy.sh {program} {copy}", "/dev/null")
    same("at a terminal", said.replace("^D\b\b", ""), "format 2 with 3 contracts\n")
    run(["sqlite3", "-bail", plain], text=run(["sqlite3", "-bail", copy, ".dump"]))
    said = said_by(users, "examples/add-sums.py", plain, f"{room}/sums.db")
    same("add-sums.py", said, f"{room}/sums.db holds the rows of {plain}, with sums\n")
    run(["sqlite3", "-bail", plain, DROPPED])
    lines = ["it has also: view report", "it lacks: index contents_by_digest"]
    same("which.sh", sorted(said_by(users, "examples/which.sh", program, plain, "root").splitlines()[:-1]), lines)


@pytest.mark.needs("curl")
def test_of_curl(program: str, room: str) -> None:
    with open(f"{room}/.curlrc", "w", encoding="ascii") as it:
        it.write("fail\ninclude\nwrite-out = none\nproxy = http://127.0.0.1:1\n")
    env = {"HOME": room, "http_proxy": "http://127.0.0.1:1"}
    with Server(program, new_file(program, room)) as server:
        said = run(["examples/one-deployment.sh", server.url], env=env).splitlines()
        same("one-deployment.sh", said[-2:], ["POST /" + DEPLOYMENT, DONE])
        script = text_of("examples/cluster/serves").replace("127.0.0.1:9292", f"127.0.0.1:{server.port}")
        run(["sh", "-c", script], env=env)
        server.stop()
        run(["sh", "-c", script], 1, env)
    os.mkdir(f"{room}/demo")
    with Server(program, new_file(program, f"{room}/demo")) as server:
        run(["examples/demo.sh", server.url], env=env)
