"""The scripts of examples/ that copy a broker's file or migrate it, and the service: each is run to its end, with what it
prints and its status."""
import http.client, os, re, shlex, shutil, signal, subprocess, tempfile, threading, time
from concurrent.futures import ThreadPoolExecutor
from collections.abc import Mapping
import pytest
from tests.broker.parts import former_file
from tests.operate.halts import signalled_as_it_ends
from tests.process import TOP, Server, run, text_of
from tests.proxy import await_that
from tests.wire import PATIENCE, Answer, Wrong, same
from tests.world import ALREADY, DONE, RED, fleet_file, new_file

pytestmark = pytest.mark.needs("sqlite3")


@pytest.fixture
def file(program: str, room: str) -> str:
    """The file of a broker with the fleet, which isn't served."""
    return fleet_file(program, room)


def asked(server: Server) -> list[Answer]:
    return [server.ask("GET", it, RED) for it in ("/environments/live", "/matrix?pacticipant=shop&version=1")]


def restore(copy: str, file: str) -> None:
    """The copy in the file's place, with its log if it has one; whoever had the file has lost it."""
    for end in "", "-wal":
        if os.path.exists(file + end):
            os.remove(file + end)
        if os.path.exists(copy + end):
            shutil.copyfile(copy + end, file + end)


def test_backup(program: str, file: str, room: str) -> None:
    """A copy of a stopped broker's file, what is refused, and the way back."""
    words, copy = ["examples/backup.sh", program, file], f"{room}/copy.db"
    with Server(program, file) as server:
        before = asked(server)
        run([*words, copy], 1)
        assert not os.path.exists(copy), "a copy of a file in use"
    same("backup", run([*words, copy]), f"{copy} holds format 2 with 3 contracts\n")
    run([*words, copy], 1)
    run(["examples/backup.sh", program, f"{room}/nowhere.db", f"{room}/other.db"], 1)
    with Server(program, file) as server:
        server.do("POST", "/environments/live/deployments", RED, '{"pacticipant":"shop","version":"1"}')
        assert asked(server) != before, "the deployment isn't listed"
    restore(copy, file)
    with Server(program, file) as server:
        same("answers of the copy in the file's place", asked(server), before)
    os.truncate(file, os.path.getsize(file) // 2)
    run([*words, f"{room}/half.db"], 1)
    same("a copy of half a file", [it for it in os.listdir(room) if it.startswith("half")], [])


# A broker that serves meanwhile


def is_paused(server: Server) -> bool:
    return "State:\tT" in text_of(f"/proc/{server.process.pid}/status")


def load_version(number: int) -> str:
    return f"/pacticipants/shop/versions/load-{number}"


class Load(threading.Thread):
    """A client that names one version after another on one connection, until it is ended or fails."""

    def __init__(self, server: Server) -> None:
        super().__init__(daemon=True)
        self.server, self.ends = server, threading.Event()
        self.acknowledged, self.why = 0, ""

    def run(self) -> None:
        line = http.client.HTTPConnection("127.0.0.1", self.server.port, timeout=PATIENCE)
        try:
            while not self.ends.is_set():
                line.request("PUT", load_version(self.acknowledged), b"", {"authorization": f"Bearer {RED}"})
                same("the answer to the load", line.getresponse().read().decode(), DONE)
                self.acknowledged += 1
                time.sleep(0.002)
        except (Wrong, OSError, http.client.HTTPException) as it:
            self.why = f"after {self.acknowledged} answers: {it!r}"
        line.close()

    def go_on(self, more: int) -> None:
        """Waits until so many more are acknowledged."""
        wanted = self.acknowledged + more
        await_that(lambda: self.acknowledged >= wanted or not self.is_alive(), "more is acknowledged")


def instead(room: str, name: str, text: str, path: str = os.environ["PATH"]) -> dict[str, str]:
    """What puts a tool of this name and text before those of a PATH."""
    folder = tempfile.mkdtemp(dir=room)
    with open(f"{folder}/{name}", "w", encoding="utf-8") as it:
        it.write(text)
    os.chmod(f"{folder}/{name}", 0o755)
    return {"PATH": f"{folder}:{path}"}


def systemctl(room: str, server: Server) -> dict[str, str]:
    """A folder for PATH with a systemctl that knows the broker's service, and no other."""
    number = server.process.pid
    return instead(room, "systemctl", f"""#!/bin/sh
case "$*" in
  "show --property MainPID --value broker") echo {number} ;;
  "kill --signal STOP broker") kill -s STOP {number} ;;
  "kill --signal CONT broker") kill -s CONT {number} ;;
  *) exit 1 ;;
esac
""")


def under_load(room: str, load: Load, words: list[str], env: Mapping[str, str]) -> tuple[int, str]:
    """Runs this backup, which waits at its first copying; tells how many commands were acknowledged then, while the
    broker is paused, and what is printed."""
    marks = tempfile.mkdtemp(dir=room)
    waits = f"[ -e {marks}/begun ] || {{ touch {marks}/begun; while [ ! -e {marks}/seen ]; do sleep 0.01; done; }}"
    path = instead(room, "cp", f'#!/bin/sh\n{waits}\nexec /bin/cp "$@"\n', env["PATH"])
    with ThreadPoolExecutor(1) as worker:
        done = worker.submit(run, words, env=path)
        await_that(lambda: os.path.exists(f"{marks}/begun") or done.done(), "the copying begins")
        was_paused, acknowledged = is_paused(load.server), load.acknowledged
        open(f"{marks}/seen", "w", encoding="ascii").close()
        said = done.result()
    assert was_paused
    return acknowledged, said


def test_backup_of_a_broker_that_serves(program: str, file: str, room: str) -> None:
    """Two copies while a client writes all the time. The original is thrown away, and each copy serves: what was
    acknowledged when the pause began is there, and of what came later at most the one command that was under way."""
    copies = []
    with Server(program, file) as server:
        load = Load(server)
        load.start()
        for broker, env in (str(server.process.pid), dict(os.environ)), ("broker", systemctl(room, server)):
            load.go_on(30)
            copy = f"{room}/copy-for-{broker}.db"
            acknowledged, said = under_load(room, load, ["examples/backup.sh", program, file, copy, broker], env)
            wanted = rf"{copy} holds format 2 with 3 contracts, and the broker was paused for \d+ ms\n"
            assert re.fullmatch(wanted, said), said
            copies.append((copy, acknowledged))
        load.go_on(30)
        load.ends.set()
        load.join(PATIENCE)
        same("why the client of the load has failed", load.why, "")
    for copy, acknowledged in copies:
        restore(copy, file)
        with Server(program, file) as server:
            found = [server.ask("PUT", load_version(it), RED).body for it in range(acknowledged)]
            same("acknowledged before the pause", found, [ALREADY] * acknowledged)
            server.gives((200, DONE), "PUT", load_version(acknowledged + 1), RED)


def goes_on(server: Server, copy: str, why: str) -> None:
    assert not is_paused(server), f"a pause after {why}"
    same(f"an answer after {why}", server.ask("GET", "/environments/live", RED).status, 200)
    same(f"copies after {why}", [it for it in os.listdir(os.path.dirname(copy)) if it.startswith("copy")], [])


# What comes of the copying, in the broker of this process.
COPYING = {
    "copying that fails": "exit 1",
    "a broker that goes on meanwhile": 'kill -CONT {0}; sleep 0.1; exec /bin/cp "$@"',
    "a broker that goes on and is paused again": (
        'kill -CONT {0}; sleep 0.1; kill -STOP {0}; sleep 0.1; exec /bin/cp "$@"'
    ),
}


@pytest.mark.parametrize("name", COPYING)
def test_backup_whose_copying_fails(program: str, file: str, room: str, name: str) -> None:
    """The broker goes on, and there is no copy."""
    copy = f"{room}/copy.db"
    with Server(program, file) as server:
        number = str(server.process.pid)
        tool = instead(room, "cp", f"#!/bin/sh\n{COPYING[name].format(number)}\n")
        run(["examples/backup.sh", program, file, copy, number], 1, tool)
        goes_on(server, copy, name)


ENDINGS = signal.SIGTERM, signal.SIGINT, signal.SIGHUP


@pytest.mark.parametrize("ending", ENDINGS, ids=[it.name for it in ENDINGS])
def test_backup_that_is_ended(program: str, file: str, room: str, ending: signal.Signals) -> None:
    """The broker goes on, and there is no copy."""
    copy = f"{room}/copy.db"
    env = {**os.environ, **instead(room, "cp", "#!/bin/sh\nexec sleep 600\n")}

    def usual() -> None:
        """A shell can't take a signal that was ignored as it began, as under nohup."""
        for it in ENDINGS:
            signal.signal(it, signal.SIG_DFL)

    with Server(program, file) as server:
        words = ["examples/backup.sh", program, file, copy, str(server.process.pid)]
        it = subprocess.Popen(words, cwd=TOP, env=env, stdout=subprocess.DEVNULL, preexec_fn=usual)
        await_that(lambda: is_paused(server) or it.poll() is not None, "the broker is paused")
        it.send_signal(ending)
        same("the status", it.wait(PATIENCE), 1)
        goes_on(server, copy, ending.name)


def test_backup_signalled_as_it_ends(program: str, file: str, room: str) -> None:
    """Its copying fails, and a signal comes as it begins to clean up: it does so all the same, as test-copy.sh does."""
    copy, other = f"{room}/copy.db", f"{room}/copy-none.db"
    with Server(program, file) as server:
        env = {**instead(room, "cp", "#!/bin/sh\nexit 1\n"), **signalled_as_it_ends(room, "backup.sh")}
        run(["examples/backup.sh", program, file, copy, str(server.process.pid)], 1, env)
        goes_on(server, copy, "a signal as it ends")
    shutil.copyfile(file, other)
    run(["examples/test-copy.sh", program, other], 1, signalled_as_it_ends(room, "test-copy.sh"))
    same("what is left", [it for it in os.listdir(room) if it.startswith("copy-none.db.test")], [])


def test_backup_of_another_process(program: str, file: str, room: str) -> None:
    words, copy = ["examples/backup.sh", program, file, f"{room}/copy.db"], f"{room}/copy.db"
    with Server(program, file) as server:
        run([*words, str(os.getpid())], 1)
        run([*words, "another"], 1, systemctl(room, server))
        goes_on(server, copy, "another process")


# Formats, the service


def test_migrate(program: str, room: str) -> None:
    file, copy = former_file(room), f"{room}/copy.db"
    ask = [program, "can-i-deploy", "--file", file, "--token", RED, "--pacticipant", "shop", "--version", "1"]
    ask += ["--to-environment", "live"]
    run(ask, 3)
    said = f"{copy} holds format 1 with 1 contract\n{file} is migrated\n"
    same("migrate", run(["examples/migrate.sh", program, file, copy]), said)
    same("the gate", run(ask), '{"answer":"shown","environment":"live","faults":[],"gated":true,"permitted":true}\n')
    run(["examples/migrate.sh", program, file, f"{room}/again.db"], 3)
    same("its copy's format", run(["sqlite3", copy, "SELECT format FROM meta"]), "1\n")


def unit(key: str) -> list[str]:
    """The values of a key of the unit."""
    return re.findall(rf"(?m)^{key}=(.*)$", text_of("examples/broker.service"))


def test_service(program: str, room: str) -> None:
    """A file is served by the unit's command line, with the program that is tried and a folder of its own; it is
    stopped by the unit's signal, and started again."""
    same("how many command lines", len(unit("ExecStart")), 1)
    given = [it.replace("/var/lib/broker", room) for it in shlex.split(unit("ExecStart")[0])]
    words = [program if it == "/usr/local/bin/broker" else it for it in given]
    file, ending = new_file(program, room), getattr(signal, unit("KillSignal")[0])
    for answer in DONE, ALREADY:
        with Server(program, file, words=words) as server:
            server.gives((200, answer), "PUT", "/teams/red", body='{"token":"%s"}' % RED)
            server.process.send_signal(ending)
            server.wait()
    same("Restart", unit("Restart"), ["always"])


EAST, BERLIN, HELSINKI = "EST5EDT,M3.2.0,M11.1.0", "CET-1CEST,M3.5.0,M10.5.0/3", "EET-2EEST,M3.5.0/3,M10.5.0/4"
# A day before a night in which the clock is put forward or back, and that night with the next one.
NIGHTS = [
    (EAST, "2027-03-13", ["2027-03-14", "2027-03-15"]),
    (EAST, "2027-11-06", ["2027-11-07", "2027-11-08"]),
    (BERLIN, "2027-03-27", ["2027-03-28", "2027-03-29"]),
    (BERLIN, "2027-10-30", ["2027-10-31", "2027-11-01"]),
    (HELSINKI, "2027-03-27", ["2027-03-28", "2027-03-29"]),
    (HELSINKI, "2027-10-30", ["2027-10-31", "2027-11-01"]),
]


@pytest.mark.needs("systemd-analyze")
@pytest.mark.parametrize("timer", ["nightly", "restart"])
def test_each_night(timer: str) -> None:
    """What a timer does each night it does once, also in a night in which the clock is put forward or back."""
    times = re.findall(r"(?m)^OnCalendar=(.*)$", text_of(f"examples/broker-{timer}.timer"))
    for clock, day, nights in NIGHTS:
        words = ["systemd-analyze", "calendar", f"--base-time={day} 12:00:00", "--iterations=2", *times]
        said = run(words, env={"TZ": clock})
        found = re.findall(r"(?m)^ *(?:Next elapse|Iter\. #2): \w+ (\S+)", said)
        same(f"the nights of {clock} after {day}", found, nights)
