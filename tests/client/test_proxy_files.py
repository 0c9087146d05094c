"""Files of the proxy: its tokens, which both proxies still read afterwards, and its logs."""
import gzip, json, os, stat, threading
from typing import List, Tuple
import pytest
from holzhebo.api import Stop
from holzhebo.files import replace_file
from tests.client.flaky import FlakyBroker, flaky  # the fixture
from tests.client.tools import CLIENT, PYTHON, Client, told
from tests.process import TOP, Ended, Server, bytes_of, ran, run, text_of
from tests.wire import OFFICE, Wrong, same

__all__ = ["flaky"]
HERE = f"{TOP}/tests/client"


def lines_in(path: str) -> List[str]:
    return text_of(path).splitlines()


def start(path: str, text: str = "# teams\n") -> None:
    with open(path, "w", encoding="utf-8") as it:
        it.write(text)


NGINX = """daemon off; pid {room}/pid; error_log {room}/error.log; events {{}}
http {{ access_log off; map $http_a $b {{ include {room}/teams; default ""; }} server {{ listen 127.0.0.1:1; }} }}"""
CADDY = """{
  admin off
  auto_https off
}
http://127.0.0.1:1 {
  map {header.a} {b} {
    import %s/teams
    default ""
  }
  respond {b}
}
"""


@pytest.mark.needs("nginx", "caddy")
@pytest.mark.parametrize("name", ['a"b', "a$b", "a\\", "a{b", "a}b", "{file./etc/passwd}", "a\u00e9 b", "it's; ok"])
def test_a_team_s_name(name: str, fleet: Server, client: Client, room: str) -> None:
    """A name that a proxy reads as something else is refused before the team is made; with any other both start."""
    start(f"{room}/teams")
    done = client.run("office", "team", name, "--new-token-file", "t", "--into", "teams")
    is_refused = any(it in name for it in '"$\\{}')
    same("status", (done.status, os.path.exists(f"{room}/t")), (3, False) if is_refused else (0, True))
    same("the file", len(lines_in(f"{room}/teams")), 1 if is_refused else 2)
    start(f"{room}/nginx.conf", NGINX.format(room=room))
    run(["nginx", "-t", "-c", f"{room}/nginx.conf"])
    for at, line in enumerate(lines_in(f"{room}/teams")):
        start(f"{room}/line-{at}", line)
    os.chmod(f"{room}/teams", 0o644)
    text = text_of(f"{room}/teams").replace(";\n", "\n")
    start(f"{room}/teams", text)
    start(f"{room}/Caddyfile", CADDY % room)
    run(["caddy", "validate", "--adapter", "caddyfile", "--config", f"{room}/Caddyfile"], env={"HOME": room})


def test_into_without_a_token(fleet: Server, client: Client, room: str) -> None:
    start(f"{room}/teams")
    done = client.run("office", "team", "green", "--owns", "mail", "--into", "teams")
    same("refused", done, Ended(2, "", "holzhebo: --into needs the team's token: give --new-token-file\n"))
    same("nothing is made", client.run("office", "team", "green", "--grant", "live").status, 3)


def test_into_that_can_t_be_written(flaky: FlakyBroker, room: str) -> None:
    """What was made before is said."""
    done = Client(room, flaky.url).run("office", "team", "green", "--new-token-file", "t", "--into", "nowhere")
    same("done", done, Ended(3, "new  team green\n", "holzhebo: nowhere can't be read: No such file or directory\n"))


def test_what_an_earlier_run_left(fleet: Server, client: Client, room: str) -> None:
    """A file that a killed run left locks nothing; a link stays a link; names of any alphabet, in any locale."""
    start(f"{room}/teams.part", "half")
    start(f"{room}/real", "# t\u00e9ams\n")
    os.chmod(f"{room}/real", 0o640)
    os.symlink(f"{room}/real", f"{room}/teams")
    locale = {"LC_ALL": "C", "PYTHONIOENCODING": "ascii", "PYTHONUTF8": "0", "PYTHONCOERCECLOCALE": "0"}
    done = client.run("office", "team", "gr\u00fcn", "--new-token-file", "t", "--into", "teams", **locale)
    same("done", done.status, 0)
    same("the link", (os.path.islink(f"{room}/teams"), len(lines_in(f"{room}/real"))), (True, 2))
    same("its first line", lines_in(f"{room}/real")[0], "# t\u00e9ams")
    same("its rights", stat.S_IMODE(os.stat(f"{room}/real").st_mode), 0o640)
    same("nothing else is left", sorted(it for it in os.listdir(room) if it.startswith(".real")), [])


def test_other_lines(fleet: Server, client: Client, room: str) -> None:
    """Lines that are there stay as they are, byte for byte: in another encoding, and of a team whose name has what ends
    a line elsewhere; and the token of that team is still found."""
    with open(f"{room}/teams", "wb") as it:
        it.write(b"# caf\xe9\r\n\n")
    name = "a\u2028b\u0085c"
    for team in name, "green":
        done = client.run("office", "team", team, "--new-token-file", team[:1], "--into", "teams")
        same("done", done.status, 0)
    comment, empty, first, second, end = bytes_of(f"{room}/teams").split(b"\n")
    same("the lines that were there", (comment, empty, end), (b"# caf\xe9\r", b"", b""))
    same("the two teams", (first.endswith(f' "{name}";'.encode()), second.endswith(b' "green";')), (True, True))
    client.done("none", "replace-token", "a", "--new-token-file", "new", "--into", "teams")
    same("the place of the new one", bytes_of(f"{room}/teams").count(f' "{name}";'.encode()), 1)


def test_several_at_once(fleet: Server, client: Client, room: str) -> None:
    """No line is lost if twelve runs write at once."""
    start(f"{room}/teams")
    threads = [
        threading.Thread(
            target=client.run, args=("office", "team", f"t{it}", "--new-token-file", f"t{it}", "--into", "teams")
        )
        for it in range(12)
    ]
    for it in threads:
        it.start()
    for it in threads:
        it.join()
    same("lines", len(lines_in(f"{room}/teams")), 13)


@pytest.mark.parametrize("end", [";", ""])
def test_replaced(end: str, room: str) -> None:
    """The new token is put in the place of the old one, and the files beside it stay: tokens that only read by the old
    one, or are for builds, go on by it (tests/operate/test_proxy_tokens.py has them in the proxies)."""
    client = Client(room, "http://127.0.0.1:1")
    start(f"{room}/tokens", "# tokens that leaked\n")
    line = f'"~^GET \\Qdesk-token-000001\\E$" "{OFFICE}"{end}'
    start(f"{room}/broker-readers", f"{line}\n")
    caddy = [] if end else ["--caddy"]
    client.done("none", "replace-token", "office.token", "--new-token-file", "new", "--into", "tokens", *caddy)
    new = lines_in(f"{room}/new")[0].split()[-1]
    same("the readers", lines_in(f"{room}/broker-readers"), [line])
    same(
        "the tokens",
        lines_in(f"{room}/tokens")[1:],
        [f'"~^\\Q{new}\\E$" "{OFFICE}"{end}', f'"~^\\Q{OFFICE}\\E$" ""{end}'],
    )


# A token's file is on the disk before the broker hears of it


@pytest.mark.needs("strace")
def test_a_token_is_on_the_disk_first(fleet: Server, client: Client, room: str) -> None:
    """The file and its folder are synced before the request: the broker keeps only a digest, so the file is all."""
    trace = ["strace", "-f", "-e", "trace=fsync,sendto,connect", "-o", f"{room}/trace"]
    line = [*trace, *PYTHON, CLIENT, "team", "green", "--new-token-file", "green"]
    done = ran(line, cwd=room, env=client.env("office"))
    same("done", (done.status, done.errors), (0, ""))
    calls = [it for it in lines_in(f"{room}/trace") if "fsync" in it or "sendto" in it and "PUT /teams" in it]
    kinds = ["fsync" if "fsync(" in it else "send" for it in calls]
    same("in this order", kinds[:3], ["fsync", "fsync", "send"])


# Logs


def piped(words: List[str], text: bytes, room: str, **env: str) -> Tuple[int, str, str]:
    return told([*PYTHON, CLIENT, *words], text, cwd=room, env={**os.environ, **env})


STRANGE = b'{"time":"2026-11-27T03:00:00+00:00","team":"x","method":"GET","path":"/\xff\xfe","body":"","status":404,'
STRANGE += b'"seconds":0.1}\n'


def test_bytes_of_an_outsider(room: str) -> None:
    """A request with a byte that is no text of UTF-8 stops neither `who` nor `metrics`."""
    log = bytes_of(f"{HERE}/proxy.log")
    for name in "en_US.UTF-8", "C":
        env = {"PYTHONIOENCODING": "utf-8:strict", "LC_ALL": name}
        for words in ["who", "live"], ["metrics"]:
            status, output, _ = piped([*words, "--log", "-"], STRANGE + log, room, **env)
            same(f"{words}", (status, len(output) > 100), (0, True))


def line_of(time: str, version: str, status: int = 200) -> str:
    body = json.dumps({"pacticipant": "shop", "version": version})
    path = "/environments/live/deployments"
    row = {"time": time, "team": "red", "method": "POST", "path": path, "body": body, "status": status, "seconds": 0.1}
    return json.dumps(row) + "\n"


def test_logs_that_were_rotated(room: str) -> None:
    """`who` without --log reads all that logrotate has kept, the oldest first, and says since when there is
    something."""
    folder = f"{room}/log"
    os.mkdir(folder)
    kept = {"broker.log.2.gz": "1", "broker.log.1": "2", "broker.log": "3"}
    for day, (name, version) in enumerate(kept.items(), 1):
        text = line_of(f"2026-11-0{day}T02:00:00+00:00", version) + line_of(f"2026-11-0{day}T03:00:00+00:00", "9", 409)
        with open(f"{folder}/{name}", "wb") as it:
            it.write(gzip.compress(text.encode()) if name.endswith("gz") else text.encode())
        os.utime(f"{folder}/{name}", (1000 + day, 1000 + day))
    script = "import sys\nsys.path.insert(0, %r)\nfrom holzhebo.proxy import log\nlog.LOGS = [%r]\n"
    script += "from holzhebo.cli.main import main\nsys.exit(main())\n"
    start(f"{room}/run.py", script % (f"{TOP}/client/src", f"{folder}/broker.log"))

    def who(*words: str) -> Tuple[str, str]:
        done = ran([*PYTHON, f"{room}/run.py", *words])
        same("status", done.status, 0)
        return done.output, done.errors

    output, errors = who("who", "live")
    same("all three, in their order", [it.split()[-1] for it in output.splitlines()], ["1", "2", "3"])
    same("since when", errors, "holzhebo: the log that is there begins at 2026-11-01T02:00:00+00:00\n")
    same("what the gate refused", who("who", "live", "--refused")[0].count(" 9"), 3)
    same("metrics are of the newest", '_total{method="POST",status="200"} 1\n' in who("metrics")[0], True)


def test_a_damaged_log(room: str) -> None:
    """It is said which, and why."""
    whole = gzip.compress(line_of("2026-11-01T02:00:00+00:00", "1").encode() * 100)
    for name, content in ("cut", whole[:-20]), ("other", whole[:12] + b"\xff" * 20), ("none", b"no gzip"):
        with open(f"{room}/{name}.gz", "wb") as it:
            it.write(content)
        for words in ["who", "live"], ["metrics"]:
            status, _, errors = piped([*words, "--log", f"{name}.gz"], b"", room)
            same(f"{words} {name}", (status, errors.startswith(f"holzhebo: {name}.gz can't be read: ")), (3, True))


def test_a_half_written_file(room: str) -> None:
    """--output is there at once, or not at all."""
    status, _, _ = piped(["metrics", "--log", f"{HERE}/proxy.log", "--output", "broker.prom"], b"", room)
    with open(f"{room}/broker.prom", encoding="utf-8") as it:
        same("the whole text", (status, it.read().endswith("broker_request_seconds_count 9\n")), (0, True))
    inode = os.stat(f"{room}/broker.prom").st_ino
    piped(["metrics", "--log", f"{HERE}/proxy.log", "--output", "broker.prom"], b"", room)
    same("another file in its place", os.stat(f"{room}/broker.prom").st_ino == inode, False)
    if [it for it in os.listdir(room) if it.startswith(".")]:
        raise Wrong("something is left")


METRICS = ["metrics", "--log", f"{HERE}/proxy.log", "--output"]
LAST = "broker_request_seconds_count 9\n"


def about(path: str) -> Tuple[int, int, int]:
    """The rights of a file, and whose it is."""
    found = os.stat(path)
    return stat.S_IMODE(found.st_mode), found.st_uid, found.st_gid


def test_the_rights_of_an_output(room: str) -> None:
    """A new file has those of any new one; one that is there keeps its own, and its owner, also by another name."""
    other = 1234 if os.geteuid() == 0 else os.geteuid()
    for mask in 0o022, 0o077:
        told([*PYTHON, CLIENT, *METRICS, f"new-{mask}"], cwd=room, umask=mask)
        same(f"by {mask:o}", about(f"{room}/new-{mask}"), (0o666 & ~mask, os.geteuid(), os.getegid()))
    for mode in 0o600, 0o664:
        start(f"{room}/old", "old\n")
        os.chown(f"{room}/old", other, os.getegid())
        os.chmod(f"{room}/old", mode)
        os.symlink("old", f"{room}/name-{mode}")
        told([*PYTHON, CLIENT, *METRICS, f"name-{mode}"], cwd=room, umask=0o022)
        same(f"of {mode:o}", about(f"{room}/old"), (mode, other, os.getegid()))
        same("it is written", text_of(f"{room}/old").endswith(LAST), True)


def test_an_output_of_another_user(room: str, monkeypatch: pytest.MonkeyPatch) -> None:
    """Whoever may replace a file, and not give one to its owner, makes it his own with the same rights. One that has to
    keep its owner stays as it is."""

    def refuses(*_: object) -> None:
        raise PermissionError(1, "Operation not permitted")

    start(f"{room}/old", "old\n")
    os.chmod(f"{room}/old", 0o604)
    monkeypatch.setattr(os, "fchown", refuses)
    with pytest.raises(Stop, match="old can't be written: Operation not permitted"):
        replace_file(f"{room}/old", b"lost\n", True)
    same("it stays", text_of(f"{room}/old"), "old\n")
    replace_file(f"{room}/old", b"new\n")
    same("it is replaced", (text_of(f"{room}/old"), about(f"{room}/old")[0]), ("new\n", 0o604))
    same("what is left", [it for it in os.listdir(room) if it.startswith(".old")], [])


def test_an_output_that_is_no_file(room: str) -> None:
    """What is a pipe or a device stays one, and gets the text."""
    os.mkfifo(f"{room}/pipe")
    with open(os.open(f"{room}/pipe", os.O_RDONLY | os.O_NONBLOCK), encoding="utf-8") as it:
        told([*PYTHON, CLIENT, *METRICS, "pipe"], cwd=room)
        same("a pipe", stat.S_ISFIFO(os.stat(f"{room}/pipe").st_mode), True)
        same("the text", it.read().endswith(LAST), True)
    status, output, _ = told([*PYTHON, CLIENT, *METRICS, "/dev/stdout"], cwd=room)
    same("standard output", (status, output.endswith(LAST)), (0, True))
    status, _, errors = told([*PYTHON, CLIENT, *METRICS, "."], cwd=room)
    same("a folder", (status, errors.split("\n")[-2]), (3, "holzhebo: . can't be written: Is a directory"))
