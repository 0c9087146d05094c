"""A broker as a service, without systemd: a `systemctl` of the tests starts and stops the program over a file in a
folder of its own, which belongs to another user than root. The scripts of examples/ are run with it."""
import os, re, signal, subprocess
from collections.abc import Sequence
from tests.process import await_port, bytes_of, free_port, run
from tests.wire import Caller, same
from tests.world import BLUE, RED, new_file

NOBODY = 65534
SYSTEMCTL = """#!/bin/sh
pid=$(cat {room}/pid)
case "$*" in
  "cat broker") ;;
  "is-enabled --quiet broker") [ -e {room}/enabled ] ;;
  "show --property MainPID --value broker") echo "$pid" ;;
  "show --property ActiveState --value broker") if [ -e "/proc/$pid/exe" ]; then echo active; else echo inactive; fi ;;
  "kill --signal STOP broker") kill -s STOP "$pid" ;;
  "kill --signal CONT broker") kill -s CONT "$pid" ;;
  "start broker") setsid {words} > {room}/said 2>&1 & echo $! > {room}/pid ;;
  "stop broker")
    kill "$pid" 2> /dev/null && kill -s CONT "$pid"
    while grep -q '^State:.[^ZX]' "/proc/$pid/status" 2> /dev/null; do sleep 0.01; done ;;
  *) exit 1 ;;
esac
"""
Shown = tuple[int, str]


class Service(Caller):
    """The broker as a service over its file: in room/lib, with a folder room/backup for copies."""

    def __init__(self, program: str, room: str) -> None:
        self.program, self.room, self.folder, self.port = program, room, f"{room}/lib", free_port()
        self.address = ("127.0.0.1", self.port)
        self.url = f"http://127.0.0.1:{self.port}"
        for folder in self.folder, f"{room}/bin", f"{room}/backup":
            os.mkdir(folder, 0o700)
        os.chmod(f"{room}/bin", 0o755)
        self.file = new_file(program, self.folder)
        if os.geteuid() == 0:
            for path in self.folder, self.file:
                os.chown(path, NOBODY, NOBODY)
        words = f"{program} serve --file {self.file} --listen 127.0.0.1:{self.port} --connections 1000000"
        self.tool("systemctl", SYSTEMCTL.format(room=room, words=words))
        with open(f"{room}/pid", "w", encoding="ascii") as it:
            it.write("0")
        self.env = {"PATH": f"{room}/bin:{os.environ['PATH']}"}

    def tool(self, name: str, text: str) -> str:
        """A command that the scripts find before the one of the machine."""
        path = f"{self.room}/bin/{name}"
        with open(path, "w", encoding="utf-8") as it:
            it.write(text)
        os.chmod(path, 0o755)
        return path

    # The service

    def pid(self) -> int:
        return int(read(f"{self.room}/pid"))

    def systemctl(self, word: str) -> None:
        subprocess.run([f"{self.room}/bin/systemctl", word, "broker"], check=True)

    def start(self) -> "Service":
        self.systemctl("start")
        await_port(self.port)
        return self

    def lose_power(self) -> None:
        """Ends the program in the middle, so that its rows stay in the log."""
        os.kill(self.pid(), signal.SIGKILL)
        self.systemctl("stop")

    def state(self) -> str:
        """The letter of the process's state: T if it is stopped."""
        found = re.search(r"(?m)^State:\s(\w)", read(f"/proc/{self.pid()}/status"))
        assert found
        return found[1]

    def is_served(self) -> bool:
        try:
            return bool(self.ask("GET", "/"))
        except OSError:
            return False

    def answers(self) -> list[Shown]:
        paths = ["/environments/live", "/environments/vault", "/matrix?pacticipant=shop&version=1"]
        paths += [f"/can-i-deploy?pacticipant=shop&version={it}&environment=vault" for it in "123"]
        asks = [(RED, it) for it in paths] + [(BLUE, "/environments/open")]
        found = [self.ask("GET", path, token) for token, path in asks]
        return [(it.status, it.body) for it in found]

    # The scripts

    def script(self, name: str, *words: str, status: int = 0, **env: str) -> str:
        return run([f"examples/{name}", *words], status, {**self.env, **env})

    def backup(self, name: str, program: str = "") -> str:
        copy = f"{self.room}/backup/{name}"
        said = self.script("backup.sh", program or self.program, self.file, copy, "broker")
        pattern = rf"{copy} holds format 2 with 3 contracts, and the broker was paused for \d+ ms\n"
        assert re.fullmatch(pattern, said), said
        return copy

    def restore_words(self, copy: str) -> list[str]:
        return ["examples/restore.sh", self.program, copy, self.file, "broker", self.url]

    def restore(self, copy: str, status: int = 0) -> str:
        return run(self.restore_words(copy), status, self.env)

    def begin(self, words: Sequence[str], **env: str) -> "subprocess.Popen[str]":
        """A script that is begun, and not waited for."""
        given = {**os.environ, **self.env, **env}
        return subprocess.Popen(words, env=given, stdout=subprocess.PIPE, stderr=subprocess.STDOUT, text=True)

    def kept(self) -> list[dict[str, bytes]]:
        """What was there before each restore, oldest first."""
        name = re.compile(r"broker\.db\.before-[0-9TZ-]{18}\..{6}")
        return [content(f"{self.folder}/{it}") for it in sorted(os.listdir(self.folder)) if name.fullmatch(it)]


def read(file: str) -> str:
    with open(file, encoding="utf-8", errors="replace") as it:
        return it.read()


def content(folder: str) -> dict[str, bytes]:
    """What each file of a folder has."""
    found: dict[str, bytes] = {}
    for name in sorted(os.listdir(folder)):
        if os.path.isfile(f"{folder}/{name}"):
            found[name] = bytes_of(f"{folder}/{name}")
    return found


def flip(file: str) -> None:
    """One bit in the middle of the file."""
    at = os.path.getsize(file) // 2 + 100
    with open(file, "r+b") as it:
        it.seek(at)
        byte = it.read(1)[0]
        it.seek(at)
        it.write(bytes([byte ^ 4]))


def only(folder: str, names: list[str]) -> None:
    same(f"the files in {os.path.basename(folder)}", sorted(os.listdir(folder)), sorted(names))
