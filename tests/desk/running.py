"""`./run` while it runs, for test_run.py: what it says, its processes, how it ends; and a program in the broker's
place that answers oddly."""
from __future__ import annotations

import contextlib, os, re, secrets, signal, socket, subprocess, tempfile, threading, time
from typing import Any

from tests.desk.world import write
from tests.process import TOP, free_port
from tests.wire import PATIENCE, Wrong, same

MARK = "HOLZHEBO_CHECK"
# What listens in the broker's place: what it answers says which head it got, or is no answer of a broker.
ODD = """#!/usr/bin/env python3
import json, socket, sys, time
words = dict(it[2:].split("=", 1) for it in sys.argv[2:])
host, port = words["listen"].split(":")
here = socket.create_server((host, int(port)))
while True:
    line, _ = here.accept()
    head = b""
    while b"\\r\\n\\r\\n" not in head:
        head += line.recv(4096) or b"\\r\\n\\r\\n"
    path = head.split(b" ")[1] if b" " in head else b""
    if path.startswith(b"/echo"):
        body = json.dumps(head.decode("latin-1").split("\\r\\n\\r\\n")[0].split("\\r\\n")).encode()
        line.sendall(b"HTTP/1.1 200 OK\\r\\ncontent-length: %d\\r\\nset-cookie: a=b\\r\\n\\r\\n" % len(body) + body)
    elif path == b"/cut":
        line.sendall(b"HTTP/1.1 200 OK\\r\\ncontent-length: 9\\r\\n\\r\\nhalf")
    elif path == b"/endless":
        line.sendall(b"HTTP/1.1 200 OK\\r\\n\\r\\nno length")
    elif path == b"/other":
        line.sendall(b"220 mail.example.org ready\\r\\n")
    elif path == b"/silent":
        silent = line
        continue
    line.close()
"""


def heard() -> None:
    """Signals end what is started, also if they don't end whoever starts the tests, as under nohup."""
    for each in signal.SIGHUP, signal.SIGINT, signal.SIGTERM:
        signal.signal(each, signal.SIG_DFL)


class Running:
    """./run with these words, on free ports, with a folder of its own for what it makes."""

    process: "subprocess.Popen[str]"

    # The program that is tried.
    usual = ""

    def __init__(self, room: str, *words: str, program: str | None = None, top: str = TOP, **more: Any) -> None:
        """`more` may have the ports `port` and `page`, and the words `before` the path of ./run."""
        program = self.usual if program is None else program
        self.room, self.mark = tempfile.mkdtemp(dir=room), secrets.token_hex(8)
        self.port, self.page = more.get("port") or free_port(), more.get("page") or free_port()
        self.url = f"http://127.0.0.1:{self.page}/desk/"
        given = ["--program", program] if program else []
        given += ["--port", str(self.port), "--page-port", str(self.page)]
        self.words = [*more.get("before", []), f"{top}/run", *given, *words]
        self.lines: list[str] = []

    def __enter__(self) -> "Running":
        env = {**os.environ, "TMPDIR": self.room, MARK: self.mark}
        env.pop("PYTHONDONTWRITEBYTECODE", None)
        pipes: dict[str, Any] = {"stdout": subprocess.PIPE, "stderr": subprocess.STDOUT, "text": True}
        pipes |= {"start_new_session": True, "preexec_fn": heard}
        self.process = subprocess.Popen(self.words, cwd=self.room, env=env, **pipes)
        self.reader = threading.Thread(target=self.read, daemon=True)
        self.reader.start()
        return self

    def read(self) -> None:
        for row in self.process.stdout or []:
            self.lines.append(row.rstrip("\n"))

    def __exit__(self, *_: object) -> None:
        for it in [self.process.pid, *self.processes()]:
            with contextlib.suppress(OSError):
                os.kill(it, signal.SIGKILL)
        self.process.wait(PATIENCE)
        self.reader.join(PATIENCE)

    def said(self) -> str:
        return "\n".join(self.lines)

    def until(self, pattern: str) -> "Running":
        """Waits until it has said this."""
        until = time.monotonic() + 60
        while not re.search(pattern, self.said()):
            if self.process.poll() is not None:
                self.reader.join(PATIENCE)
                if not re.search(pattern, self.said()):
                    raise Wrong(f"it ends with {self.process.returncode} before it says {pattern!r}: {self.said()}")
            if time.monotonic() > until:
                raise Wrong(f"it doesn't say {pattern!r}: {self.said()}")
            time.sleep(0.005)
        return self

    def serves(self) -> "Running":
        return self.until("to stop: ")

    def ends(self, *statuses: int) -> str:
        """All that it has said, once it has ended with one of these statuses, and nothing of it is left."""
        status = self.process.wait(60)
        self.reader.join(PATIENCE)
        same("the status", status if status not in statuses else statuses[0], statuses[0])
        until = time.monotonic() + 5  # a child that got the signal too may end a moment later
        while self.processes() and time.monotonic() < until:
            time.sleep(0.02)
        same("processes that are left", [self.words_of(it) for it in self.processes()], [])
        if "Traceback" in self.said():
            raise Wrong(self.said())
        return self.said()

    def broken_off(self, *statuses: int, ending: int = signal.SIGINT, group: bool = True) -> str:
        """The same after a signal, to its group as Ctrl-C sends it, or to the one process."""
        (os.killpg if group else os.kill)(self.process.pid, ending)
        return self.ends(*statuses)

    def processes(self) -> list[int]:
        """All that it has started and that is there, whoever their parent is."""
        found = []
        for it in filter(str.isdigit, os.listdir("/proc")):
            with contextlib.suppress(OSError), open(f"/proc/{it}/environ", "rb") as env:
                if f"{MARK}={self.mark}".encode() in env.read().split(b"\0"):
                    found.append(int(it))
        return found

    def words_of(self, process: int) -> str:
        with contextlib.suppress(OSError), open(f"/proc/{process}/cmdline", encoding="utf-8") as it:
            return it.read().replace("\0", " ").strip()
        return ""

    def broker(self) -> int:
        """The number of the broker's process."""
        found = [it for it in self.processes() if f"--listen=127.0.0.1:{self.port} " in self.words_of(it)]
        same("brokers", len(found), 1)
        return found[0]

    def files(self) -> list[str]:
        """What it has made in the folder for what is temporary."""
        return sorted(os.path.join(at, name) for at, _, names in os.walk(self.room) for name in names)


def sent(port: int, text: bytes) -> bytes:
    """The whole answer to these bytes."""
    with socket.create_connection(("127.0.0.1", port), 90) as line:
        line.sendall(text)
        got = b""
        while more := line.recv(65536):
            got += more
        return got


def asks(page: int, ask: str, *fields: str, host: str = "", body: str = "") -> tuple[int, dict[str, str], str]:
    """The answer of the page's server: its status, its fields, its body."""
    lines = [f"{ask} HTTP/1.1", f"Host: {host or f'127.0.0.1:{page}'}", *fields, "", body]
    got = sent(page, "\r\n".join(lines).encode("latin-1"))
    head, _, rest = got.partition(b"\r\n\r\n")
    first, *rows = head.decode("latin-1").split("\r\n")
    if not re.match(r"HTTP/1\.1 \d{3} ", first):
        raise Wrong(f"{ask} is answered {got!r}")
    return int(first[9:12]), dict(it.split(": ", 1) for it in rows), rest.decode()


def by(token: str) -> str:
    return f"Authorization: Bearer {token}"


# A program in the place of another

SHELL = "#!/bin/sh\n"


def made(path: str, text: str) -> str:
    """A program of this text."""
    write(path, text)
    os.chmod(path, 0o755)
    return path


def instead(room: str, case: str) -> str:
    """The program, but for what this does before it."""
    folder = tempfile.mkdtemp(dir=room)
    return made(f"{folder}/broker", f'{SHELL}{case}\nexec "{Running.usual}" "$@"\n')
