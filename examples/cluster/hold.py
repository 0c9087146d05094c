#!/usr/bin/env python3
"""Runs a broker whose file is on a volume of several machines, and ends it as soon as this machine may have lost the
lock on the file: so no two machines serve at one time.

    hold.py FILE ADDRESS PROGRAM WORD..    PROGRAM WORD.. serves FILE on ADDRESS, as 127.0.0.1:9292

The broker locks its file when it opens it, and holds the lock for as long as it runs. The volume gives up the lock of
a machine that it doesn't hear for five seconds (examples/cluster/volume.options); then another machine may serve. A
change can't be made here after that, since the volume refuses the write. But a question may be answered from memory,
without the file. So this asks the volume twice a second whose lock it is. If it isn't the broker's, or if the last
answer that it is was asked for more than LIMIT seconds ago, the broker is killed. So it is if the volume fails, as
when its process here has ended, since its lock is given up at once then. Nothing that was acknowledged is lost by it.

A replica that was away and is connected again has no lock of the broker, and gets what it writes only by healing,
until the broker opens its file again. If it came between the opening of the file and that of its log, it lacks the
lock of one of them. So once a replica with fewer locks than another one was seen LOOKS times, the broker is ended too,
and systemd starts it again.

Says to systemd that the service is ready once the broker answers. Ends with the status of the broker, with 1 if it
was killed, and then has one line that says why."""
import contextlib, fcntl, glob, os, re, signal, socket, struct, subprocess, sys, threading, time

# Less than the seconds after which the volume gives up the lock, by more than a busy machine may be late.
LIMIT = 3.5
PAUSE = 0.5
# How often a replica has to be seen to be back, and after how many pauses each time.
LOOKS, BETWEEN = 2, 4
# The bytes that a database's lock is on: SQLite's pending, reserved and shared ones.
FIRST, COUNT = 0x40000000, 512
LOCK = "hhqqi4x"


def holder(file: str) -> int:
    """The process of this machine that has the lock on the file; 0 if it is nobody, or on another machine."""
    descriptor = os.open(file, os.O_RDONLY)
    try:
        asked = struct.pack(LOCK, fcntl.F_WRLCK, os.SEEK_SET, FIRST, COUNT, 0)
        kind, _, _, _, process = struct.unpack(LOCK, fcntl.fcntl(descriptor, fcntl.F_GETLK, asked))
    finally:
        os.close(descriptor)
    return 0 if kind == fcntl.F_UNLCK else int(process)


def locks(folder: str) -> list[int]:
    """How many locks this machine has at each replica that the volume of this folder is connected to. What isn't open at
    a replica has a negative number there, and so has what an earlier broker left."""
    found = []
    for path in glob.glob(f"{folder}/.meta/graphs/active/*-client-[0-9]*/private"):
        with open(path, encoding="utf-8") as it:
            text = it.read()
        if "\nconnected = 1\n" in text:
            found.append(len(re.findall(r"remote_fd = \d+\n-+ = -+\ngranted-posix-lock", text)))
    return found


class Lock:
    """What is known of the broker's lock. It is asked for in a thread, as a volume that is cut off doesn't answer."""

    def __init__(self, file: str, process: int) -> None:
        self.file, self.process = file, process
        self.held_at = 0.0
        self.lost = ""
        self.looks = 0
        threading.Thread(target=self.watch, daemon=True).start()

    def watch(self) -> None:
        turn = 0
        while not self.lost:
            self.ask()
            turn += 1
            if self.held_at and turn % BETWEEN == 0:
                with contextlib.suppress(OSError):
                    self.look()
            time.sleep(PAUSE if self.held_at else 0.05)

    def ask(self) -> None:
        """Whose lock it is."""
        began = time.monotonic()
        try:
            found = holder(self.file)
        except OSError as why:
            if self.held_at:
                self.lost = f"the volume fails: {why.strerror}"
            return
        if found == self.process:
            self.held_at = began
        elif self.held_at:
            self.lost = f"the lock is that of process {found}" if found else "the lock is lost"

    def look(self) -> None:
        """Whether a replica is back that doesn't have each lock."""
        found = locks(os.path.dirname(self.file))
        self.looks = self.looks + 1 if found and min(found) < max(found) else 0
        if self.looks == LOOKS:
            self.lost = "a replica is back, and gets its locks as the file is opened again"

    def fault(self) -> str:
        """Why the broker may not go on; nothing while it has the lock, or hasn't got it yet."""
        if self.held_at and time.monotonic() - self.held_at > LIMIT:
            return f"the volume hasn't answered for {LIMIT} seconds"
        return self.lost


def answers(address: str) -> bool:
    """Whether a broker serves there: GET / is 404."""
    host, port = address.rsplit(":", 1)
    with contextlib.suppress(OSError), socket.create_connection((host, int(port)), 1) as it:
        it.settimeout(1)
        it.sendall(b"GET / HTTP/1.1\r\nhost: broker\r\nconnection: close\r\n\r\n")
        return it.recv(64).startswith(b"HTTP/1.1 404 ")
    return False


def notify(text: str) -> None:
    """Says this to systemd, as its sd_notify does."""
    path = os.environ.get("NOTIFY_SOCKET", "")
    if path:
        with socket.socket(socket.AF_UNIX, socket.SOCK_DGRAM) as it:
            it.connect("\0" + path[1:] if path.startswith("@") else path)
            it.sendall(text.encode())


def as_others() -> None:
    """This process comes before others at the processors (broker.conf); the broker doesn't."""
    with contextlib.suppress(OSError):
        os.sched_setscheduler(0, os.SCHED_OTHER, os.sched_param(0))


def run(file: str, address: str, words: list[str]) -> int:
    broker = subprocess.Popen(words, preexec_fn=as_others)
    for number in signal.SIGTERM, signal.SIGINT:
        signal.signal(number, lambda *_: broker.kill())
    lock, is_ready = Lock(file, broker.pid), False
    while True:
        with contextlib.suppress(subprocess.TimeoutExpired):
            return broker.wait(0.1)
        fault = lock.fault()
        if fault:
            broker.kill()
            print(f"the broker is ended: {fault}", file=sys.stderr, flush=True)
            os._exit(1)  # without waiting for a thread or a process that the volume keeps
        if not is_ready and lock.held_at and answers(address):
            is_ready = True
            notify("READY=1\nSTATUS=serves: this machine has the lock\n")


if __name__ == "__main__":
    if len(sys.argv) < 5:
        print(__doc__, file=sys.stderr)
        sys.exit(2)
    status = run(sys.argv[1], sys.argv[2], sys.argv[3:])
    os._exit(status if status >= 0 else 128 - status)
