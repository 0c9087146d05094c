"""The one server: a broker that is started, asked, stopped, killed and started again; and how a process is run."""
import contextlib, fcntl, os, random, re, resource, select, signal, socket, subprocess, tempfile, time
from collections.abc import Callable, Mapping, Sequence
from typing import Any, NamedTuple
from tests.kernel import is_listened_on
from tests.wire import PATIENCE, Address, Caller, NotRun, Wrong

TOP = os.path.dirname(os.path.dirname(os.path.abspath(__file__)))
# Where files are in memory, if there is such a folder: else each sync waits for the machine's disk. No program is run
# from there, since that may be forbidden.
MEMORY = "/dev/shm" if os.access("/dev/shm", os.W_OK) else None
# The ports that Linux gives to no connection by itself.
PORTS = range(10_000, 32_768)
# What a process may take at most of a resource, by the names of the module `resource`.
Limits = Sequence[tuple[int, int]]


class Ended(NamedTuple):
    """How a process ended: its status, what it wrote on standard output, and what on standard error."""

    status: int
    output: str
    errors: str


def limited(limits: Limits) -> Callable[[], None] | None:
    """What a process does before it becomes the program: it takes these limits, and a file that is too long is a fault
    and no signal."""

    def prepare() -> None:
        signal.signal(signal.SIGXFSZ, signal.SIG_IGN)
        for what, most in limits:
            resource.setrlimit(what, (most, most))

    return prepare if limits else None


def ran(words: Sequence[str], text: str | bytes = b"", limits: Limits = (), **settings: Any) -> Ended:
    """How these words end. `text` is on standard input; the settings are those of subprocess.run."""
    given = text.encode() if isinstance(text, str) else text
    pipes: dict[str, Any] = {"stdout": subprocess.PIPE, "stderr": subprocess.PIPE, "timeout": PATIENCE}
    pipes.update({} if "stdin" in settings else {"input": given}, preexec_fn=limited(limits), **settings)
    done = subprocess.run(words, check=False, **pipes)
    return Ended(done.returncode, *((it or b"").decode(errors="replace") for it in (done.stdout, done.stderr)))


def run(words: Sequence[str], status: int = 0, env: Mapping[str, str] | None = None, text: str | None = None) -> str:
    """What the words print on standard output, run from the top of the repository with these settings beside those of
    this process; they have to end with the status, and all that they start ends with them if they take too long."""
    __tracebackhide__ = True
    pipes: dict[str, Any] = {it: subprocess.PIPE for it in ("stdin", "stdout", "stderr")}
    pipes.update(cwd=TOP, env={**os.environ, **(env or {})}, start_new_session=True, text=True)
    it = subprocess.Popen(words, **pipes)
    try:
        output, errors = it.communicate(text, timeout=5 * PATIENCE)
    except subprocess.TimeoutExpired:
        os.killpg(it.pid, signal.SIGKILL)
        it.communicate()
        raise
    if it.returncode == 77 != status:
        raise NotRun(output.strip().split("\n")[-1].removeprefix("not run: "))
    if it.returncode != status:
        raise Wrong(f"{' '.join(words)} ends with {it.returncode} and not {status}:\n{output}{errors}")
    return str(output)


# What `slowness` counts takes an ordinary processor so many seconds.
COUNTS = 0.5


def slowness(clock: Callable[[], float] = time.process_time) -> float:
    """How many times as long as an ordinary one the processor takes now, which others may share: 1 or more. By the clock
    time.monotonic it counts too how long it works for others meanwhile."""
    began, total = clock(), 0
    for number in range(10_000_000):
        total += number
    return max(1.0, (clock() - began) / COUNTS)


# Files


def text_of(path: str) -> str:
    """The text of a file; a path that doesn't begin with / is one of the repository."""
    with open(os.path.join(TOP, path), encoding="utf-8") as it:
        return it.read()


def bytes_of(path: str) -> bytes:
    """What a file holds."""
    with open(os.path.join(TOP, path), "rb") as it:
        return it.read()


# Ports and addresses


def next_port() -> int:
    """The port after the one that was given last on this machine, of those that the kernel gives to no connection. So
    one that is given, and where nobody listens yet, is given to no other test until all the others were."""
    file = os.open(f"{tempfile.gettempdir()}/holzhebo-port-{os.getuid()}", os.O_RDWR | os.O_CREAT | os.O_CLOEXEC, 0o600)
    try:
        fcntl.flock(file, fcntl.LOCK_EX)
        last = int(os.pread(file, 5, 0) or random.choice(PORTS))
        port = PORTS[(last - PORTS.start + 1) % len(PORTS)]
        os.pwrite(file, b"%d" % port, 0)
        return port
    finally:
        os.close(file)


def free_port(host: str = "127.0.0.1") -> int:
    """A port of this address of loopback that nobody listens on, and that no other test is about to."""
    for _ in PORTS:
        port = next_port()
        with socket.socket() as it, contextlib.suppress(OSError):
            it.bind((host, port))
            return port
    raise Wrong(f"no port of {host} is free")


def free_address() -> Address:
    """An address of loopback that only this process uses, with a port that is free there: so many connections after one
    another, which the kernel keeps for a while, don't use up the ports of 127.0.0.1."""
    number = os.getpid()
    host = f"127.{1 + (number >> 16) % 120}.{number >> 8 & 255}.{number & 255}"
    return host, free_port(host)


def await_port(port: int, process: "subprocess.Popen[Any] | None" = None, said: Callable[[], str] = str) -> None:
    """Waits until somebody listens there. If this process ends before, the fault has what it said."""
    end = time.monotonic() + PATIENCE
    while not is_listened_on(("127.0.0.1", port)):
        if process and process.poll() is not None:
            raise Wrong(f"who has to listen ends with {process.returncode}: {said()}")
        if time.monotonic() > end:
            raise Wrong("nobody listens")
        time.sleep(0.001)


# Processes


def kept_bytes(file: int, begin: int = 0) -> bytes:
    """All that a file in memory holds from there on."""
    return os.pread(file, max(os.fstat(file).st_size - begin, 0), begin)


class Started:
    """A process by these words, which is begun once and again, seen to end, and killed at the end of a `with`. What it
    writes on standard error is kept; the settings are those of subprocess.Popen."""

    process: "subprocess.Popen[bytes]"
    watch = -1

    def __init__(self, words: Sequence[str], limits: Limits = (), **settings: Any) -> None:
        self.words = list(words)
        self.settings: dict[str, Any] = {"preexec_fn": limited(limits), **settings}
        self.kept = os.fdopen(os.memfd_create("errors"), "r+b")

    def begin(self) -> None:
        self.process = subprocess.Popen(self.words, stderr=self.kept, start_new_session=True, **self.settings)
        self.watch = os.pidfd_open(self.process.pid)

    def has_ended(self) -> bool:
        ended = select.poll()
        ended.register(self.watch, select.POLLIN)
        return bool(ended.poll(0))

    def errors(self) -> bytes:
        """What it has written on standard error so far."""
        return kept_bytes(self.kept.fileno())

    def log(self) -> str:
        return self.errors().decode(errors="replace")

    def finish(self) -> int:
        """Its status, once it has ended by itself."""
        ended = select.poll()
        ended.register(self.watch, select.POLLIN)
        if not ended.poll(PATIENCE * 1000):
            raise Wrong(f"it doesn't end within {PATIENCE} seconds: {' '.join(self.words)}")
        return self.process.wait()

    def kill(self) -> None:
        """Ends it at once, with all that it has started."""
        if self.watch >= 0:
            if self.process.poll() is None:
                os.killpg(self.process.pid, signal.SIGKILL)
                self.process.wait()
            os.close(self.watch)
            self.watch = -1

    def __enter__(self) -> Any:
        self.begin()
        return self

    def __exit__(self, *_: object) -> None:
        self.kill()


class Server(Started, Caller):
    """A program while it serves a file: to so many connections, on an address of its own. `words` are served in the
    place of the usual ones; `before` come before the program."""

    def __init__(
        self,
        program: str,
        file: str,
        connections: int = 1_000_000,
        address: Address | None = None,
        before: Sequence[str] = (),
        words: Sequence[str] | None = None,
        **settings: Any,
    ) -> None:
        self.file, self.address = file, address or ("127.0.0.1", free_port())
        self.port, here = self.address[1], "%s:%d" % self.address
        self.url = f"http://{here}"
        usual = [program, "serve", "--file", file, "--listen", "127.0.0.1:1", "--connections", str(connections)]
        own = [re.sub(r"127\.0\.0\.1:\d+", here, it) for it in words or usual]
        self.written = os.fdopen(os.memfd_create("output"), "r+b")
        streams: dict[str, Any] = {"stdin": subprocess.DEVNULL, "stdout": self.written}
        super().__init__([*before, *own], **{**streams, **settings})

    def connect(self) -> socket.socket:
        """The next connection: as soon as it listens, which the connection itself finds out."""
        end = time.monotonic() + PATIENCE
        while True:
            try:
                return self.open()
            except ConnectionRefusedError:
                if self.has_ended():
                    raise Wrong(f"serve ends with {self.process.wait()}: {self.log()}") from None
                if time.monotonic() > end:
                    raise Wrong("nobody listens") from None
                time.sleep(0.0003)

    def start(self) -> "Server":
        """Begins, and waits until it listens, without a connection."""
        self.begin()
        await_port(self.port, self.process, self.log)
        return self

    def wait(self) -> Ended:
        """How it ends by itself."""
        status = self.finish()
        return Ended(status, kept_bytes(self.written.fileno()).decode(errors="replace"), self.log())

    def stop(self) -> Ended:
        """Ends it as a service manager does, if it hasn't ended."""
        self.process.terminate()
        return self.wait()

    def restart(self) -> "Server":
        """Starts it again over its file, on its address; it is stopped before, if it runs."""
        if self.watch >= 0:
            self.stop()
            self.kill()
        return self.start()

    def __enter__(self) -> "Server":
        return self.start()
