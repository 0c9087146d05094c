"""What ./run does, whose own text says it: a broker on this machine with its page, until Ctrl-C.

Each program that it starts is the first of a group, and the whole group is ended. A signal is only written down as it
comes, and each step looks for one while it waits: so none comes between two things that belong together. Python 3.9 or
later, with the standard library only."""
import signal

# The signals that came. They are taken before all else; until then ./run has them blocked, so that none is lost.
CAME: "list[int]" = []
ENDINGS = signal.SIGINT, signal.SIGTERM, signal.SIGHUP
for each in ENDINGS:
    if each != signal.SIGHUP or signal.getsignal(each) != signal.SIG_IGN:
        signal.signal(each, lambda number, _: CAME.append(number))
signal.pthread_sigmask(signal.SIG_UNBLOCK, ENDINGS)

import argparse, contextlib, errno, http.client, io, json, os, re, secrets, shlex, shutil, socket, sqlite3, subprocess
import sys, tempfile, threading, time
from typing import IO, Any, Dict, Iterator, List, NoReturn, Sequence

TOP = os.path.dirname(os.path.dirname(os.path.abspath(__file__)))
sys.path.insert(0, f"{TOP}/client/src")
from holzhebo import faults
from holzhebo.api.address import Address
from holzhebo.api.token import token_in
from holzhebo.desk.page import files_in
from holzhebo.desk.server import HOST, Desk
from holzhebo.files import read_text

PROGRAM = "crates/broker/out/broker"
# The tokens of the demo, which everybody knows.
OFFICE, RED, BLUE, READING = "office-token-0001", "red-team-token-0001", "blue-team-token-0001", "desk-token-000001"
# The seconds that a program may take to end.
PATIENCE = 20
Process = subprocess.Popen[bytes]
Words = argparse.Namespace


class Stop(Exception):
    """Why it doesn't go on: a sentence, and the status."""

    def __init__(self, why: str, status: int = 1) -> None:
        super().__init__(why)
        self.status = status


class Ended(Exception):
    """A signal has come."""


def tell(text: str) -> None:
    """Prints a line. That nobody takes it any more is as a signal."""
    try:
        print(text, flush=True)
    except OSError:
        os.dup2(os.open(os.devnull, os.O_WRONLY), 1)
        CAME.append(signal.SIGPIPE)


def note(text: str) -> None:
    with contextlib.suppress(OSError):
        print(f"run: {text}", file=sys.stderr, flush=True)


# Programs that are started


def end(process: Process, ending: int) -> None:
    """Ends it with all of its group: kindly, or by force if it takes long or another signal comes."""
    before, until = len(CAME), time.monotonic() + PATIENCE
    with contextlib.suppress(ProcessLookupError):
        os.killpg(process.pid, ending)
        while process.poll() is None and time.monotonic() < until and len(CAME) == before:
            time.sleep(0.01)
        os.killpg(process.pid, signal.SIGKILL)
    process.wait()


@contextlib.contextmanager
def started(words: Sequence[str], ending: int = signal.SIGTERM, **more: Any) -> Iterator[Process]:
    """This program runs meanwhile."""
    try:
        it = subprocess.Popen(words, stdin=subprocess.DEVNULL, start_new_session=True, **more)
    except OSError as why:
        raise Stop(f"{words[0]} can't be started: {why.strerror}") from None
    try:
        yield it
    finally:
        end(it, ending)


def look() -> None:
    """Waits a moment, and goes no further if a signal has come."""
    time.sleep(0.02)
    if CAME:
        raise Ended()


def status_of(process: Process) -> int:
    """Waits for its end."""
    while process.poll() is None:
        look()
    look()
    return int(process.returncode)


def how(status: int) -> str:
    return f"signal {signal.Signals(-status).name}" if status < 0 else f"status {status}"


def last_of(said: IO[bytes]) -> str:
    """The last line that a program has written."""
    said.seek(0)
    line = said.read().decode("utf-8", "backslashreplace").strip().split("\n")[-1]
    return f"and says: {line}" if line else "and says nothing"


# What is seen before anything is made


class Parser(argparse.ArgumentParser):
    def error(self, message: str) -> NoReturn:
        raise Stop(f"{message}; ./run --help says what there is", 2)


def port(text: str) -> int:
    if not re.fullmatch(r"[0-9]{1,5}", text) or not 1 <= int(text) <= 65535:
        raise argparse.ArgumentTypeError(f"{text!r} isn't a port, 1 to 65535")
    return int(text)


def words_of(line: Sequence[str]) -> Words:
    parser = Parser(prog="run", add_help=False, allow_abbrev=False)
    parser.add_argument("file", nargs="?")
    for option in "--token-file", "--program":
        parser.add_argument(option)
    parser.add_argument("--port", type=port, default=9292)
    parser.add_argument("--page-port", type=port, default=9393)
    words = parser.parse_args(line)
    if words.token_file is not None and words.file is None:
        parser.error("--token-file goes with a FILE, since the demo has tokens of its own")
    if words.port == words.page_port:
        parser.error(f"port {words.port} can't be both the broker's (--port) and the page's (--page-port)")
    return words


def token_of(path: str) -> str:
    """The token of a file."""
    try:
        return token_in(read_text(path), path)
    except faults.Stop as why:
        raise Stop(str(why)) from None


def taken(number: int, use: str, option: str, why: OSError) -> Stop:
    said = "is taken" if why.errno == errno.EADDRINUSE else f"can't be used ({why.strerror})"
    return Stop(f"port {number}, for {use}, {said}: {option} N takes another")


def reserved(number: int) -> socket.socket:
    """The broker's port, which nobody else gets until the broker does."""
    it = socket.socket()
    it.setsockopt(socket.SOL_SOCKET, socket.SO_REUSEADDR, 1)
    try:
        it.bind((HOST, number))
        it.listen(1)
    except OSError as why:
        it.close()
        raise taken(number, "the broker", "--port", why) from None
    return it


def page_on(words: Words, reading: str, office: str) -> Desk:
    """The page's server, which has no broker yet."""
    try:
        it = Desk(words.page_port, files_in(f"{TOP}/desk"), Address(f"http://{HOST}:{words.port}"))
    except OSError as why:
        raise taken(words.page_port, "the page", "--page-port", why) from None
    it.reading, it.office, it.is_there = reading, office, lambda: False
    threading.Thread(target=it.serve_forever, daemon=True).start()
    return it


# The program and its file


def program_of(words: Words) -> str:
    """The path of the program, which is built if it isn't there."""
    path: str = f"{TOP}/{PROGRAM}" if words.program is None else os.path.abspath(words.program)
    if os.path.isfile(path) and os.access(path, os.X_OK):
        return path
    if words.program is not None:
        raise Stop(f"there is no program {words.program}")
    tell(f"there is no program {PROGRAM} yet: ./build makes it, which takes about half an hour")
    with started([f"{TOP}/build"], signal.SIGINT) as build:
        status = status_of(build)
    if status != 0 or not os.access(path, os.X_OK):
        raise Stop(f"./build ends with {how(status)}, and there is no program; called again, ./run goes on from there")
    return path


def new_file(program: str, said: IO[bytes]) -> str:
    """The demo's file. Of one that isn't made whole nothing is left."""
    folder = tempfile.mkdtemp(prefix="holzhebo-")
    file, status = f"{folder}/broker.db", 1
    tell(f"making a new broker's file: {file}")
    try:
        with started([program, "init", f"--file={file}", f"--office-token={OFFICE}"], stdout=said, stderr=said) as init:
            status = status_of(init)
    finally:
        if status != 0:
            shutil.rmtree(folder, ignore_errors=True)
    if status != 0:
        raise Stop(f"{program} init ends with {how(status)}, {last_of(said)}")
    return file


def names_in(file: str) -> Dict[str, Any]:
    """What desk.json says of a file: its environments, and each service's team as its contact. They are read in a copy,
    since whoever else opens a broker's own file may write to it."""
    file = os.path.realpath(file)
    with tempfile.TemporaryDirectory(prefix="holzhebo-") as room:
        for ending in "", "-wal":
            if os.path.exists(file + ending):
                shutil.copyfile(file + ending, f"{room}/copy.db{ending}")
        with contextlib.closing(sqlite3.connect(f"{room}/copy.db")) as base:
            names = [name for name, in base.execute("SELECT name FROM environments ORDER BY name")]
            return {"environments": names, "contacts": dict(base.execute("SELECT name, team FROM pacticipants"))}


def name_all(desk: Desk, file: str) -> None:
    """Gives the page the environments of this file."""
    try:
        names = names_in(file)
    except (OSError, sqlite3.Error) as why:
        note(f"the page names no environments, since they can't be read: {why}")
        names = {"environments": [], "contacts": {}}
    desk.give_names(json.dumps(names).encode())


def name_demo(desk: Desk) -> None:
    """Gives the page the environments of the demo."""
    with open(f"{TOP}/examples/demo-desk.json", "rb") as it:
        desk.give_names(it.read())


# The broker


def listens(process: Process, number: int) -> bool:
    """Whether it is this process that listens on the port: the system says which sockets it has."""
    with open("/proc/net/tcp", encoding="ascii") as it:
        rows = [row.split() for row in it]
    wanted = {f"socket:[{row[9]}]" for row in rows if row[1] == f"0100007F:{number:04X}" and row[3] == "0A"}
    folder, has = f"/proc/{process.pid}/fd", set()
    with contextlib.suppress(FileNotFoundError, ProcessLookupError):
        for descriptor in os.listdir(folder):
            has.add(os.readlink(f"{folder}/{descriptor}"))
    return not wanted.isdisjoint(has)


def await_broker(broker: Process, words: Words, file: str, said: IO[bytes]) -> None:
    """Waits until it listens."""
    while broker.poll() is None:
        look()
        if listens(broker, words.port):
            return
    why = last_of(said)
    if why.endswith(": listen"):
        raise Stop(f"port {words.port}, for the broker, was taken meanwhile: --port N takes another")
    rest = " (docs/OPERATING.md explains it)" if broker.returncode == 3 else ""
    raise Stop(f"the broker can't serve {file}: it ends with {how(broker.returncode)}, {why}{rest}")


def try_token(words: Words, office: str) -> None:
    """That the broker knows the token of a file."""
    line = http.client.HTTPConnection(HOST, words.port, timeout=60)
    with contextlib.closing(line):
        line.request("GET", "/environments/-", headers={"authorization": f"Bearer {office}", "connection": "close"})
        if line.getresponse().status == 401:
            raise Stop(f"the broker of {words.file} doesn't know the token of {words.token_file}")


def fill(broker: Process, url: str) -> None:
    tell("filling it with the demo, by examples/demo.sh:")
    # No proxy of the environment is asked.
    env = {**os.environ, "no_proxy": HOST, "NO_PROXY": HOST}
    with started([f"{TOP}/examples/demo.sh", url], env=env) as demo:
        while demo.poll() is None and broker.poll() is None:
            look()
        with contextlib.suppress(subprocess.TimeoutExpired):
            broker.wait(5 if demo.returncode else 0)
    if broker.poll() is None and demo.returncode != 0:
        raise Stop(f"the demo isn't there whole: examples/demo.sh ends with {how(demo.returncode)}")


def tell_all(words: Words, file: str, reading: str) -> None:
    """What there is now."""
    asked = f"type {reading}, which only reads" if reading else "type a team's, or the office's"
    tell(f"\nthe page:    http://{HOST}:{words.page_port}/desk/")
    tell(f"its token:   {asked}")
    tell(f"the broker:  http://{HOST}:{words.port}")
    if words.file is None:
        tell(f"its tokens:  {OFFICE} is the office's, {RED} is red's, {BLUE} is blue's")
    tell(f"the file:    {file}")
    tell("to stop:     Ctrl-C; the file stays")


def serve(words: Words, program: str, desk: Desk, file: str, said: IO[bytes]) -> None:
    """Serves the file until a signal comes, or the broker ends."""
    tell(f"serving {file} at http://{HOST}:{words.port}")
    line = [program, "serve", f"--file={file}", f"--listen={HOST}:{words.port}", "--connections=1000000"]
    with started(line, stdout=said, stderr=said) as broker:
        await_broker(broker, words, file, said)
        if words.token_file is not None:
            try_token(words, desk.office)
        desk.is_there = lambda: broker.poll() is None
        if words.file is None:
            fill(broker, f"http://{HOST}:{words.port}")
            name_demo(desk)
        else:
            name_all(desk, file)
        look()
        if broker.poll() is None:
            tell_all(words, file, desk.reading)
        with contextlib.suppress(Ended):
            raise Stop(f"the broker has ended by itself with {how(status_of(broker))}, {last_of(said)}")
        tell("ending the page and the broker")


# All of it


def run(words: Words, files: List[str]) -> None:
    """Does it all; the file is put into the list once it is whole."""
    if words.file is not None and not os.path.isfile(words.file):
        raise Stop(f"there is no file {words.file}")
    reading, office = (READING, OFFICE) if words.file is None else ("", "")
    if words.token_file is not None:
        reading, office = secrets.token_hex(24), token_of(words.token_file)
    place, desk = reserved(words.port), page_on(words, reading, office)
    if words.file is None:
        with started([f"{TOP}/tools/need", "curl"]) as need:
            if status_of(need) != 0:
                raise Stop("the demo needs curl; ./run FILE doesn't")
    program = program_of(words)
    with tempfile.TemporaryFile() as said:
        file = new_file(program, said) if words.file is None else os.path.abspath(words.file)
        if words.file is None:
            files.append(file)
        place.close()
        serve(words, program, desk, file, said)


def main() -> int:
    if isinstance(sys.stdout, io.TextIOWrapper):
        sys.stdout.reconfigure(errors="backslashreplace")
    files: List[str] = []
    status = 0
    try:
        run(words_of(sys.argv[1:]), files)
    except (Ended, Stop, OSError, http.client.HTTPException) as why:
        # what fails once a signal has come fails by it
        status = 128 + CAME[0] if CAME else getattr(why, "status", 1)
        if not CAME:
            note(str(why))
    for file in files:
        tell(f"the file stays; to serve it again: ./run {shlex.quote(file)}")
    return status


if __name__ == "__main__":
    sys.exit(main())
