"""Command lines of the program: what each reads, writes and ends with. Their file is NAME.lines. Its command lines are
run one after the other in a folder of its own, which has copies of all files beside it, so that one finds the files
that an earlier one made. Its lines are:

    # TEXT, or nothing      no part of it
    $ WORD WORD             the words after the program's name; the word "" is the empty one
    < FILE                  what is on standard input is what the file holds; else there is nothing
    <!                      standard input fails after that, and else it ends
    | TEXT                  a line that is wanted on standard output
    ! TEXT                  a line that is wanted on standard error
    |.. and !..             on standard output, or on standard error, some text is wanted, no matter which
    |# COUNT                standard output takes so many bytes, and no more
    = STATUS                the status that is wanted, which ends a command line
    & DATABASE FILE         the requests that the file holds are served over the broker in the database
    % DATABASE STATEMENTS   they are run over the database, which is made if it isn't there
    %< DATABASE FILE        the same, with the statements that the file holds

Requests that are served or replayed, and their answers, have to be as docs/openapi.json says (exchanges.py has which
are answered); nothing else is said of these answers here, and nothing of one that is cut by an output that takes less.

Standard input that fails is a socket whose peer resets it after the bytes are read. Standard output that takes so many
bytes is a file that is so many bytes short of the longest that a file may be, and /dev/full if it takes none."""
import os, resource, shutil, socket, struct, tempfile, termios
from pathlib import Path
from typing import NamedTuple
from tests.players.exchanges import exchanges_in, named
from tests.players.files import statements
from tests.players.interface import try_exchange
from tests.players.streams import look_until, number_of, receive, send_by_socket
from tests.process import MEMORY, Server, Started, free_address, kept_bytes
from tests.wire import Wrong, difference

# How long a file may be where standard output takes only so many bytes; the broker's own are far shorter.
MOST = 1 << 30
STREAMS = {"|": "output", "!": "errors", "|..": "output", "!..": "errors"}


class Between(NamedTuple):
    """What is done between command lines."""

    number: int
    mark: str
    text: str


class CommandLine:
    """A command line, with what it is to end with: texts, or None for some text."""

    def __init__(self, number: int, text: str) -> None:
        self.number, self.text, self.status = number, text, ""
        self.words = ["" if it == '""' else it for it in text.split(" ") if it]
        self.input, self.is_input_failing = "", False
        self.room: int | None = None
        self.wanted: dict[str, bytes | None] = {"output": b"", "errors": b""}

    def add(self, mark: str, rest: str) -> None:
        """Adds what a line of it says."""
        if mark == "<":
            self.input = rest
        elif mark == "<!":
            self.is_input_failing = True
        elif mark == "|#":
            self.room = int(rest)
        elif mark in ("|", "!"):
            self.wanted[STREAMS[mark]] = (self.wanted[STREAMS[mark]] or b"") + rest.encode() + b"\n"
        elif mark in ("|..", "!.."):
            self.wanted[STREAMS[mark]] = None
        else:
            raise Wrong(f"no such line: {mark} {rest}")

    def are_answered(self) -> bool:
        """Whether its input is requests, whose answers it writes whole."""
        is_cut = self.room is not None and self.status != "0"
        return self.words[:1] == ["replay"] and bool(self.input) and not is_cut


def steps_of(file: Path) -> list["CommandLine | Between"]:
    """The command lines of a file, and what is done between them."""
    steps: list[CommandLine | Between] = []
    now: CommandLine | None = None
    for number, line in enumerate(file.read_text(encoding="utf-8").removesuffix("\n").split("\n"), 1):
        mark, _, rest = line.partition(" ")
        if now is None and mark == "$":
            now = CommandLine(number, rest)
        elif now is None and mark in ("&", "%", "%<"):
            steps.append(Between(number, mark, rest))
        elif now is None and mark not in ("", "#"):
            raise Wrong(f"{file.name}:{number}: no such line: {line}")
        elif now and mark == "=":
            now.status = rest
            steps.append(now)
            now = None
        elif now:
            now.add(mark, rest)
    if now:
        raise Wrong(f"{file.name}:{now.number}: the last command line has no status")
    return steps


# Devices


def fail_after(text: bytes, taken: socket.socket, end: socket.socket, process: Started) -> None:
    """Sends the bytes, and once they are read resets the connection, so that the next read fails."""
    end.sendall(text)
    is_read = lambda: number_of(end, termios.TIOCOUTQ) == 0 and number_of(taken, termios.FIONREAD) == 0
    look_until(is_read, process, "the input isn't read")
    end.setsockopt(socket.SOL_SOCKET, socket.SO_LINGER, struct.pack("ii", 1, 0))
    end.close()


def output_of(line: CommandLine) -> tuple[int, int]:
    """Standard output, and from where on what is written there is read."""
    if line.room == 0:
        return os.open("/dev/full", os.O_RDWR), 0
    output = os.memfd_create("output")
    if line.room is None:
        return output, 0
    os.ftruncate(output, MOST - line.room)
    os.lseek(output, 0, os.SEEK_END)
    return output, MOST - line.room


def as_described(sent: bytes, answered: bytes) -> None:
    """Fails unless the requests and their answers are as docs/openapi.json says."""
    if not (found := exchanges_in(sent, named("its output", answered))):
        raise Wrong("no request is answered")
    for it in found:
        try_exchange(it)


class Folder:
    """Where the command lines of a file are run, and how far they are."""

    def __init__(self, program: str, file: Path) -> None:
        self.program, self.file, self.steps, self.done = program, file, steps_of(file), 0
        self.kept = tempfile.TemporaryDirectory(prefix="lines-", dir=MEMORY)
        self.room = shutil.copytree(file.parent, self.kept.name, dirs_exist_ok=True)

    def read(self, name: str) -> bytes:
        return Path(self.room, name).read_bytes()

    def play_to(self, place: int) -> None:
        """Runs the step at this place, after what comes before it and hasn't been run yet."""
        while self.done <= place:
            step = self.steps[self.done]
            self.done += 1
            try:
                self.do(step)
            except (Wrong, OSError, ValueError) as why:
                said = f"broker {step.text}" if isinstance(step, CommandLine) else f"{step.mark} {step.text}"
                raise Wrong(f"{self.file.name}:{step.number}: {said}\n{why or repr(why)}") from None

    def do(self, step: "CommandLine | Between") -> None:
        if isinstance(step, CommandLine):
            return self.play(step)
        name, _, text = step.text.partition(" ")
        if step.mark == "&":
            self.serve_requests(name, self.read(text))
        else:
            statements(f"{self.room}/{name}", self.read(text).decode() if step.mark == "%<" else text)

    def play(self, line: CommandLine) -> None:
        """Runs the command line, which is to end as it says."""
        output, begin = output_of(line)
        limits = [(resource.RLIMIT_FSIZE, MOST)] if line.room else []
        try:
            process = Started([self.program, *line.words], limits, cwd=self.room, stdout=output)
            status = self.ended(line, process)
            got = {"errors": process.errors(), "output": kept_bytes(output, begin)}
        finally:
            os.close(output)
        for stream, name in ("errors", "standard error"), ("output", "standard output"):
            wanted = line.wanted[stream]
            if wanted is None and not got[stream]:
                raise Wrong(f"on {name}: wanted some text, and there is none")
            if wanted is not None and got[stream] != wanted:
                raise Wrong(f"on {name}:\n{difference(wanted, got[stream])}")
        if str(status) != line.status:
            raise Wrong(f"status: wanted {line.status}, got {status}")
        if line.are_answered():
            as_described(self.read(line.input), got["output"])

    def ended(self, line: CommandLine, process: Started) -> int:
        """The status that the command line ends with."""
        text = self.read(line.input) if line.input else b""
        if not line.is_input_failing:
            with os.fdopen(os.memfd_create("input"), "r+b") as it:
                it.write(text)
                it.seek(0)
                process.settings["stdin"] = it
                with process:
                    return process.finish()
        with socket.create_server(("127.0.0.1", 0)) as door:
            end = socket.create_connection(door.getsockname())
            taken = door.accept()[0]
        process.settings["stdin"] = taken
        with taken, process:
            fail_after(text, taken, end, process)
            return process.finish()

    def serve_requests(self, database: str, text: bytes) -> None:
        """Serves the requests over the broker in the database, which answers each of them."""
        server = Server(self.program, database, 1, free_address(), cwd=self.room)
        server.begin()
        try:
            with server.connect() as connection:
                send_by_socket(connection, [text], server)
                connection.shutdown(socket.SHUT_WR)
                as_described(text, receive(connection))
            if status := server.finish():
                raise Wrong(f"serve ends with {status}: {server.log()}")
        finally:
            server.kill()
