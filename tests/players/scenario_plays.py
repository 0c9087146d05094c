"""How a scenario is played: over a new file by `init` and `serve`, with a connection for each stream, and opened again
by another `serve` after statements; and, if all of its streams but the last are whole and it has no statements, as one
stream to `replay`. Each is played whole; to `replay` byte by byte too, if it is short; and cut in two, at as many
places as LIMITS allow, each on one of the builds in turn. What comes first, by `& NAME`, is cut nowhere."""
import os, shutil, socket, tempfile
from collections.abc import Iterator, Sequence
from typing import NamedTuple
from tests.players.files import statements
from tests.players.scenario import Scenario, Stream, Wanted
from tests.players.streams import is_closed, receive, send_by_pipe, send_by_socket, shown
from tests.process import Server, Started, free_address, kept_bytes
from tests.wire import Wrong, difference
from tests.world import new_file

# About how many answers are asked for at most, and how many bytes are sent, when a scenario is cut again and again: to
# `replay`, and over a file, where a play takes longer.
LIMITS = {"replay": (4000, 5_000_000), "serve": (300, 400_000)}
# How long a stream is at most that is sent byte by byte, and how many plays one item has.
SHORT, BATCH = 20_000, 20
# How many seconds answers are waited for; one that is shorter than wanted is seen only then.
WAIT = 40
# Where a stream is cut: `whole`, `bytes` for byte by byte, or after so many bytes.
Cut = str | int


class Plays(NamedTuple):
    """Some plays of a scenario: the way, and where each is cut."""

    way: str
    cuts: Sequence[Cut]

    def name(self) -> str:
        cut = self.cuts[0] if len(self.cuts) == 1 else f"cut after {self.cuts[0]} to {self.cuts[-1]} bytes"
        return f"{self.way} {cut if isinstance(cut, str) else f'cut after {cut} bytes'}"


def plays_of(scenario: Scenario, turn: int, builds: int) -> Iterator[Plays]:
    """What is played on one of so many builds: whole, byte by byte, and the places of its turn, some at a time."""
    for way in ["serve", "replay"] if scenario.is_one_stream() else ["serve"]:
        length, (answers, size) = scenario.longest(), LIMITS[way]
        step = max(length * scenario.count() // answers, length * length // size) + 1
        yield Plays(way, ["whole"])
        if way == "replay" and length <= SHORT:
            yield Plays(way, ["bytes"])
        cuts = range(step, length, step)[turn::builds]
        yield from (Plays(way, cuts[begin : begin + BATCH]) for begin in range(0, len(cuts), BATCH))


def pieces_of(stream: Stream, cut: Cut) -> list[bytes]:
    """The pieces in which a stream is sent."""
    if not stream.is_own or cut == "whole":
        return [stream.sent]
    if isinstance(cut, str):
        return [stream.sent[place : place + 1] for place in range(len(stream.sent))]
    return [it for it in (stream.sent[:cut], stream.sent[cut:]) if it]


def compare(answers: Sequence[Wanted], got: bytes, where: str) -> None:
    """Tries that these are the answers, and nothing else."""
    for number, wanted in enumerate(answers, 1):
        if not got.startswith(wanted.text):
            # What follows this answer isn't a part of the difference.
            end = got.find(b"HTTP/1.1 ", 1)
            said = f"{where}, answer {number} of {len(answers)}, to\n> {wanted.asked[:600]}"
            raise Wrong(f"{wanted.place}: {said}\n{difference(wanted.text, got[:end] if end > 0 else got)}")
        got = got[len(wanted.text) :]
    if got:
        raise Wrong(f"{where}, after {len(answers)} answers: wanted nothing, got {shown(got)}")


def end_well(process: Started) -> None:
    """Tries that the process ends with status 0 and reports nothing."""
    status, said = process.finish(), process.errors()
    if status or said:
        raise Wrong(f"it ends with {status}, and on standard error is {shown(said)}")


def play_replay(program: str, scenario: Scenario, cut: Cut) -> None:
    """Plays the scenario as one stream on standard input of `replay`."""
    output, (reader, writer) = os.memfd_create("output"), os.pipe()
    words = [program, "replay", "--office-token", scenario.office]
    try:
        with Started(words, stdin=reader, stdout=output) as process:
            os.close(reader)
            for stream in scenario.streams:
                send_by_pipe(writer, pieces_of(stream, cut), process)
            os.close(writer)
            writer = -1
            end_well(process)
            compare([it for stream in scenario.streams for it in stream.answers], kept_bytes(output), "to replay")
    finally:
        for it in (output, writer):
            if it >= 0:
                os.close(it)


def play_connection(connection: socket.socket, stream: Stream, cut: Cut, where: str, process: Started) -> None:
    """Plays a stream on a connection. This end of it is closed after the answers, unless one of them is to close it."""
    connection.settimeout(WAIT)
    send_by_socket(connection, pieces_of(stream, cut), process)
    try:
        got = receive(connection, sum(len(it.text) for it in stream.answers))
    except TimeoutError as it:
        got = it.args[0]
        compare(stream.answers, got, where)
    was_closed = is_closed(connection)
    if stream.ended != "closed" and not was_closed:
        connection.shutdown(socket.SHUT_WR)
    try:
        got += receive(connection)
    except TimeoutError:
        raise Wrong(f"{where}: wanted the connection closed by the answer, and it stays open") from None
    compare(stream.answers, got, where)
    if stream.ended != "closed" and was_closed:
        raise Wrong(f"{where}: wanted the connection open after the answers, and it is closed")


def play_served(program: str, file: str, streams: Sequence[Stream], number: int, cut: Cut) -> None:
    """Plays the streams over the file by one `serve`. The first of them is the scenario's stream of this number."""
    server = Server(program, file, len(streams), free_address())
    server.begin()
    try:
        for place, stream in enumerate(streams, number):
            with server.connect() as connection:
                play_connection(connection, stream, cut, f"served, stream {place}", server)
        end_well(server)
    finally:
        server.kill()


def served_runs(streams: Sequence[Stream]) -> list[list[Stream]]:
    """The streams in runs, each of which is served by one process: a stream with statements before it begins one."""
    runs: list[list[Stream]] = []
    for stream in streams:
        if not runs or stream.statements:
            runs.append([])
        runs[-1].append(stream)
    return runs


def place_copy(base: str, file: str) -> None:
    """Places a copy of a broker's file, with its log."""
    for end in "", "-wal":
        if os.path.exists(base + end):
            shutil.copyfile(base + end, file + end)


def play_file(program: str, scenario: Scenario, cut: Cut, room: str, name: str) -> None:
    """Plays the scenario over a file: what is its own over a copy of the file that what comes first left."""
    own = next((number for number, it in enumerate(scenario.streams) if it.is_own), len(scenario.streams))
    base, file = f"{room}/base.db", f"{room}/{name}.db"
    if not os.path.exists(base):
        new_file(program, room, "base.db", scenario.office)
        if own:
            play_served(program, base, scenario.streams[:own], 1, "whole")
    place_copy(base, file)
    number = own + 1
    for streams in served_runs(scenario.streams[own:]):
        if streams[0].statements:
            statements(file, "".join(f"{it};\n" for it in streams[0].statements))
        play_served(program, file, streams, number, cut)
        number += len(streams)


def play(scenario: Scenario, plays: Plays, program: str) -> None:
    """Plays a scenario this way, cut at each of these places; the first play that is otherwise is an error."""
    with tempfile.TemporaryDirectory() as room:
        for count, cut in enumerate(plays.cuts):
            try:
                if plays.way == "replay":
                    play_replay(program, scenario, cut)
                else:
                    play_file(program, scenario, cut, room, str(count))
            except Wrong as why:
                how = {"whole": "whole", "bytes": "byte by byte"}.get(str(cut), f"cut after {cut} bytes")
                raise Wrong(f"{scenario.name}, {how}: {why}") from None
