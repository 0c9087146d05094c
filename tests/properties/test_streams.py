"""Requests cut anywhere: a stream in any pieces has the answers that it has whole."""
import os, socket, tempfile
from hypothesis import given, strategies as st
from tests.players.scenario import Scenario, Stream, file_of
from tests.players.scenario_plays import compare, end_well
from tests.players.streams import send_by_pipe, send_by_socket
from tests.process import Server, Started, free_address, kept_bytes
from tests.wire import all_of
from tests.world import new_file

# Scenarios of one stream: ordinary ones, and odd names, callers and bodies.
SCENARIOS = """first-run gate runs replies escaped-names bad-forms names tokens callers publication policy
patterns""".split()
CUTS = st.lists(st.integers(0, 10_000), max_size=12)


def pieces_of(text: bytes, cuts: list[int]) -> list[bytes]:
    """The text in pieces, cut at these places, as parts of ten thousand of its length."""
    places = sorted({0, len(text), *(len(text) * it // 10_000 for it in cuts)})
    return [text[begin:end] for begin, end in zip(places, places[1:])]


def stream_of(name: str) -> tuple[Scenario, Stream]:
    """The one stream of a scenario."""
    scenario = Scenario(file_of(name))
    assert scenario.is_one_stream(), name
    whole = Stream(True)
    for it in scenario.streams:
        whole.messages += it.messages
        whole.answers += it.answers
    return scenario, whole


@given(st.sampled_from(SCENARIOS), CUTS)
def test_a_replay_in_any_pieces(program: str, name: str, cuts: list[int]) -> None:
    scenario, stream = stream_of(name)
    output, (reader, writer) = os.memfd_create("output"), os.pipe()
    try:
        with Started([program, "replay", "--office-token", scenario.office], stdin=reader, stdout=output) as process:
            os.close(reader)
            send_by_pipe(writer, pieces_of(stream.sent, cuts), process)
            os.close(writer)
            end_well(process)
        compare(stream.answers, kept_bytes(output), f"cut at {cuts}")
    finally:
        os.close(output)


@given(st.sampled_from(SCENARIOS), CUTS)
def test_a_connection_in_any_pieces(program: str, name: str, cuts: list[int]) -> None:
    scenario, stream = stream_of(name)
    with tempfile.TemporaryDirectory() as room:
        server = Server(program, new_file(program, room, token=scenario.office), 1, free_address())
        server.begin()
        try:
            with server.connect() as peer:
                send_by_socket(peer, pieces_of(stream.sent, cuts), server)
                peer.shutdown(socket.SHUT_WR)
                got = all_of(peer)
            end_well(server)
            compare(stream.answers, got, f"cut at {cuts}")
        finally:
            server.kill()
