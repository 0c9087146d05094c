"""What the other tests rest on: how a difference is shown, how answers are parted, what the kernel tells of a socket,
that a server is one broker through stops and starts, and that a property which fails says what repeats it."""
import re, signal, socket
from collections.abc import Callable
import pytest
from tests import kernel
from tests.process import Server, ran, run
from tests.wire import Address, Wrong, answer, answers_in, difference, request, same
from tests.world import ALREADY, DONE, RED


def test_a_difference_has_the_lines_that_differ() -> None:
    shown = difference('{"answer":"done","content":1}', '{"answer":"already","content":1}')
    assert [it for it in shown.split("\n") if it[0] in "+-"][2:] == ['-"answer":"done",', '+"answer":"already",']
    assert difference(200, "200") == "wanted 200\ngot    '200'"
    assert difference("\n".join(map(str, range(500))), "x").split("\n")[-1] == ".. and 444 more lines"


def test_same_says_what_was_asked() -> None:
    with pytest.raises(Wrong, match=r"(?s)^GET /x:\n.*wanted.*got"):
        same("GET /x", (200, "a"), (404, "b"))


def test_answers_are_parted_by_their_lengths() -> None:
    first, second = answer(200, DONE), answer(401, '{"answer":"denied","rule":"A1"}')
    found = answers_in(first + second)
    assert [(it.status, it.body) for it in found] == [(200, DONE), (401, '{"answer":"denied","rule":"A1"}')]
    assert "www-authenticate" in found[1].headers and "www-authenticate" not in found[0].headers
    with pytest.raises(Wrong, match="cut"):
        answers_in(first + second[:-1])


def test_the_bytes_of_a_request() -> None:
    assert request("PUT", "/x", None, "{}") == b"PUT /x HTTP/1.1\r\nhost: b\r\ncontent-length: 2\r\n\r\n{}"


@pytest.mark.parametrize("look", [kernel.by_question, kernel.by_table])
def test_what_the_kernel_tells_of_a_socket(look: Callable[[Address, Address], kernel.Found | None]) -> None:
    """One that listens, at one address or at each; one whose peer has sent five bytes, read or not; and none."""
    with socket.create_server(("127.0.0.1", 0)) as it, socket.create_server(("0.0.0.0", 0)) as other:
        at = it.getsockname()
        assert look(at, kernel.NOBODY) == (kernel.LISTENS, 0)
        assert look(("127.0.0.1", other.getsockname()[1]), kernel.NOBODY) == (kernel.LISTENS, 0)
        with socket.create_connection(at) as peer, it.accept()[0] as taken:
            peer.sendall(b"hello")
            assert (found := look(at, peer.getsockname())) and found.unread == 5
            taken.recv(3)
            assert (found := look(at, peer.getsockname())) and found.unread == 2
    assert look(at, kernel.NOBODY) is None


def test_a_server_is_one_broker_through_stops_and_starts(server: Server) -> None:
    server.do("PUT", "/teams/red", body='{"token":"%s"}' % RED)
    server.restart().gives((200, ALREADY), "PUT", "/teams/red", body='{"token":"%s"}' % RED)
    server.kill()
    server.start().gives((200, ALREADY), "PUT", "/teams/red", body='{"token":"%s"}' % RED)
    assert server.stop() == (-signal.SIGTERM, "", "")


def test_a_server_that_does_not_listen_says_why(program: str, room: str) -> None:
    with pytest.raises(Wrong, match="file"):
        Server(program, f"{room}/nowhere.db").start()


@pytest.mark.by_both
def test_each_build_is_a_program(program: str) -> None:
    status, output, errors = ran([program, "normalise"], "[]")
    assert (status, output) == (3, "") and errors.startswith("pact ")


def test_a_property_that_fails_says_what_repeats_it() -> None:
    """Each of them, of a program that is none: the line that repeats it, or an example that the test itself names."""
    words = ["/usr/bin/python3", "-m", "pytest", "tests/properties", "--program", "/bin/false"]
    said = run([*words, "-q", "-p", "no:xdist", "-p", "no:cacheprovider"], 1)
    parts = re.split(r"(?m)^_+ (test_\w+) _+$", said)[1:]
    repeats = re.compile(r"@reproduce_failure\('[\d.]+', b'.+'\)|Falsifying explicit example")
    assert [name for name, text in zip(parts[::2], parts[1::2]) if not repeats.search(text)] == []
    assert len(parts) >= 14, said
