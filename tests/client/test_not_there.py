"""`holzhebo verify` with providers that aren't there, come late, or answer more than the client takes."""
import socket, time
from collections.abc import Callable
from typing import Any, Dict, Tuple
import pytest
from tests.client.books import book_pact, publish_book
from tests.client.peers import closes, head, JSON_TYPE, nothing_is_stored, one, Peer, RIGHT, rows, verified, words
from tests.client.tools import Client, Reply, Stock
from tests.process import Server, free_port
from tests.wire import same


def test_a_provider_that_ends(fleet: Server, client: Client) -> None:
    """It listens, and is gone at the first request: that is no failure of the contract."""
    publish_book(fleet, "10", one())
    port = free_port()

    class Once(Peer):
        def loop(self) -> None:
            self.socket.accept()[0].close()
            self.socket.close()

        def __exit__(self, *_: Any) -> None:
            self.socket.close()

    with Once(closes, port) as peer:
        status, told = verified(client, peer.url, "--timeout", "2")
    nothing_is_stored(fleet, status, told, "the provider refuses the connection")


def test_a_provider_that_only_closes(fleet: Server, client: Client) -> None:
    """One that never answers anything isn't there either, with each of two interactions."""
    publish_book(
        fleet, "10", {**book_pact(), "interactions": [*one()["interactions"], *one("another book")["interactions"]]}
    )
    with Peer(closes) as peer:
        status, told = verified(client, peer.url, "--timeout", "1.5")
    same("outcomes", (status, [it["outcome"] for it in told["played"]]), (3, ["not played"] * 2))
    same("what is stored", rows(fleet), None)


def test_a_provider_that_never_answers(fleet: Server, client: Client) -> None:
    """It takes each connection and says nothing, as what hangs at its start does."""
    publish_book(fleet, "10", one())

    def hangs(line: socket.socket, _: int) -> None:
        line.recv(65536)
        time.sleep(3)

    with Peer(hangs) as peer:
        status, told = verified(client, peer.url, "--timeout", "0.5")
    nothing_is_stored(fleet, status, told, "the provider doesn't answer within 0.5 seconds")


def test_a_provider_that_is_still_starting(fleet: Server, client: Client) -> None:
    """Connections that are closed before its first answer are tried again."""
    publish_book(fleet, "10", one())

    def later(line: socket.socket, number: int) -> None:
        if number < 5:
            closes(line, number)
        else:
            line.recv(65536)
            line.sendall(RIGHT)

    with Peer(later) as peer:
        status, told = verified(client, peer.url)
    same("it passes", (status, told["outcome"], rows(fleet)[0]["success"]), (0, "passed", True))


def test_ready(fleet: Server, client: Client) -> None:
    """--ready waits until the address answers by HTTP; an address that never does ends the command."""
    publish_book(fleet, "10", one())
    began = time.monotonic()

    def health(line: socket.socket, _: int) -> None:
        if time.monotonic() - began > 2:
            line.recv(65536)
            line.sendall(head("content-length: 0\r\nconnection: close\r\n", "503 Service Unavailable"))

    with Peer(health) as ready, Stock({"GET /1": Reply(headers=JSON_TYPE, body=b'{"id":1}')}) as stock:
        status, told = verified(client, stock.url, "--ready", f"{ready.url}/health?deep=1")
        same("it passes", (status, time.monotonic() - began > 2), (0, True))
    done = client.run("blue", *words(stock.url, "p2"), "--ready", "http://127.0.0.1:1/", "--timeout", "0.5")
    same("never", (done.status, done.errors), (3, "holzhebo: the provider doesn't answer: Connection refused\n"))
    same("what is stored", rows(fleet, "p2"), None)


def endless(kind: str, piece: bytes) -> Callable[[socket.socket, int], None]:
    """An answer of this kind, made of such pieces, for twelve seconds."""

    def send(line: socket.socket, _: int) -> None:
        line.recv(65536)
        line.sendall(head(f"content-type: {kind}\r\n"))
        for _ in range(60):
            line.sendall(piece)
            time.sleep(0.2)

    return send


def large(line: socket.socket, _: int) -> None:
    line.recv(65536)
    line.sendall(head("content-type: application/json\r\ncontent-length: 1100002\r\n") + b'"' + b"x" * 1100000 + b'"')


def many_fields(line: socket.socket, _: int) -> None:
    line.recv(65536)
    line.sendall(head("".join(f"x-{it}: 1\r\n" for it in range(120)) + "content-length: 0\r\n"))


# What is more than the client takes, and what it says.
LIMITS: Dict[str, Tuple[Callable[[socket.socket, int], None], str]] = {
    "a stream of events": (
        endless("text/event-stream", b"data: 1\n\n"), "the provider answers a stream of events"),
    "an answer without an end": (
        endless("application/json", b" "), "the provider sends an answer without an end, or too slowly"),
    "1.1 MB": (large, "the provider answers more than 1048576 bytes"),
    "120 fields": (many_fields, "the provider got more than 100 headers"),
}


@pytest.mark.parametrize("name", LIMITS)
def test_more_than_the_client_takes(name: str, fleet: Server, client: Client) -> None:
    """The client's own limit is no failure of the provider."""
    answer, why = LIMITS[name]
    publish_book(fleet, "10", one())
    with Peer(answer) as peer:
        status, told = verified(client, peer.url, "--timeout", "3")
    nothing_is_stored(fleet, status, told, why)


def test_early_hints(fleet: Server, client: Client) -> None:
    """103 comes before an answer, and isn't it."""
    publish_book(fleet, "10", one())

    def hints(line: socket.socket, _: int) -> None:
        line.recv(65536)
        line.sendall(b"HTTP/1.1 103 Early Hints\r\nlink: </a.css>\r\n\r\nHTTP/1.1 102 Processing\r\n\r\n" + RIGHT)

    with Peer(hints) as peer:
        status, told = verified(client, peer.url)
    same("it passes", (status, told["outcome"]), (0, "passed"))
