"""The time of a request is that of all of it: its name, its addresses, its connection and its answer together."""
import contextlib, socket, time
from collections.abc import Callable, Iterator
from typing import Any, List
import pytest

from holzhebo.api.address import Address
from holzhebo.api.http import NoAnswer, Request, exchange
from tests.wire import Wrong, same

SECONDS = 2.0
RESOLVED = socket.getaddrinfo
WAYS: List[str] = ["a name that is long looked for", "a slow name, and no handshake", "three addresses that drop all"]


@contextlib.contextmanager
def dropping() -> Iterator[int]:
    """A port that drops connections: its queue is full, and nobody takes from it."""
    with contextlib.ExitStack() as every:
        full = every.enter_context(socket.create_server(("127.0.0.1", 0), backlog=0))
        for _ in range(4):
            line = every.enter_context(socket.socket())
            line.setblocking(False)
            line.connect_ex(full.getsockname())
        time.sleep(0.1)
        yield full.getsockname()[1]


def late(seconds: float, count: int) -> Callable[..., Any]:
    """A resolver that takes its time, and gives the same address several times."""

    def resolve(*words: Any, **more: Any) -> Any:
        time.sleep(seconds)
        return RESOLVED(*words, **more)[:1] * count

    return resolve


@pytest.mark.timing
@pytest.mark.parametrize("way", WAYS)
def test_late(way: str, monkeypatch: pytest.MonkeyPatch) -> None:
    with contextlib.ExitStack() as every:
        if way == WAYS[2]:
            url, resolver = f"http://127.0.0.1:{every.enter_context(dropping())}", late(0, 3)
        else:
            silent = every.enter_context(socket.create_server(("127.0.0.1", 0)))
            kind, seconds = ("http", 6.0) if way == WAYS[0] else ("https", 1.6)
            url, resolver = f"{kind}://127.0.0.1:{silent.getsockname()[1]}", late(seconds, 1)
        monkeypatch.setattr(socket, "getaddrinfo", resolver)
        began = time.monotonic()
        with pytest.raises(NoAnswer) as why:
            exchange(Address(url), Request("GET", "/", {}, None), SECONDS)
        took = time.monotonic() - began
    same("what is said", (str(why.value), why.value.was_sent), ("doesn't answer within 2 seconds", False))
    if took > 1.5 * SECONDS:
        raise Wrong(f"it takes {took:.1f} seconds")
