"""What an opening of a broker's file takes of the system, and what it leaves. Each asks twice for random bytes, for a
seed of the store and for the key of its digests of pages, and ends with `file` if the system has none (seeds.c). The
file that is opened again after a command which the database failed keeps the key, and gets a new seed. Its log is
copied into the file then, so that it has room again, and holds no row."""
import os, resource
from collections.abc import Sequence
import pytest
from tests.broker.parts import auditing, former_file, has_rows, kept, making, migrating, question, unchanged
from tests.players.shims import library
from tests.process import Ended, Server, ran
from tests.wire import OFFICE, same
from tests.world import ALREADY, DONE, RED, fleet_file, new_file

pytestmark = [pytest.mark.needs("cc"), pytest.mark.by_both]
# How often an opening asks, and one of the files that are open.
OPENS, REOPENS = 2, 1
FILE = Ended(3, "", "file\n")
STORE = '{"answer":"store"}'


class Seeds:
    """What lets only so many calls for random bytes succeed, and counts them."""

    def __init__(self, room: str, passes: int = 1_000) -> None:
        self.file = f"{room}/seeds-{passes}"
        self.env = {**os.environ, "LD_PRELOAD": library("seeds"), "SEEDS": self.file, "SEEDS_PASS": str(passes)}

    def asked(self) -> int:
        return os.path.getsize(self.file) if os.path.exists(self.file) else 0


def commands(program: str, room: str) -> dict[str, Sequence[str]]:
    """The commands that open a file once, and end by themselves."""
    os.mkdir(f"{room}/one")
    os.mkdir(f"{room}/two")
    file = fleet_file(program, f"{room}/one")
    return {
        "init": [program, *making(f"{room}/new.db")],
        "can-i-deploy": [program, *question(file, RED)],
        "audit": [program, *auditing(file)],
        "migrate": [program, *migrating(former_file(f"{room}/two"))],
    }


def test_how_often_an_opening_asks(program: str, room: str) -> None:
    for name, words in commands(program, room).items():
        seeds = Seeds(room)
        ended = ran(words, env=seeds.env)
        assert ended.status < 2, ended
        same(f"how often {name} asks", seeds.asked(), OPENS)
        os.remove(seeds.file)


@pytest.mark.parametrize("passes", range(OPENS))
def test_an_opening_without_a_seed_or_a_key_ends_with_file(program: str, room: str, passes: int) -> None:
    """Nothing is made or changed."""
    found = commands(program, room)
    before = kept(f"{room}/one"), kept(f"{room}/two")
    for name, words in found.items():
        seeds = Seeds(room, passes)
        same(name, ran(words, env=seeds.env), FILE)
        same(f"how often {name} asks", seeds.asked(), passes + 1)
        os.remove(seeds.file)
    unchanged(f"{room}/one", before[0])
    unchanged(f"{room}/two", before[1])
    assert not os.path.exists(f"{room}/new.db") or not os.path.getsize(f"{room}/new.db")


# What the disk has room for: a log of so many bytes.
LIMIT = 300 * 1024


def until_store(server: Server, name: str) -> list[str]:
    """Names teams until the disk is full; those that were."""
    named = list[str]()
    while True:
        body = '{"token":"token-of-%s-%06d"}' % (name, len(named))
        answer = server.ask("PUT", f"/teams/{name}-{len(named)}", OFFICE, body).body
        if answer != DONE:
            same("the answer on a full disk", answer, STORE)
            return named
        named.append(f"{name}-{len(named)}")
        assert len(named) < 400, "the disk takes everything"


def are_there(server: Server, names: Sequence[str]) -> None:
    for at, name in enumerate(names):
        body = '{"token":"token-of-%s-%06d"}' % (name.split("-")[0], at)
        server.gives((200, ALREADY), "PUT", f"/teams/{name}", OFFICE, body)


def asks(server: Server) -> None:
    """A question, whose answer comes once the file is opened again."""
    server.gives((404, '{"answer":"unknown","what":"environment"}'), "GET", "/environments/none", OFFICE)


def test_a_command_that_fails_costs_one_more_seed(program: str, room: str) -> None:
    seeds, file = Seeds(room), new_file(program, room)
    with Server(program, file, limits=[(resource.RLIMIT_FSIZE, LIMIT)], env=seeds.env) as server:
        asks(server)
        same("how often the first opening asks", seeds.asked(), OPENS)
        for number, name in enumerate(["first", "second", "third"], 1):
            until_store(server, name)
            asks(server)
            same("how often it was asked", seeds.asked(), OPENS + number * REOPENS)


def test_without_a_seed_the_file_is_not_opened_again(program: str, room: str) -> None:
    """The program ends, and what was acknowledged is there."""
    seeds, file = Seeds(room, OPENS), new_file(program, room)
    with Server(program, file, limits=[(resource.RLIMIT_FSIZE, LIMIT)], env=seeds.env) as server:
        named = until_store(server, "first")
        same("the end", server.wait(), FILE)
        same("how often it was asked", seeds.asked(), OPENS + REOPENS)
    with Server(program, file) as server:
        are_there(server, named)


def test_the_log_is_emptied_after_a_command_that_fails(program: str, room: str) -> None:
    file = new_file(program, room)
    with Server(program, file, limits=[(resource.RLIMIT_FSIZE, LIMIT)]) as server:
        named = until_store(server, "first")
        same("rows in the log of a full disk", has_rows(f"{file}-wal"), True)
        asks(server)
        same("rows in the log once the file is opened again", has_rows(f"{file}-wal"), False)
        are_there(server, named)
        more = until_store(server, "second")
        assert len(more) > len(named) / 2, "the log has no room again"
        server.kill()
    with Server(program, file) as server:
        are_there(server, named)
        are_there(server, more)
