"""Bits that flip in a broker's file between two runs: each is found at the next opening. A file of forty contracts with
results, replies, deployments and releases is made, and everything is asked of it: each pact, the gate of each version
in each environment, each matrix, each environment. Then one bit at a time is flipped in a copy, in the header, in pages
of tables and of indexes and in other pages; the copy is served, and the same is asked. The program refuses the file
with status 3 and one line, or gives the answers of before, byte for byte; any other answer, also one of 500 or 503, is
wrong. The file has to have the page sums of SQLite's cksumvfs, as `init` makes it."""
import os, random, socket
from collections.abc import Iterator
from typing import NamedTuple
import pytest
from tests.process import Server, bytes_of, free_address
from tests.wire import Wrong, all_of, difference, request, same
from tests.world import BLUE, RED, new_file

SEED, FLIPS = 41, 200
PAGE, HEADER, RESERVED, SUM = 4096, 100, 20, 8
ENVIRONMENTS = ("open", "live", "vault")
CONTRACTS, PAIRS = 40, 4
# What the first byte of a page says that it is (SQLite's file format, 1.6); the first page has its own after the
# header.
KINDS = {2: "indexes", 10: "indexes", 5: "tables", 13: "tables"}
# The share of the bits that each part of the file has.
SHARES = {"header": 0.2, "tables": 0.4, "indexes": 0.3, "other pages": 0.1}
# How many bits one test flips.
EACH = 20


# The file


def pact(number: int) -> str:
    """A pact of its own text; one in eight is longer than a page."""
    lines = [{"sku": f"{number:03}-{at:03}", "quantity": at} for at in range(200 if number % 8 == 7 else 25)]
    response = '{"status":200,"body":%s}' % str(lines).replace("'", '"')
    sides = '"consumer":{"name":"shop%d"},"provider":{"name":"stock%d"}' % (number % PAIRS, number % PAIRS)
    asked = '"description":"order %d","request":{"method":"GET","path":"/%d"}' % (number, number)
    return '{%s,"interactions":[{%s,"response":%s}]}' % (sides, asked, response)


def contract(number: int) -> str:
    return f"/pacts/provider/stock{number % PAIRS}/consumer/shop{number % PAIRS}/version/{number}"


def setting_up() -> Iterator[bytes]:
    """The teams with their pacticipants, and the environments."""
    for team, token, name in ("red", RED, "shop"), ("blue", BLUE, "stock"):
        yield request("PUT", f"/teams/{team}", body='{"token":"%s"}' % token)
        for pair in range(PAIRS):
            yield request("PUT", f"/pacticipants/{name}{pair}", body='{"team":"%s"}' % team)
    for environment, how in zip(ENVIRONMENTS, ('"gated":false', '"gated":true', '"gated":true,"strict":true')):
        yield request("PUT", f"/environments/{environment}", body="{%s}" % how)
        for team in "red", "blue":
            yield request("PUT", f"/grants/team/{team}/environment/{environment}")


def publishing() -> Iterator[bytes]:
    """The contracts; of four one has a good claim, one a bad one, one replies, and one nothing."""
    for number in range(CONTRACTS):
        yield request("PUT", f"/pacticipants/shop{number % PAIRS}/versions/{number}", RED, '{"branch":"main"}')
        yield request("PUT", contract(number), RED, pact(number))
        kind = number // PAIRS % 4
        if kind < 2:
            text = '{"providerApplicationVersion":"1","success":%s,"run":"run-%d"}' % (("true", "false")[kind], number)
            yield request("POST", f"{contract(number)}/results", BLUE, text)
        elif kind == 2:
            replies = '"replies":[{"description":"order %d","response":%s}]' % (number, response_of(number))
            text = '{"providerApplicationVersion":"1",%s}' % replies
            yield request("POST", f"{contract(number)}/replies", BLUE, text)


def response_of(number: int) -> str:
    return pact(number).split('"response":')[1][:-3]


def deploying() -> Iterator[bytes]:
    for pair in range(PAIRS):
        version = '{"pacticipant":"%s%d","version":"%s"}'
        for environment in ENVIRONMENTS:
            yield request("POST", f"/environments/{environment}/deployments", BLUE, version % ("stock", pair, "1"))
        yield request("POST", "/environments/live/releases", BLUE, version % ("stock", pair, "1"))
        yield request("POST", "/environments/open/deployments", RED, version % ("shop", pair, pair))
        yield request("POST", "/environments/live/deployments", RED, version % ("shop", pair, pair))


def questions() -> Iterator[bytes]:
    """Everything that can be asked of the file."""
    gate, matrix = "/can-i-deploy?pacticipant=%s&version=%d&environment=%s", "/matrix?pacticipant=%s&version=%d"
    for number in range(CONTRACTS):
        shop = f"shop{number % PAIRS}"
        yield request("GET", contract(number), RED)
        yield request("GET", matrix % (shop, number), RED)
        for environment in ENVIRONMENTS:
            yield request("GET", gate % (shop, number, environment), RED)
    for pair in range(PAIRS):
        yield request("GET", f"/pacts/provider/stock{pair}/consumer/shop{pair}/branch/main", RED)
        yield request("GET", matrix % (f"stock{pair}", 1), BLUE)
        for environment in ENVIRONMENTS:
            yield request("GET", gate % (f"stock{pair}", 1, environment), BLUE)
    for environment in ENVIRONMENTS:
        yield request("GET", f"/environments/{environment}", RED)


QUESTIONS = [*questions()]
# Kinds of answers that are among those to the questions, so that they ask of everything.
AMONG = b'"permitted":true', b'"permitted":false', b'"evidence":"checked"', b'"evidence":"claimed"', b'"kind":"failed"'


class Asked(NamedTuple):
    """The answers to requests, None if no connection was taken; how the program ended, and what it said."""

    answers: bytes | None
    status: int
    errors: str


def asked(program: str, file: str, requests: list[bytes]) -> Asked:
    """What comes of these requests over the file."""
    with_file = Server(program, file, 1, free_address())
    with_file.begin()
    try:
        answers = None
        try:
            peer = with_file.connect()
        except Wrong:
            pass
        else:
            with peer:
                peer.sendall(b"".join(requests))
                peer.shutdown(socket.SHUT_WR)
                answers = all_of(peer)
        return Asked(answers, with_file.finish(), with_file.log())
    finally:
        with_file.kill()


def all_done(program: str, file: str, requests: list[bytes]) -> bytes:
    """The answers to these requests, each of which is 200."""
    answers, status, errors = asked(program, file, requests)
    same("the end", (status, errors), (0, ""))
    assert answers
    same("answers with 200", answers.count(b"HTTP/1.1 200 "), len(requests))
    return answers


class Original(NamedTuple):
    """A broker's file with all of its rows in the file itself, and the answers to the questions."""

    content: bytes
    answers: bytes


@pytest.fixture(scope="module")
def original(program: str, tmp_path_factory: pytest.TempPathFactory) -> Original:
    file = new_file(program, str(tmp_path_factory.mktemp("original")))
    all_done(program, file, [*setting_up(), *publishing(), *deploying()])
    answers = all_done(program, file, QUESTIONS)
    assert [it for it in AMONG if it not in answers] == []
    return Original(bytes_of(file), answers)


# The bits


def parts(content: bytes) -> dict[str, list[tuple[int, int]]]:
    """The places of the bits of each part of the file: its header, and the pages of each kind as their first and last
    byte."""
    found: dict[str, list[tuple[int, int]]] = {"header": [(0, HEADER)], "tables": [], "indexes": [], "other pages": []}
    for at in range(0, len(content), PAGE):
        begin = at + (HEADER if at == 0 else 0)
        found[KINDS.get(content[begin], "other pages")].append((begin, at + PAGE))
    return found


def chosen(content: bytes, part: str) -> list[int]:
    """The bits of a part that are flipped; of the header all eight that say whether there are sums. The same seed
    chooses the same bits."""
    dice, pages = random.Random(f"{SEED} {part}"), parts(content)[part]
    taken = [RESERVED * 8 + it for it in range(8)] if part == "header" else []
    while len(taken) < FLIPS * SHARES[part]:
        begin, end = dice.choice(pages)
        bit = dice.randrange(begin * 8, end * 8)
        if bit not in taken:
            taken.append(bit)
    return taken


def flipped(content: bytes, bit: int) -> bytes:
    text = bytearray(content)
    text[bit // 8] ^= 1 << bit % 8
    return bytes(text)


def try_flip(program: str, original: Original, bit: int, room: str) -> None:
    """What comes of this flip is a refusal, or what came before."""
    file = f"{room}/{bit}.db"
    with open(file, "wb") as it:
        it.write(flipped(original.content, bit))
    answers, status, errors = asked(program, file, QUESTIONS)
    where = f"bit {bit % 8} of byte {bit // 8}"
    if answers is None:
        if status != 3 or errors.count("\n") != 1 or errors == "listen\n":
            raise Wrong(f"{where}: neither served nor refused: status {status}, {errors!r}")
    elif (answers, status, errors) != (original.answers, 0, ""):
        said = difference(original.answers, answers)
        raise Wrong(f"{where}: it ends with {status}, {errors!r}, and is answered otherwise:\n{said}")


def test_the_file_has_sums(original: Original) -> None:
    assert original.content[RESERVED] == SUM


def test_a_copy_without_a_flip_is_answered_the_same(program: str, original: Original, room: str) -> None:
    with open(f"{room}/copy.db", "wb") as it:
        it.write(original.content)
    same("the answers", asked(program, f"{room}/copy.db", QUESTIONS), (original.answers, 0, ""))


@pytest.mark.parametrize("part, begin", [(it, at) for it in SHARES for at in range(0, int(FLIPS * SHARES[it]), EACH)])
def test_a_flipped_bit_is_refused_or_changes_nothing(
    program: str, original: Original, room: str, part: str, begin: int
) -> None:
    bits = chosen(original.content, part)[begin : begin + EACH]
    assert bits
    for bit in bits:
        try_flip(program, original, bit, room)
        for it in os.listdir(room):
            os.remove(f"{room}/{it}")
