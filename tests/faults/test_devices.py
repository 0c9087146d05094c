"""Peers of the program that fail at one byte, or make it wait at a clock of their own (peers.py). What is expected is
from docs/OPERATING.md and docs/LIMITS.md; the requests and answers are those of data/stops/first-run.scenario."""
import errno
import pytest
from tests.faults.peers import MOST, Peer, corners, first_run, replayed, served, stream_of, whole_within
from tests.wire import answer, request, same

pytestmark = [pytest.mark.by_both, pytest.mark.needs("cc")]
# A request that has no route, and its answer.
ASKED, TOLD = request("GET", "/", None), answer(404, '{"answer":"no route"}')
REQUESTS, ANSWERS = first_run()
SENT, SAID = b"".join(REQUESTS), b"".join(ANSWERS)
# How many bytes one test goes through.
EACH = 100


def parts(count: int) -> "pytest.MarkDecorator":
    """The bytes from 0 to this one, so many to a test."""
    ranges = [range(begin, min(begin + EACH, count + 1)) for begin in range(0, count + 1, EACH)]
    return pytest.mark.parametrize("counts", ranges, ids=[f"{it[0]}-{it[-1]}" for it in ranges])


# Streams that fail


@parts(len(SENT))
def test_standard_input_fails_after_each_byte(program: str, counts: range) -> None:
    """The whole requests that came before are answered, and no more is put out."""
    for count in counts:
        answers = b"".join(ANSWERS[: whole_within(REQUESTS, count)])
        for error in errno.EINTR, errno.EIO:
            found = replayed(program, Peer(stream_of(REQUESTS), reads=1, fails=count, read_error=error))
            same(f"after {count} bytes", (found.ended, found.taken), ((3, "serve 1\n"), [answers]))


@parts(len(SAID))
def test_standard_output_fails_after_each_byte(program: str, counts: range) -> None:
    """The answers are out as far as standard output takes them."""
    for count in counts:
        ended = (3, "serve 2\n") if count < len(SAID) else (0, "")
        for error in errno.EINTR, 0:
            found = replayed(program, Peer(stream_of(REQUESTS), room=count, at_once=1, write_error=error))
            same(f"after {count} bytes", (found.ended, found.taken), (ended, [SAID[:count]]))


def goes_on(number: int) -> tuple[Peer, bytes]:
    """What the requests after so many are answered, the listing in any case."""
    first = min(number, len(REQUESTS) - 1)
    return Peer(stream_of(REQUESTS[first:])), b"".join(ANSWERS[first:])


@pytest.mark.parametrize("count", corners(REQUESTS))
def test_a_connection_fails_as_requests_come(program: str, count: int) -> None:
    """At the corners of each. The requests that came whole are done, and no other one: the next connection finds it."""
    done = whole_within(REQUESTS, count)
    other, rest = goes_on(done)
    peer = Peer(stream_of(REQUESTS), reads=1, fails=count, read_error=errno.ECONNRESET)
    same(f"after {count} bytes", served(program, peer, other).taken, [b"".join(ANSWERS[:done]), rest])


@pytest.mark.parametrize("count", corners(ANSWERS))
def test_a_connection_fails_as_answers_are_taken(program: str, count: int) -> None:
    """At the corners of each. The requests with whole answers are done, and the next one, if its answer couldn't be
    taken."""
    other, rest = goes_on(whole_within(ANSWERS, count) + 1)
    peer = Peer(stream_of(REQUESTS), room=count, at_once=1, write_error=errno.EPIPE)
    same(f"after {count} bytes", served(program, peer, other).taken, [SAID[:count], rest])


# How many bytes are asked for after these, which are no whole message: no more than a head may have, or than lack.
LACKING = {
    16384: b"",
    2: b"\r\nPUT / HTTP/1.1\r\nhost: b\r\ncontent-length: 2\r\n\r\n",
    4: b"GET / HTTP/1.1\r\nx:".ljust(16380, b"y"),
}


@pytest.mark.parametrize("wanted", LACKING)
def test_no_more_is_read_than_a_message_may_have(program: str, wanted: int) -> None:
    text = LACKING[wanted]
    found = replayed(program, Peer([(0, text), (0, b"")] if text else [(0, b"")]))
    same("the end, and what is put out", (found.ended, found.taken), ((0, ""), [b""]))
    same(f"asked for after {len(text)} bytes", found.asked, [wanted])


# Peers that make the broker wait

HALF, REST = b"GET / HTTP/1.1\r\n", b"host: b\r\n\r\n"
# One that asks and takes its answer, and one that takes none.
READ, UNREAD = Peer([(0, ASKED), (0, b"")]), Peer([(0, ASKED), (0, b"")], room=0)
HALF_BODY = request("PUT", "/", None, "{}").replace(b": 2", b": 4")
UNTAKEN = Peer([(0, ASKED)], signals=1)
# One request after another, each begun as the one before it is answered.
ENDLESS = Peer([(0, HALF), *((at, REST + HALF) for at in range(0, 4200, 300))], signals=1)
# Whole heads, of which the second announces as many bytes as a head may have.
LARGE = ASKED + b"PUT / HTTP/1.1\r\nhost: b\r\ncontent-length: 16384\r\n\r\n"
NOW_AND_THEN = b"GET /"
SLOWER = Peer([(at * 3000, NOW_AND_THEN[at : at + 1]) for at in range(5)], signals=1)
FASTER = Peer([(at * 600, NOW_AND_THEN[at : at + 1]) for at in range(5)], signals=1)
AN_HOUR = 3_600_000
# A peer, when another one comes, what the first takes, and when its connection is closed. A signal cuts each other wait
# short, which changes nothing.
WAITS: dict[str, tuple[Peer, int, bytes, int]] = {
    "half a head has ten seconds": (Peer([(0, HALF)], signals=1), MOST, b"", 10_000),
    "half a body has ten seconds": (Peer([(0, HALF_BODY)], signals=1), MOST, b"", 10_000),
    "a byte now and then has ten seconds for all": (SLOWER, MOST, b"", 10_000),
    "a silent peer has a second more once another comes": (Peer([], signals=1), 500, b"", 1500),
    "a silent peer may stay for an hour": (
        Peer([(AN_HOUR, ASKED), (AN_HOUR + 1, b"")], signals=1), MOST, TOLD, AN_HOUR + 1),
    "an idle peer has five milliseconds if another waits": (Peer([(7, ASKED)], signals=1), 1, TOLD, 12),
    "half a head has two seconds more once another comes": (Peer([(0, HALF)], signals=1), 500, b"", 2500),
    "half a body has two seconds more once another comes": (Peer([(0, HALF_BODY)], signals=1), 500, b"", 2500),
    "half a head has no more than ten seconds, though another comes": (Peer([(0, HALF)], signals=1), 9000, b"", 10_000),
    "a byte now and then has two seconds for all, if another waits": (FASTER, 1, b"", 2020),
    "a message that is late by less than two seconds is answered, though another waits": (
        Peer([(0, HALF), (1900, REST)], signals=1), 1, TOLD, 1900),
    "a body whose head came with the request before is answered, though another waits": (
        Peer([(0, LARGE), (900, b" " * 16_384)], signals=1), 1, TOLD * 2, 905),
    "one request after another is answered for a second, if another waits": (ENDLESS, 0, TOLD * 5, 1200),
    "one request after another is answered for a second more once another comes": (ENDLESS, 1000, TOLD * 8, 2100),
    "one request after another is answered for as long as nobody waits": (ENDLESS, MOST, TOLD * 14, 13_900),
    "an answer that isn't taken has two seconds": (UNTAKEN._replace(room=0), MOST, b"", 2000),
    "an answer that is taken in part has two seconds": (UNTAKEN._replace(room=50), MOST, TOLD[:50], 2000),
    "an answer that is taken now and then has two seconds for all": (
        UNTAKEN._replace(at_once=10, apart=800), MOST, TOLD[:20], 2000),
    "an answer has what its message left of two seconds, if another waits": (
        Peer([(0, HALF), (1500, REST)], signals=1, room=0), 1, b"", 2020),
    "an answer has a look at least": (Peer([(0, HALF), (2010, REST)], signals=1, room=0), 1, b"", 2030),
    "an hour's stop in an answer takes no time": (
        Peer([(0, ASKED), (1, b"")], signals=1, stopped=AN_HOUR), MOST, TOLD, AN_HOUR),
    "an hour's stop in a request takes no time": (
        Peer([(0, HALF), (30, REST), (31, b"")], signals=1, stopped=AN_HOUR), MOST, TOLD, AN_HOUR + 20),
}


@pytest.mark.parametrize("name", WAITS)
def test_a_peer_makes_the_broker_wait(program: str, name: str) -> None:
    peer, other_comes, taken, closed = WAITS[name]
    found = served(program, peer, Peer([(0, b"")], comes=other_comes))
    same("what is taken, and when it is closed", (found.taken[0], found.closed[0]), (taken, closed))


# The peers that wait as an idle one goes, in the order in which they came, and when each is closed: the idle one is
# there until it is seen, after 20 milliseconds, that they have come. One that is silent has a second, one whose message
# has begun two, but for the last one.
ORDERS = {
    "silent whole": [9000, 25],
    "begun whole": [10_025, 25],
    "late whole": [10_025, 25],
    "silent begun ended whole": [1025, 11_025, 25, 25],
    "begun silent whole": [2025, 9000, 25],
    "late silent whole begun": [2025, 3025, 25, 13_025],
}
WAITING = {
    "silent": Peer([(9000, b"")], comes=1),
    "begun": Peer([(0, HALF)], comes=1),
    "late": Peer([(0, HALF_BODY)], comes=1),
    "whole": Peer([(0, ASKED), (0, b"")], comes=2),
    "ended": Peer([(0, b"")], comes=2),
}


@pytest.mark.parametrize("others", ORDERS)
def test_which_of_those_that_wait_comes_next(program: str, others: str) -> None:
    found = served(program, Peer([(0, ASKED)]), *(WAITING[it] for it in others.split()))
    same("when each is closed", found.closed, [25, *ORDERS[others]])


# How many answers a peer has that sends one request after another, if so many others wait: it is answered at 0, 300,
# 600 .., and each time it is seen whether its share of the second is over.
SHARES = {1: 5, 2: 3, 3: 3, 4: 2}


@pytest.mark.parametrize("count", SHARES)
def test_the_second_is_shared_among_those_that_wait(program: str, count: int) -> None:
    found = served(program, ENDLESS, *[Peer([(0, b"")])] * count)
    same("what is taken", found.taken[0], TOLD * SHARES[count])


def test_who_is_let_in_late_leaves_others_soon(program: str) -> None:
    """Half a head takes its two seconds from three that wait: two whose answers aren't taken, and one after them. As
    the first of these has waited for two seconds then, a look is left to each."""
    unread, read = UNREAD._replace(comes=1), READ._replace(comes=2)
    found = served(program, Peer([(0, HALF)]), unread, unread, read)
    same("when each is closed", found.closed, [2020, 2040, 2060, 2060])


# Answers that nobody takes, how many, and how many that are taken; and when each is closed. The first has its two
# seconds, from 1 to 2001, as nobody was ready when it was let in. Who is found ready then counts as ready since 1, when
# those that wait were looked for before, as the first asked. So of each of the others a look is waited for, as somebody
# waits after it; and who takes its answer at once is gone at once.
TOGETHER = {
    (1, 1): [2001, 2001],
    (2, 1): [2001, 2021, 2021],
    (3, 2): [2001, 2021, 2041, 2041, 2041],
    (4, 4): [2001, 2021, 2041, 2061, 2061, 2061, 2061, 2061],
    # The last one that may wait, 64 at most: beside such answers none that is taken comes later.
    (64, 1): [*range(2001, 3262, 20), 3261],
}


@pytest.mark.parametrize("others_come", [1, 2])
@pytest.mark.parametrize("none, taken", TOGETHER)
def test_untaken_answers_cost_two_seconds_in_all(program: str, none: int, taken: int, others_come: int) -> None:
    """Whether the others came with the first, or after it was let in."""
    first, others = UNREAD._replace(comes=1), [UNREAD._replace(comes=others_come)] * (none - 1)
    found = served(program, first, *others, *[READ._replace(comes=2)] * taken)
    same("when each is closed", found.closed, TOGETHER[none, taken])
    same("what each takes", found.taken, [b""] * none + [TOLD] * taken)


def test_who_comes_beside_a_later_untaken_answer_waits_as_long(program: str) -> None:
    """The second untaken answer has two seconds too, from 2001 on, as nobody else had come by then. Those that come
    within them count as ready since 2001: so a look is left to the third, and the last waits for two seconds and that
    look."""
    late = UNREAD._replace(comes=2005), READ._replace(comes=2010)
    found = served(program, UNREAD._replace(comes=1), UNREAD._replace(comes=2), *late)
    same("when each is closed", found.closed, [2001, 4001, 4021, 4021])


def test_who_is_served_costs_three_seconds_and_the_next_one_forty_milliseconds(program: str) -> None:
    """The first asks at 0, 500 and 999 and takes its answers, in the second that it has while another one waits, which
    is seen at 20. Then its last message takes all but a millisecond of two seconds, and a look is left to the answer. If
    two wait, the first has half a second of that kind, so its last message begins at 500. Then the next one takes an
    answer, 19 milliseconds for another message, and a look."""
    asks = [(0, HALF), (0, REST + HALF), (500, REST + HALF)]
    busy = Peer([*asks, (999, REST + HALF), (2998, REST)], room=3 * len(TOLD))
    found = served(program, busy, READ._replace(comes=1))
    same("what each takes, and when it is closed", found[1:3], ([TOLD * 3, TOLD], [3018, 3018]))
    busy = Peer([*asks, (2499, REST)], room=2 * len(TOLD))
    following = Peer([(0, ASKED + HALF), (2538, REST)], comes=1, room=len(TOLD))
    found = served(program, busy, following, READ._replace(comes=2))
    same("what each takes, and when it is closed", found[1:3], ([TOLD * 2, TOLD, TOLD], [2519, 2558, 2558]))
