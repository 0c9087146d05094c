"""Patterns of matching rules: none keeps the broker from answering others for long. Pact files that have many patterns,
or large ones, are read, or refused with `pact 7.7` and their place as docs/LIMITS.md says, within a second of processor
time and 100 MB, which as many rules without a pattern take too; and replies are checked. The bounds are of the time
that the processor works, so other work on the machine changes them little."""
import json, subprocess, sys
from collections.abc import Callable
from functools import partial
from typing import NamedTuple
import pytest
from tests.broker.matchers import CROWDS, JUST, LISTS, MOST_BYTES, NAME, TOO_MUCH, Made, Texts
from tests.broker.matchers import by_keys, listed, names, pact, replies, rule
from tests.process import slowness
from tests.wire import same

pytestmark = pytest.mark.timing
REFUSED = "pact 7.7 interactions[0]\n"
# In seconds of the processor and in units of 10^6 bytes: of reading a file.
READING, ROOM = 1.0, 100
# Of a check, which takes them from the others.
MOST = 3.0
# Of one of an ordinary file: up to fifty plain patterns of a list of 250,000.
ORDINARY = dict.fromkeys(["16 patterns", "17 patterns", "50 patterns"], 2.0)
# What a check takes of memory at most, in units of 10^6 bytes.
MOST_MEGABYTES = 600


class Done(NamedTuple):
    """What a program did: its status, what it wrote, the seconds that it worked, and its megabytes."""

    status: int
    text: str
    seconds: float
    megabytes: float


# A process by these words, with a bound for the seconds that it works, and what it used of the machine: run by a small
# process, since the memory that is counted begins with what the one that starts it has.
WATCH = """import os, resource, sys
resource.setrlimit(resource.RLIMIT_CPU, (int(sys.argv[1]),) * 2)
_, status, used = os.wait4(os.posix_spawn(sys.argv[3], sys.argv[3:], os.environ), 0)
with open(sys.argv[2], "w") as it:
    print(os.waitstatus_to_exitcode(status), used.ru_utime + used.ru_stime, used.ru_maxrss, file=it)
"""


def run(words: list[str], room: str, text: bytes, most: float) -> Done:
    """A program that is ended if it works for more than four times as many seconds as it may."""
    limit = int(4 * most) + 1
    with open(f"{room}/in", "wb") as it:
        it.write(text)
    with open(f"{room}/in", "rb") as given, open(f"{room}/out", "wb") as out, open(f"{room}/err", "wb") as err:
        watched = [sys.executable, "-S", "-E", "-c", WATCH, str(limit), f"{room}/used", *words]
        subprocess.run(watched, stdin=given, stdout=out, stderr=err, check=True)
    said, errors, used = (open(f"{room}/{it}", encoding="utf-8").read() for it in ("out", "err", "used"))
    status, seconds, kilobytes = used.split()
    return Done(int(status), said + errors, float(seconds), int(kilobytes) * 1024 / 1e6)


def is_within(done: Done, most: float) -> bool:
    """Whether it worked for at most so many seconds of an ordinary processor."""
    return done.seconds <= most or done.seconds <= most * slowness()


def soon(words: list[str], room: str, text: bytes, most: float) -> Done:
    """What the words end with, which may take so many seconds. If they take longer, they are run once more: what else
    the machine did then may have been why."""
    done = run(words, room, text, most)
    if not is_within(done, most):
        done = run(words, room, text, most)
    assert is_within(done, most)
    return done


def different(form: str, count: int) -> bytes:
    """A pact with so many patterns of this form, each with a number of its own."""
    return pact({}, {f"$.k{at}": form % at for at in range(count)})


def filled(form: str) -> bytes:
    """As many of them as fit into the longest file."""
    count = (MOST_BYTES - 400) // len(json.dumps({"$.k10000": rule(form % 10_000)}, separators=(",", ":")))
    text = different(form, count)
    assert MOST_BYTES * 9 // 10 < len(text) <= MOST_BYTES, len(text)
    return text


# What is read, and whether it is refused.
FILES: dict[str, tuple[Callable[[], bytes], bool]] = {
    "2,000 large ones": (partial(different, r"\w{300}%05d", 2_000), True),
    "a megabyte of large ones": (partial(filled, r"\w{300}%05d"), True),
    "5,000 small ones": (partial(different, "^x%05d$", 5_000), False),
    "a megabyte of small ones": (partial(filled, "^x%05d$"), False),
    "400 of Unicode's classes": (partial(different, r"^\pL\pN\d\w{1,8}%05d$", 400), False),
    "a megabyte of Unicode's classes": (partial(filled, r"^\pL\pN\d\w{1,8}%05d$"), True),
    "150 without case": (partial(different, "(?i)^order-[a-z]{1,20}-%05d$", 150), False),
    "a megabyte without case": (partial(filled, r"(?i)[\w~~\w~~\w~~\w~~\w]%05d"), True),
    "a hundred names": (partial(different, NAME[:-1] + "%05d$", 100), False),
    "a long one": (partial(pact, {}, {"$.k": "[" + r"\w" * 250_000 + "]"}), True),
    "one that nests": (partial(pact, {}, {"$.k": "(?:" * 200 + "a" + "){9}" * 200}), True),
}


@pytest.mark.parametrize("name", FILES)
def test_a_file_of_patterns_is_read_or_refused_soon(program: str, room: str, name: str) -> None:
    made, is_refused = FILES[name]
    done = soon([program, "normalise"], room, made(), READING)
    if is_refused:
        same("the end", (done.status, done.text), (3, REFUSED))
    else:
        same("the end", (done.status, done.text[:11]), (0, '{"consumer"'))
    assert done.megabytes <= ROOM


def ends(program: str, room: str, texts: Texts, end: str, most: float = MOST) -> None:
    """The check of the replies, each text of which may be sent, ends so within so many seconds of a processor, and takes
    no more memory than docs/LIMITS.md says."""
    for file, text in zip(("pact", "replies"), texts):
        assert len(text) <= MOST_BYTES
        with open(f"{room}/{file}", "wb") as it:
            it.write(text)
    done = soon([program, "check", "--pact", f"{room}/pact", "--replies", f"{room}/replies"], room, b"", most)
    status = {"pass": 0, "fail": 1, "check": 3}[end.split(" ")[0]]
    same("the end", (done.status, done.text), (status, f"{end}\n"))
    assert done.megabytes <= MOST_MEGABYTES


def one_list(count: int) -> Texts:
    return pact(["a"], {"$[*]": NAME}), replies([f"a name {at}" for at in range(count)])


def a_hundred(count: int) -> Texts:
    keys = [f"k{at}" for at in range(100)]
    rules = {f"$.{key}[*]": NAME[:-1] + f"{at}$" for at, key in enumerate(keys)}
    values = {key: [f"a {at}"] * count for at, key in enumerate(keys)}
    return pact({key: ["a"] for key in keys}, rules), replies(values)


def twenty() -> Texts:
    return by_keys([rf"^[A-Z]{{2}}-\d{{4}}-{at}$" for at in range(20)], [f"AB-1234-{at}" for at in range(20)], 1_000)


# What is checked, and how many seconds that may take.
CHECKS: dict[str, tuple[Made, float]] = {
    "one pattern, 1 value": (partial(one_list, 1), 0.5),
    "one pattern, 1,000 values": (partial(one_list, 1_000), 0.5),
    "one pattern, 20,000 values": (partial(one_list, 20_000), 0.5),
    "a hundred, 100 values each": (partial(a_hundred, 100), 2.0),
    "a hundred, 1,000 values each": (partial(a_hundred, 1_000), 2.0),
    "a hundred of one list, 100 values": (
        lambda: listed(names(100), [f"a name {at}" for at in range(100)]), 2.0),
    "a hundred of one list, 1,000 values": (
        lambda: listed(names(100), [f"a name {at}" for at in range(1_000)]), 2.0),
    "twenty, 1,000 values each": (twenty, 1.0),
}


@pytest.mark.parametrize("name", CHECKS)
def test_replies_are_checked_soon(program: str, room: str, name: str) -> None:
    made, most = CHECKS[name]
    ends(program, room, made(), "pass", most)


@pytest.mark.parametrize("name", LISTS)
def test_many_matchers_of_one_list_are_checked_soon(program: str, room: str, name: str) -> None:
    made, end = LISTS[name]
    ends(program, room, made(), end, ORDINARY.get(name, MOST))


@pytest.mark.parametrize("name", TOO_MUCH)
def test_searches_that_take_too_many_steps_are_refused(program: str, room: str, name: str) -> None:
    ends(program, room, TOO_MUCH[name](), "check 2")


@pytest.mark.parametrize("name", CROWDS)
def test_many_patterns_are_asked_one_after_the_other(program: str, room: str, name: str) -> None:
    made, end = CROWDS[name]
    ends(program, room, made(), end)


@pytest.mark.parametrize("name", JUST)
def test_searches_that_take_just_the_steps_are_made(program: str, room: str, name: str) -> None:
    made, end = JUST[name]
    ends(program, room, made(), end)
