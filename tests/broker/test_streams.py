"""What the program ends with and writes: statuses, faults, streams that fail. What is expected is from
docs/OPERATING.md and docs/API.md."""
import os
import pytest
from tests.broker.parts import PACT, UNKNOWN, Broker, auditing, kept, making, migrating, pact_files, put_team
from tests.broker.parts import question, serving, unchanged
from tests.wire import OFFICE, answers_in, same
from tests.world import DONE

OTHER = "office-token-0002"
USAGE = "\n\nFor more information, try '--help'.\n"


def bodies(output: str) -> list[str]:
    return [it.body for it in answers_in(output.encode())]


def test_statuses(broker: Broker, room: str) -> None:
    files = pact_files(room)
    ends = {"pass": (0, "pass\n", ""), "fail": (1, "fail 0\n", ""), "none": (3, "", "replies 2 file\n")}
    for name, wanted in ends.items():
        same(name, broker("check", "--pact", files["pact"], "--replies", files[name]), wanted)


@pytest.mark.parametrize("words", ["", "rewind", "init", "serve --connections 0"])
def test_mistakes_in_the_words(broker: Broker, words: str) -> None:
    status, output, errors = broker(*words.split())
    assert (status, output) == (2, "")
    assert errors.startswith("error: ") and errors.endswith(USAGE)


def faults(broker: Broker, room: str) -> list[tuple[list[str], str]]:
    """Words, and the line that they are to end with."""
    files, file, nowhere = pact_files(room), broker.new_file(room), f"{room}/nowhere.db"
    return [
        (making(f"{room}/new.db", "short"), "token"),
        (["replay", "--office-token", "a token with spaces"], "token"),
        (question(nowhere, pacticipant=""), "name"),
        (question(nowhere), "file"),
        (making(file), "open 1"),
        (migrating(file), "open 3.2"),
        (auditing(nowhere), "file"),
        (serving(file), "listen"),
        (["normalise"], "pact 2"),
        (["check", "--pact", files["none"], "--replies", files["pass"]], "pact 3 file"),
        (["check", "--pact", files["pact"], "--replies", files["other"]], "check 1"),
        (question(file), UNKNOWN.strip()),
        (question(file, OTHER), '{"answer":"denied","rule":"A1"}'),
    ]


def test_a_fault_is_one_line_on_standard_error(broker: Broker, room: str) -> None:
    """And standard output is empty."""
    for words, line in faults(broker, room):
        same(words, broker(*words), (3, "", line + "\n"))


def test_standard_error_that_takes_nothing(broker: Broker, room: str) -> None:
    """Or that is closed: the status stays, and no file is changed."""
    asked = [*((words, 3) for words, _ in faults(broker, room)), (["rewind"], 2)]
    before = kept(room)
    for words, wanted in asked:
        with open("/dev/full", "wb") as full:
            same(f"{words} with /dev/full", broker(*words, stderr=full)[:2], (wanted, ""))
        same(f"{words} with none", broker.shell('exec "$@" 2>&-', *words)[:2], (wanted, ""))
    unchanged(room, before)


def printing(room: str) -> list[tuple[list[str], bytes]]:
    """Words that end with 0 and print something, and what they read."""
    files = pact_files(room)
    check = ["check", "--pact", files["pact"], "--replies", files["pass"]]
    return [(["normalise"], PACT.encode()), (check, b""), (["--help"], b""), (["serve", "--help"], b"")]


def test_standard_output_that_takes_nothing(broker: Broker, room: str) -> None:
    """Or that is closed, or is read by nobody: it is `file`."""
    for words, text in printing(room):
        with open("/dev/full", "wb") as full:
            same(f"{words} with /dev/full", broker(*words, text=text, stdout=full), (3, "", "file\n"))
        same(f"{words} with none", broker.shell('exec "$@" >&-', *words, given=text), (3, "", "file\n"))
        reader, writer = os.pipe()
        os.close(reader)
        same(f"{words} with no reader", broker(*words, text=text, stdout=writer), (3, "", "file\n"))
        os.close(writer)


def test_an_answer_of_can_i_deploy_that_cannot_be_printed(broker: Broker, room: str) -> None:
    """It is `file`, and nothing is written into the broker's file."""
    file = broker.served_shop(room)
    before = kept(room)
    with open("/dev/full", "wb") as full:
        same("with /dev/full", broker(*question(file), stdout=full), (3, "", "file\n"))
    same("with none", broker.shell('exec "$@" >&-', *question(file)), (3, "", "file\n"))
    unchanged(room, before)


def test_standard_input_that_cannot_be_read(broker: Broker, room: str) -> None:
    """It is `file`, and of replay `serve 1`; its output that takes nothing is `serve 2`."""
    replay = ["replay", "--office-token", OFFICE]
    folder = os.open(room, os.O_RDONLY)
    same("normalise", broker("normalise", stdin=folder), (3, "", "file\n"))
    same("replay", broker(*replay, stdin=folder), (3, "", "serve 1\n"))
    os.close(folder)
    with open("/dev/full", "wb") as full:
        same("replay", broker(*replay, text=put_team("red"), stdout=full), (3, "", "serve 2\n"))


def test_words_that_are_not_utf_8(broker: Broker, room: str) -> None:
    """They end with 2, one line that says so and no file."""
    odd = [b"init", b"--file", room.encode() + b"/\xff.db", b"--office-token", OFFICE.encode()]
    for words in odd, [b"\xff"], [b"normalise", b"\xc3"]:
        same(words, broker(*words), (2, "", "error: a word of the command line isn't UTF-8\n"))
    unchanged(room, {})


def test_a_replay_that_ends_in_the_middle_of_a_request(broker: Broker) -> None:
    """Or is closed by an answer: it ends with 0."""
    whole, words = put_team("red"), ["replay", "--office-token", OFFICE]
    closing = whole.replace(b"host: b\r\n", b"host: b\r\nconnection: close\r\n")
    for text in whole + whole[:9], whole + whole[:-3], closing + put_team("blue"):
        status, output, errors = broker(*words, text=text)
        same("status, bodies and errors", (status, bodies(output), errors), (0, [DONE], ""))
