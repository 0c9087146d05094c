"""Recorded replies beside a pact file: `check`, and `explain --replies`, which judge alike."""
import json
from typing import List, Tuple
import pytest
from tests.client.books import RULES
from tests.client.peers import one
from tests.client.tools import CLIENT, PYTHON, Client
from tests.process import Ended, bytes_of, ran
from tests.wire import same
from tests.client.test_wrong_files import NOBODY, written

REPLIES = '{"replies":[ {"description":"a book","response":{"status":200,"body":{"id":20}}} ] }\n'
BY, NONE = "as this client reads the rules; --program asks the program", "pact.json: no fault is found"
RESPONSE = {"status": 200, "body": {"id": "ID"}, "matchingRules": RULES}


def room_of(room: str, number: str, **more: object) -> Client:
    """A room with a pact file, of which a number is written so, and with replies."""
    written(f"{room}/pact.json", json.dumps({**one(response=RESPONSE), **more}).replace('"ID"', number))
    written(f"{room}/replies", REPLIES)
    return Client(room, NOBODY)


@pytest.mark.parametrize("number, metadata", [("20.0", {}), ("2E+1", {}), ("7", {"ratio": 0.5})])
def test_what_publish_takes(number: str, metadata: object, room: str) -> None:
    """A pact file is read as it would be published: a number is written in its digits, and metadata are left out."""
    client = room_of(room, number, metadata=metadata)
    said = f"  passed  a book\n{BY}\n"
    same("check", client.run("none", "check", "pact.json", "replies"), Ended(0, said, ""))
    done = client.run("none", "explain", "pact.json", "--replies", "replies")
    same("explain", (done.status, done.errors, done.output.endswith(said)), (0, "", True))
    done = client.run("none", "explain", "pact.json", "--replies", "replies", "--as-it-is")
    same("the bytes", (done.status, BY in done.output), (1, False))


def test_files_that_are_read_once(room: str) -> None:
    """Those of a shell's <(..), and standard input."""
    client, said = room_of(room, "7"), f"  passed  a book\n{BY}\n"
    lines: List[Tuple[str, str]] = [
        ("explain - --replies replies < pact.json", f"-: no fault is found\n{said}"),
        ("check - replies < pact.json", said),
        ("check <(cat pact.json) <(cat replies)", said),
        ("check pact.json - < replies", said),
    ]
    for line, output in lines:
        done = ran(["bash", "-c", " ".join([*PYTHON, CLIENT, line])], cwd=room, env=client.env("none"))
        same(line, done, Ended(0, output, ""))
    line = " ".join([*PYTHON, CLIENT, "explain <(cat pact.json) --replies <(cat replies)"])
    done = ran(["bash", "-c", line], cwd=room, env=client.env("none"))
    same(line, (done.status, done.output.endswith(f": no fault is found\n{said}"), done.errors), (0, True, ""))


def test_what_the_program_gets(room: str) -> None:
    """The replies as they are, byte for byte, and the pact file as it would be published."""
    client = room_of(room, "7.0")
    normal = json.dumps(one(response={**RESPONSE, "body": {"id": 7}}))
    text = f"#!/bin/sh\nif [ $1 = normalise ]; then cat > given; echo '{normal}'; exit 0; fi\n"
    stub = written(f"{room}/stub", f'{text}cp "$3" "{room}/pact"\ncp "$5" "{room}/same"\necho pass\n', 0o755)
    done = client.run("none", "check", "pact.json", "replies", "--program", stub)
    same("passed", (done.status, done.output), (0, "  passed  a book\nby the program\n"))
    same("the replies", bytes_of(f"{room}/same"), REPLIES.encode())
    for name in "pact", "given":
        body = json.loads(bytes_of(f"{room}/{name}"))["interactions"][0]["response"]["body"]
        same(f"the pact file, {name}", (body, type(body["id"])), ({"id": 7}, int))
    written(f"{room}/replies", REPLIES.replace("20", "20.5"))
    done = client.run("none", "check", "pact.json", "replies", "--program", stub)
    same("a fraction", (done.status, done.output), (3, ""))


def test_replies_to_two_files(room: str) -> None:
    """It is a wrong command line, before anything is read; one file that is named twice is one."""
    client = room_of(room, "7")
    done = client.run("none", "explain", "pact.json", "nowhere.json", "--replies", "replies")
    same("two", done, Ended(2, "", "holzhebo: --replies are to one pact file\n"))
    done = client.run("none", "explain", "pact.json", "pact.json", "--replies", "replies")
    same("one", done, Ended(0, f"{NONE}\n  passed  a book\n{BY}\n", ""))
