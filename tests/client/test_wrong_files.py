"""Files and programs that aren't what a command takes them for: one line says so, and the status is 3."""
import json, os, time
from typing import Any, List, Optional
import pytest
from tests.client.peers import one
from tests.client.tools import PYTHON, SOURCES, Client
from tests.process import TOP, Ended, ran
from tests.wire import same
from tests.world import pact

NOBODY = "http://127.0.0.1:1"


def written(path: str, text: str, mode: int = 0o644) -> str:
    with open(path, "w", encoding="utf-8") as it:
        it.write(text)
    os.chmod(path, mode)
    return path


def wrong(client: Client, why: str, *words: str) -> None:
    same(f"{words}", client.run("none", *words), Ended(3, "", f"holzhebo: {why}\n"))


# check

REPLY: Any = {"description": "a book", "response": {"status": 200}}
REPLIES = {
    "{": "line 1, column 2: Expecting property name enclosed in double quotes",
    "[]": "list",
    '{"replies":{}}': "list",
    '{"replies":[1]}': "no reply",
    '{"replies":[{"description":1,"response":{"status":200}}]}': "no reply",
    '{"replies":[{"description":"a","response":{"status":"200"}}]}': "no reply",
    '{"replies":[{"description":"a","response":{"status":99}}]}': "no reply",
    '{"replies":[{"description":"a","response":{"status":1000}}]}': "no reply",
    '{"replies":[{"description":"a","response":{"status":200,"headers":[]}}]}': "no reply",
    '{"replies":[{"description":"a","response":{"status":200,"headers":{"A":"1","a":"1"}}}]}': "no reply",
    '{"replies":[{"description":"a","response":{"status":200,"headers":{"A":1}}}]}': "no reply",
    '{"replies":[{"description":"a","response":{"status":200,"headers":{"A":[1]}}}]}': "no reply",
    '{"replies":[{"description":"a book","response":{"status":200,"body":{"tax":1.5}}}]}': "fraction",
    '{"replies":[],"a":%s}' % ("[" * 100 + "]" * 100): "deep",
    '{"replies":[{"description":"a","providerStates":5,"response":{"status":200}}]}': "other",
    json.dumps({"replies": [REPLY, REPLY]}): "two",
    json.dumps({"replies": [{**REPLY, "description": "a cup"}]}): "other",
}
NOT_WHOLE = "isn't whole, or isn't from -2^63 to 2^64 - 1"
SAID = {
    "list": "replies has no list of replies",
    "no reply": "replies: replies[0] is no reply",
    "fraction": f"replies: the number 1.5 at $.replies[0].response.body.tax {NOT_WHOLE}",
    "deep": f"replies: it nests deeper than 100 levels at $.a{'[0]' * 99}",
    "two": "replies has two replies of one description and one list of states",
    "other": "a reply belongs to no interaction of the contract",
}


@pytest.mark.parametrize("text", REPLIES)
def test_replies(text: str, room: str) -> None:
    written(f"{room}/pact.json", json.dumps(one()))
    written(f"{room}/replies", text)
    why = SAID.get(REPLIES[text], f"replies has no replies: {REPLIES[text]}")
    wrong(Client(room, NOBODY), why, "check", "pact.json", "replies")


def test_a_contract_with_a_fault(room: str) -> None:
    written(f"{room}/pact.json", json.dumps({**one(), "provider": {}}))
    written(f"{room}/replies", '{"replies":[]}')
    done = Client(room, NOBODY).run("none", "check", "pact.json", "replies")
    begins = "holzhebo: pact.json is no contract: pact "
    same("check", (done.status, done.output, done.errors[: len(begins)]), (3, "", begins))


def test_without_a_reply(program: str, room: str) -> None:
    """An interaction without a reply fails, by this client and by the program."""
    written(f"{room}/pact.json", pact("a book"))
    written(f"{room}/replies", '{"replies":[]}')
    none: List[str] = []
    for more, by in (none, "as this client reads the rules"), (["--program", program], "by the program"):
        done = Client(room, NOBODY).run("none", "check", "pact.json", "replies", *more)
        same(by, (done.status, "no reply is recorded" in done.output, by in done.output), (1, True, True))


# The program

STUBS = {
    "exit 7": "check ends with 7: ",
    "echo what >&2; exit 3": "check ends with 3: what",
    "echo fail": "check says: b'fail\\n'",
    "echo pass of it": "check says: b'pass of it\\n'",
    "echo pass; exit 1": "check says: b'pass\\n'",
}


@pytest.mark.parametrize("text", STUBS)
def test_another_program(text: str, room: str) -> None:
    """What doesn't end or speak as the program does judges nothing."""
    normal = json.dumps({**one(), "metadata": None})
    stub = written(f"{room}/stub", f"#!/bin/sh\nif [ $1 = normalise ]; then echo '{normal}'; exit 0; fi\n{text}\n", 0o755)
    written(f"{room}/pact.json", json.dumps(one()))
    written(f"{room}/replies", json.dumps({"replies": [REPLY]}))
    done = Client(room, NOBODY).run("none", "check", "pact.json", "replies", "--program", stub)
    same(text, (done.status, done.output, STUBS[text] in done.errors), (3, "", True))


def test_no_program(room: str) -> None:
    client = Client(room, NOBODY)
    written(f"{room}/pact.json", json.dumps(one()))
    written(f"{room}/replies", json.dumps({"replies": [REPLY]}))
    words = ["check", "pact.json", "replies", "--program"]
    wrong(client, "nowhere can't be run: No such file or directory", *words, "nowhere")
    wrong(client, "./pact.json can't be run: Permission denied", *words, "./pact.json")
    stub = written(f"{room}/stub", "#!/bin/sh\necho pact 1 >&2; exit 3\n", 0o755)
    wrong(client, f"{stub} normalise: pact 1", *words, stub)
    stub = written(f"{room}/stub", "#!/bin/sh\necho hallo; exit 5\n", 0o755)
    wrong(client, f"{stub} normalise ends with 5: ", "explain", "pact.json", "--program", stub)


def test_a_program_without_an_end(room: str, monkeypatch: pytest.MonkeyPatch) -> None:
    """It is ended after a minute; here after a moment."""
    from holzhebo.faults import Stop
    from holzhebo.pact import program

    monkeypatch.setattr(program, "SECONDS", 0.2)
    stub, began = written(f"{room}/stub", "#!/bin/sh\nexec sleep 60\n", 0o755), time.monotonic()
    with pytest.raises(Stop, match="normalise doesn't end within 0.2 seconds"):
        program.Program(stub).fault(b"{}")
    assert time.monotonic() - began < 30


# Tokens, pages, and how it is called


def test_tokens_that_can_t_be_made(room: str) -> None:
    """No file that can't be made, and none that is there in part."""
    client = Client(room, NOBODY)
    wrong(client, "no token: give --token-file, HOLZHEBO_TOKEN_FILE or HOLZHEBO_TOKEN", "status")
    team = ["team", "green", "--new-token-file"]
    done = client.run("office", *team, "nowhere/green")
    same("a folder", done, Ended(3, "", "holzhebo: nowhere/green can't be made: No such file or directory\n"))
    limited = ["sh", "-c", 'ulimit -f 0; exec "$@"', "sh", *PYTHON, f"{TOP}/client/holzhebo", *team, "green"]
    full = ran(limited, cwd=room, env=client.env("office"))
    same("a full disk", (full.status, full.errors), (3, "holzhebo: green can't be written: File too large\n"))
    same("what is left", os.path.exists(f"{room}/green"), False)


def test_pages(room: str) -> None:
    """A folder that isn't the page; a desk.json that names nothing."""
    client, words = Client(room, NOBODY), ["desk", "--page"]
    os.mkdir(f"{room}/empty")
    for folder, why in ("empty", "empty isn't the page: it has no index.html, or no desk.json"), (
        "nowhere",
        "nowhere can't be read: No such file or directory",
    ):
        same(folder, client.run("office", *words, folder), Ended(3, "", f"holzhebo: {why}\n"))
    for name in "index.html", "desk.json":
        written(f"{room}/empty/{name}", "{}")
    done = client.run("office", *words, "empty")
    same("no names", done, Ended(3, "", "holzhebo: desk.json can't be read, or names no environments\n"))
    written(f"{room}/empty/desk.json", '{"environments":[]}')
    done = client.run("office", *words, "empty", "--cacert", "nowhere", "--broker", "https://broker.invalid")
    same("no certificates", done, Ended(3, "", "holzhebo: nowhere can't be used: No such file or directory\n"))
    same("no port", client.run("office", "desk", "--page-port", "0").status, 2)


NAMES = [None, "", "[]", '{"contacts":[],"environments":{}}', "\udcff"]


@pytest.mark.parametrize("text", NAMES, ids=["no file", "nothing", "a list", "others", "no text"])
def test_names_of_the_page(text: Optional[str], room: str) -> None:
    """A desk.json without what a command reads of it: it is named, and nothing else is done."""
    if text is not None:
        with open(f"{room}/desk.json", "w", encoding="utf-8", errors="surrogateescape") as it:
            it.write(text)
    written(f"{room}/log", "")
    client = Client(room, NOBODY)
    for words, status, path, what in (
        (["plan", "staging", "live", "--contacts", "desk.json"], 3, "desk.json", "has no contacts"),
        (["report", "copy.db", "--names", "desk.json"], 1, "desk.json", "names no environments"),
        (["who", "--page", ".", "--log", "log"], 3, "./desk.json", "names no environments"),
    ):
        done = Ended(status, "", f"holzhebo: {path} can't be read, or {what}\n")
        same(words[0], client.run("office", *words), done)


def test_no_page(room: str) -> None:
    """Of a client without the page: it says how to name one."""
    text = "from holzhebo.desk import page\npage.FOLDERS = ()\npage.page_of(None)"
    done = ran([*PYTHON, "-c", text], env={**os.environ, "PYTHONPATH": SOURCES})
    same("why", done.errors.endswith("there is no page here: give --page, the folder desk of the repository\n"), True)


def test_as_a_module(room: str) -> None:
    """`python3 -m holzhebo` is the same."""
    words: List[str] = [*PYTHON, "-B", "-m", "holzhebo"]
    env = {**os.environ, "PYTHONPATH": SOURCES, "PYTHONDONTWRITEBYTECODE": "1"}
    same("its version", ran([*words, "--version"], env=env), (0, "holzhebo 1.0.0\n", ""))
