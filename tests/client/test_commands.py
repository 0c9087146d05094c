"""The commands: what each prints, and how it ends."""
import hashlib, json, os, re, shlex, shutil
from collections.abc import Iterator
from typing import List, NamedTuple
import pytest
from tests.client.tools import Client
from tests.process import TOP, Ended, Server, text_of
from tests.wire import OFFICE, Wrong, same
from tests.world import RED, pact

HERE = f"{TOP}/tests/client"


# The commands


def digest_of(description: str) -> str:
    """The name by which a contract of world.py is fetched: of its normal text, by docs/API.md."""
    text = pact(description).replace('"request"', '"providerStates":[],"request"')
    normal = json.dumps(json.loads(text), sort_keys=True, separators=(",", ":"))
    return hashlib.sha256(normal.encode()).hexdigest()[:16]


class Command(NamedTuple):
    line: int
    caller: str
    words: List[str]
    output: List[str]
    errors: List[str]
    status: int


def commands(path: str) -> Iterator[Command]:
    """The command lines of a file: `$ WORDS`, lines of output after `| ` and of errors after `! `, and `= STATUS`."""
    caller, words, output, errors = "", [], [], []  # type: str, List[str], List[str], List[str]
    with open(path, encoding="utf-8") as file:
        for number, line in enumerate(file, 1):
            mark, text = line[:1], re.sub("DIGEST OF ([a-z ]+)", lambda it: digest_of(it[1]), line[2:].rstrip("\n"))
            if mark == "@":
                caller = text
            elif mark == "$":
                words = [it.replace("\\u202e", "\u202e") for it in shlex.split(text)]
            elif mark in "|!":
                (output if mark == "|" else errors).append(text)
            elif mark == "=":
                yield Command(number, caller, words, output, errors, int(text))
                output, errors = [], []
            elif mark not in "#\n":
                raise Wrong(f"{path}:{number}: no mark {mark}")


FAULTY = {
    "body": {"a b": [19.99]},
    "matchingRules": {
        "status": {},
        "body": {
            "$.a": {
                "matchers": [{"match": "date"}, {"match": "regex", "regex": "(?=a)"}, {"match": "regex", "regex": "a+"}]
            },
            "$.b": {"matchers": []},
        },
    },
}


def test_commands(fleet: Server, client: Client, room: str) -> None:
    """Each command's output, errors and status, as written."""
    faulty = json.loads(pact("a knife"))
    faulty["interactions"][0]["response"].update(FAULTY)
    texts = {"fork": pact("a fork"), "cup": pact("a cup"), "empty": "", "faulty": json.dumps(faulty)}
    texts["café"] = pact("a cup").replace('"shop"', '"shop & café"')
    for name, text in texts.items():
        with open(f"{room}/{name}.json", "w", encoding="utf-8") as it:
            it.write(text)
    fleet.do("PUT", "/pacticipants/shop%20%26%20caf%C3%A9", OFFICE, '{"team":"red"}')
    shutil.copy(f"{HERE}/proxy.log", room)
    for name in "teams", "tokens":
        with open(f"{room}/{name}", "w", encoding="utf-8") as it:
            it.write(f"# {name}\n")
        os.chmod(f"{room}/{name}", 0o640)
    for command in commands(f"{HERE}/commands.txt"):
        output, errors = ("".join(f"{line}\n" for line in lines) for lines in (command.output, command.errors))
        wanted = Ended(command.status, output, errors)
        name = f"commands.txt:{command.line}: {' '.join(command.words)}"
        same(name, client.run(command.caller, *command.words), wanted)
    branch = "/pacts/provider/stock/consumer/shop%20%26%20caf%C3%A9/branch/feat%2F%221%22%5C"
    same("the contract of a branch", fleet.ask("GET", branch, RED).status, 200)
    tokens_in_files(room)


def tokens_in_files(room: str) -> None:
    """What the commands on tokens wrote: each new one for its owner only, and what the proxy takes in its place."""
    made = {}
    for name in "green", "red-2", "red-3":
        made[name] = text_of(f"{room}/{name}.token").replace("authorization: Bearer ", "").rstrip("\n")
        same(f"the form of {name}.token", bool(re.fullmatch("[0-9a-f]{48}", made[name])), True)
        same(f"the mode of {name}.token", os.stat(f"{room}/{name}.token").st_mode & 0o777, 0o600)
    same("different ones", len({*made.values()}), 3)
    refused = [it for it in ("other", "violet", "red-4") if os.path.exists(f"{room}/{it}.token")]
    same("files of what was refused", refused, [])
    places = {"teams": {made["green"]: "green"}, "tokens": {RED: "", made["red-3"]: RED, made["red-2"]: ""}}
    for name, lines in places.items():
        with open(f"{room}/{name}", encoding="ascii") as it:
            wanted = "".join(f'"~^\\Q{token}\\E$" "{place}";\n' for token, place in lines.items())
            same(name, it.read(), f"# {name}\n{wanted}")
        same(f"the mode of {name}", os.stat(f"{room}/{name}").st_mode & 0o777, 0o640)


COMMANDS = """publish register explain verify check fetch result can-i-deploy deploy undeploy release end-support status
matrix who metrics report plan desk carry team environment replace-token doctor record-deployment record-undeployment
record-release record-support-ended""".split()


def test_help(client: Client) -> None:
    """Each command's help has an example and its statuses; a wrong command line is 2, and nothing is asked."""
    listed = client.done("none", "help")
    for it in COMMANDS:
        text = client.done("none", it, "--help")
        same(f"the help of {it}", client.done("none", "help", it), text)
        if f"\nExample: holzhebo {it} " not in text or "\nStatus 0: " not in text or f"\n    {it}" not in listed:
            raise Wrong(f"the help of {it} has no example or no status, or isn't listed: {text}")


WRONG_LINES: List[List[str]] = [
    ["nothing"],
    ["deploy"],
    ["deploy", "--bad"],
    ["deploy", "a", "b", "c", "--token", RED[:3]],
    ["publish", "1"],
    ["result", "1", "maybe", "x"],
    ["can-i-deploy", "a", "b", "c", "--wait", "-1"],
    # What a variable that isn't set makes of a line.
    ["publish", "1", "--branch", "", "pact.json"],
    ["publish", "", "pact.json"],
    ["register", "stock", "1", "--branch="],
    ["verify", "--provider", "stock", "--version", "", "--url", "http://127.0.0.1:1", "--for", "live"],
    ["verify", "--provider", "stock", "--version", "1", "--url", "http://127.0.0.1:1", "--for", "live", "--run", ""],
    ["fetch", "--provider", "stock", "--contract", "shop", "", "--into", "contracts"],
    ["can-i-deploy", "shop", "", "live"],
    ["can-i-deploy", "--pacticipant", "shop", "--version", "", "--to-environment", "live"],
    ["deploy", "shop", "", "live"],
    ["status", ""],
]


@pytest.mark.parametrize("words", WRONG_LINES, ids=" ".join)
def test_wrong_lines(words: List[str], room: str) -> None:
    """A wrong command line is 2, and nothing is asked."""
    done = Client(room, "http://127.0.0.1:1").run("red", *words)
    same(f"{words}", (done.status, done.output), (2, ""))
    if any(it == "" or it.endswith("=") for it in words):
        same("why", re.findall("^error: argument [-/A-Z a-z]+: it is empty$", done.errors.split("\n")[0]) != [], True)
