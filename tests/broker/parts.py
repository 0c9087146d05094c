"""What the tests of the program have in common: how it is run, the words of its commands, its files."""
import os, stat
from typing import Any
from tests.players.files import statements
from tests.players.texts import DATA
from tests.process import Ended, Limits, Server, bytes_of, ran
from tests.wire import OFFICE, request, same
from tests.world import DONE, new_file

# The token of the team red here.
TEAM = "token-of-the-team-red"
UNKNOWN = '{"answer":"unknown","what":"pacticipant"}\n'
FORMER = (DATA / "lines" / "former.sql").read_text(encoding="utf-8")
PACT = (
    '{"consumer":{"name":"shop"},"provider":{"name":"stock"},"interactions":[{"description":"a book","request":'
    '{"method":"GET","path":"/"},"response":{"status":200,"headers":{"a":"1"},"matchingRules":{"header":{"a":'
    '{"matchers":[{"match":"regex","regex":"[0-9]"}]}}}}}]}'
)


class Broker:
    """The program, run by words, with these settings of subprocess.run."""

    def __init__(self, program: str, **settings: Any) -> None:
        self.program, self.settings = program, settings

    def __call__(self, *words: str | bytes, text: bytes = b"", limits: Limits = (), **settings: Any) -> Ended:
        return ran([self.program, *words], text, limits, **{**self.settings, **settings})  # type: ignore[list-item]

    def shell(self, text: str, *words: str, given: bytes = b"") -> Ended:
        """The same by a shell, which closes streams: TEXT has "$@" for the program and its words."""
        return ran(["sh", "-c", text, "sh", self.program, *words], given)

    def new_file(self, room: str, name: str = "broker.db", token: str = OFFICE) -> str:
        return new_file(self.program, room, name, token)

    def serving(self, file: str, connections: int = 1, limits: Limits = ()) -> Server:
        return Server(self.program, file, connections, limits=limits)

    def served_shop(self, room: str) -> str:
        """A file whose broker has shop 1 and the environment live."""
        file = self.new_file(room)
        with self.serving(file) as it:
            shop = put_team("red"), owned("shop"), request("PUT", "/environments/live", body='{"gated":true}')
            answers = it.send(*shop, request("PUT", "/pacticipants/shop/versions/1", TEAM))
            same("answers", answers, [DONE] * 4)
            same("the end", it.wait(), (0, "", ""))
        return file


def put_team(name: str, token: str = OFFICE) -> bytes:
    return request("PUT", f"/teams/{name}", token, '{"token":"token-of-the-team-%s"}' % name)


def owned(name: str) -> bytes:
    """Gives this pacticipant to the team red."""
    return request("PUT", f"/pacticipants/{name}", body='{"team":"red"}')


def question(file: str, token: str = OFFICE, pacticipant: str = "shop") -> list[str]:
    words = ["can-i-deploy", "--file", file, "--token", token, "--pacticipant", pacticipant]
    return [*words, "--version", "1", "--to-environment", "live"]


def serving(file: str, listen: str = "nowhere") -> list[str]:
    return ["serve", "--file", file, "--listen", listen, "--connections", "1"]


def migrating(file: str) -> list[str]:
    return ["migrate", "--file", file]


def auditing(file: str) -> list[str]:
    return ["audit", "--file", file]


def making(file: str, token: str = OFFICE) -> list[str]:
    return ["init", "--file", file, "--office-token", token]


def reply(value: str, description: str = "a book") -> str:
    return '{"replies":[{"description":"%s","response":{"status":200,"headers":{"a":"%s"}}}]}' % (description, value)


def pact_files(room: str) -> dict[str, str]:
    """Files of a pact, and of replies that pass, that fail, that are none, and that belong to another."""
    texts = {"pact": PACT, "pass": reply("7"), "fail": reply("x"), "none": "[]", "other": reply("7", "a cup")}
    for name, text in texts.items():
        with open(f"{room}/{name}", "w", encoding="utf-8") as it:
            it.write(text)
    return {name: f"{room}/{name}" for name in texts}


def former_file(room: str, more: str = "", name: str = "former.db") -> str:
    """A file of format 1, with what these statements put into it."""
    statements(f"{room}/{name}", FORMER + more)
    return f"{room}/{name}"


def has_rows(log: str) -> bool:
    """Whether a file's log holds a row: it begins with 32 bytes, and a page of 4,096 comes with 24 bytes."""
    return os.path.isfile(log) and os.path.getsize(log) >= 32 + 24 + 4096


def kept(room: str) -> dict[str, tuple[int, bytes | None]]:
    """All that is in the folder: of each name what it is, its rights and what it holds; but no log without a row."""
    found = {}
    for at, folders, files in os.walk(room):
        for path in (f"{at}/{it}" for it in folders + files):
            about, text = os.lstat(path), None
            if os.path.isfile(path) and not os.path.islink(path):
                text = bytes_of(path)
            if not (path.endswith("-wal") and stat.S_ISREG(about.st_mode) and not has_rows(path)):
                found[path] = about.st_mode, text
    return found


def unchanged(room: str, before: dict[str, tuple[int, bytes | None]]) -> None:
    after = kept(room)
    changed = [it for it in sorted({*before, *after}) if before.get(it) != after.get(it)]
    same("what has changed in the folder", changed, [])


def faults_of_file(broker: Broker, room: str, path: str, opened: str = "file", made: str | None = "file") -> None:
    """Each command over the file ends with 3 and its line, and changes nothing; but init ends with 0 if it has none."""
    before = kept(room)
    for words in question(path), serving(path), migrating(path), auditing(path):
        same(words, broker(*words), (3, "", opened + "\n"))
        unchanged(room, before)
    if made is None:
        same(making(path), broker(*making(path)), (0, "", ""))
        same("a question to it", broker(*question(path)), (3, "", UNKNOWN))
    else:
        same(making(path), broker(*making(path)), (3, "", made + "\n"))
        unchanged(room, before)
