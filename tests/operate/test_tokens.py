"""Tokens in the words of command lines, which others on a machine can read: the scripts of examples/ have none. Each is
run under strace, which writes down the words of every program that it starts, over a broker of its own. Only `broker`
itself may have a token there, as docs/OPERATING.md says. And the demo sends none to another server."""
import re
import pytest
from tests.client.tools import Asked, Reply, Serving
from tests.process import TOP, Ended, Server, ran, run, text_of
from tests.wire import same

pytestmark = pytest.mark.needs("curl", "strace")


def started(words: list[str], trace: str) -> list[tuple[str, str]]:
    """The command lines that these words start, each with the path of its program first."""
    run(["strace", "-f", "-qq", "-s", "100000", "-e", "trace=execve", "-o", trace, *words])
    return re.findall(r'(?m)^\d+ +execve\("([^"]*)", \[(.*?)\], 0x.* = 0$', text_of(trace))


# Each script, with `URL` in the place of a broker's address and PROGRAM of the program, and the end of a program that
# it has to start.
@pytest.mark.parametrize("script, word, tool", [
    ("one-deployment.sh", "URL", "/curl"), ("demo.sh", "URL", "/curl"), ("replay.sh", "PROGRAM", "PROGRAM"),
])
def test_words(server: Server, program: str, room: str, script: str, word: str, tool: str) -> None:
    places = {"URL": server.url, "PROGRAM": program}
    lines = started([f"examples/{script}", places[word]], f"{room}/trace")
    tool = places.get(tool, tool)
    same(f"whether {script} starts {tool}", any(path.endswith(tool) for path, _ in lines), True)
    shown = [line for path, line in lines if path != program and re.search(r"-token-0*1", line)]
    same(f"command lines of {script} with a token", shown, [])


@pytest.mark.parametrize("reply", [
    Reply(200, body=b'{"answer":"no route"}'), Reply(404, body=b"no such page"), Reply(401, body=b""),
], ids=["200", "404", "401"])
def test_another_server(reply: Reply) -> None:
    """The demo sends no token to what isn't a broker, and says so."""
    asked: list[Asked] = []

    def keeps(it: Asked) -> Reply:
        asked.append(it)
        return reply

    with Serving(keeps) as it:
        done = ran([f"{TOP}/examples/demo.sh", it.url])
        same("the end", done, Ended(1, "", f"no broker answers at {it.url}\n"))
    same("what was asked", [(it.method, it.path) for it in asked], [("GET", "/")])
    same("a token", [it for it in asked if "authorization" in it.headers], [])
