"""Files that can be read only once, as those of a shell's <(..) and standard input."""
from tests.client.flaky import FlakyBroker, flaky  # the fixture
from tests.client.tools import CLIENT, PYTHON, Client
from tests.process import Ended, Server, ran
from tests.wire import same
from tests.world import RED, pact

__all__ = ["flaky"]


def by_bash(client: Client, caller: str, words: str) -> Ended:
    """The client by a line of a shell that has <(..)."""
    line = " ".join([*PYTHON, CLIENT, words])
    return ran(["bash", "-c", line], cwd=client.room, env=client.env(caller))


def test_a_pact(fleet: Server, client: Client, room: str) -> None:
    """Also explain takes - twice."""
    with open(f"{room}/a.json", "w", encoding="utf-8") as it:
        it.write(pact("a book"))
    done = by_bash(client, "red", "publish 7 --branch main <(cat a.json)")
    same("publish", (done.status, done.errors, done.output[:4]), (0, "", "new "))
    done = ran([*PYTHON, CLIENT, "explain", "-", "-"], pact("a"), cwd=room)
    same("explain", (done.status, done.output), (0, "-: no fault is found\n"))


def test_a_token(flaky: FlakyBroker, room: str) -> None:
    """By a command that asks first what is there, and then changes it."""
    client, words = Client(room, flaky.url), "record-undeployment shop live --token-file"
    flaky.set([], there=[{"pacticipant": "shop", "version": "1", "instance": ""}])
    done = by_bash(client, "none", f"{words} <(cat red.token)")
    wanted = Ended(0, "shop 1 is no longer deployed in live.\n", "")
    same("by <(..)", done, wanted)
    done = ran([*PYTHON, CLIENT, *words.split(), "-"], RED, cwd=room, env=client.env("none"))
    same("by -", done, wanted)
