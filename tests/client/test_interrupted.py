"""Builds that are cancelled: the client is ended in the middle of what it does, and says what was done."""
import json, re, signal, subprocess, time, xml.etree.ElementTree
from collections.abc import Callable
from typing import Any, List, NamedTuple
import pytest
from tests.client.books import publish_book
from tests.client.flaky import EMPTY, FlakyBroker, flaky  # the fixture
from tests.client.peers import JSON_TYPE, BOOK_TEXT, one
from tests.client.tools import CLIENT, PYTHON, Asked, Client, Reply, Serving, Stock, secret, sound
from tests.process import Server
from tests.wire import Wrong, same
from tests.world import pact

__all__ = ["flaky"]
# How a build ends what it has started, and the status: as a shell has it of one that the signal ends.
SIGNALS = {"SIGTERM": (signal.SIGTERM, 143), "SIGINT": (signal.SIGINT, 130)}
by_each = pytest.mark.parametrize("name", SIGNALS)
# How many seconds an answer takes for which nobody waits.
WHILE = 20


def as_usual() -> None:
    """What is started in a shell's background gets SIGINT ignored; a build's steps don't."""
    for it, _ in SIGNALS.values():
        signal.signal(it, signal.SIG_DFL)


class Ended(NamedTuple):
    """How it ended: its status, its output, when it was told to end, and what it wrote on standard error."""

    status: int
    output: str
    moment: float
    errors: str


def ended(name: str, client: Client, caller: str, words: List[str], is_time: Callable[[], bool]) -> Ended:
    """Runs the client, and ends it by this signal once it is time."""
    pipes: Any = {"stdout": subprocess.PIPE, "stderr": subprocess.PIPE, "text": True}
    pipes.update(cwd=client.room, env=client.env(caller), preexec_fn=as_usual)
    process = subprocess.Popen([*PYTHON, CLIENT, *words], **pipes)
    ends = time.monotonic() + 30
    while not is_time():
        if time.monotonic() > ends or process.poll() is not None:
            raise Wrong(f"{words}: it never came so far: {process.communicate()}")
        time.sleep(0.02)
    moment = time.time()
    process.send_signal(SIGNALS[name][0])
    output, errors = process.communicate(timeout=30)
    secret(output + errors)
    sound(errors)
    return Ended(process.returncode, output, moment, errors)


@by_each
@pytest.mark.parametrize("more", [[], ["--json"]], ids=["in a table", "in JSON"])
def test_publish(name: str, more: List[str], flaky: FlakyBroker, room: str) -> None:
    """Ended while the second of three files is on its way: what is stored, what may be, and what wasn't sent."""
    for it in "a", "b", "c":
        with open(f"{room}/{it}.json", "w", encoding="utf-8") as file:
            file.write(pact(it).replace("stock", it))
    flaky.set([200, 200, 200], meanwhile=lambda: time.sleep(3 if flaky.count == 2 else 0))
    words = ["publish", "7", "a.json", "b.json", "c.json", *more]
    status, output, *_ = ended(name, Client(room, flaky.url), "red", words, lambda: flaky.count == 2)
    same("status", status, SIGNALS[name][1])
    if more:
        told = [(it["outcome"], it["path"]) for it in json.loads(output)]
    else:
        told = re.findall(r"(?m)^(new|not known|not sent) +(\S+):", output)
        same("how many", output.split("\n")[3:], ["stored, and this stays: 1 of 3 contracts", ""])
    same("what was done", told, [("new", "a.json"), ("not known", "b.json"), ("not sent", "c.json")])


@by_each
def test_result(name: str, flaky: FlakyBroker, room: str) -> None:
    """Ended while the second of three results is on its way."""
    for it in "a", "b", "c":
        metadata = {"holzhebo": {"consumerVersion": "1"}}
        with open(f"{room}/{it}.json", "w", encoding="utf-8") as file:
            file.write(json.dumps({"metadata": metadata, **json.loads(pact(it))}))
    flaky.set([200, 200, 200], meanwhile=lambda: time.sleep(3 if flaky.count == 2 else 0))
    words = ["result", "1", "pass", "a.json", "b.json", "c.json", "--run", "7", "--json"]
    status, output, *_ = ended(name, Client(room, flaky.url), "blue", words, lambda: flaky.count == 2)
    left = [{"answer": "not known", "file": "b.json"}, {"answer": "not sent", "file": "c.json"}]
    wanted = [{"answer": "done", "result": 1}, *({**it, "why": "it was interrupted"} for it in left)]
    same("status and what was done", (status, json.loads(output)), (SIGNALS[name][1], wanted))


@by_each
@pytest.mark.parametrize("command", ["deploy", "undeploy", "release", "end-support"])
def test_a_change(command: str, name: str, flaky: FlakyBroker, room: str) -> None:
    """Ended while it is on its way: nobody knows whether it is done."""
    flaky.set([200], meanwhile=lambda: time.sleep(3))
    done = ended(name, Client(room, flaky.url), "red", [command, "shop", "2", "live"], lambda: flaky.count == 1)
    said = "holzhebo: shop 2, live: it was interrupted, and whether the broker took it is not known\n"
    same("how it ends", (done.status, done.output, done.errors), (SIGNALS[name][1], "", said))


@by_each
def test_a_report_that_can_t_be_written(name: str, fleet: Server, client: Client) -> None:
    """It changes nothing of the status."""
    publish_book(fleet, "10", one())
    with Stock({"GET /1": Reply(headers=JSON_TYPE, body=BOOK_TEXT, wait=5)}) as stock:
        words = ["verify", "--provider", "stock", "--version", "p1", "--url", stock.url, "--contract", "shop", "10"]
        words += ["--junit", "blue.token/junit.xml"]
        status = ended(name, client, "blue", words, lambda: len(stock.asked) == 1).status
    same("status", status, SIGNALS[name][1])


@by_each
@pytest.mark.parametrize("jobs", ["1", "2"])
def test_verify(jobs: str, name: str, fleet: Server, client: Client, room: str) -> None:
    """Ended while the provider answers the second contract: JUnit has the first one, and that it was interrupted.
    Nobody waits for the provider's answer."""
    publish_book(fleet, "10", one())
    publish_book(fleet, "11", one(request={"path": "/2"}))
    right = Reply(headers=JSON_TYPE, body=BOOK_TEXT)
    with Stock({"GET /1": right, "GET /2": right._replace(wait=WHILE)}) as stock:
        words = ["verify", "--provider", "stock", "--version", "p1", "--url", stock.url, "--junit", "junit.xml"]
        words += ["--contract", "shop", "10", "--contract", "shop", "11", "--jobs", jobs]
        status, output, moment, _ = ended(name, client, "blue", words, lambda: len(stock.asked) == 2)
        same("whether it ends at once", time.time() - moment < WHILE / 2, True)
    same("status, and the first one", (status, output.split(",")[0]), (SIGNALS[name][1], "shop 10 (named): passed"))
    suites = xml.etree.ElementTree.parse(f"{room}/junit.xml").getroot()
    same("suites", [it.get("name") for it in suites], ["shop 10", "holzhebo verify"])
    same("why", [it.get("message") for it in suites.iter("error")], ["it was interrupted"])


@by_each
def test_plan(name: str, room: str) -> None:
    """Ended while several questions are under way: nobody waits for their answers."""
    asked: List[str] = []

    def answers(it: Asked) -> Reply:
        asked.append(it.path)
        environment = it.path.split("/")[-1]
        there = [{"pacticipant": one, "version": environment, "instance": ""} for one in ("shop", "stock")]
        said: Any = {**EMPTY, "environment": environment, "deployed": there}
        return Reply(body=json.dumps(said).encode(), wait=0 if it.path.startswith("/environments/") else WHILE)

    with Serving(answers) as it:
        words = ["plan", "staging", "live"]
        status, output, moment, _ = ended(name, Client(room, it.url), "office", words, lambda: len(asked) == 4)
        same("whether it ends at once", time.time() - moment < WHILE / 2, True)
    same("status", (status, output), (SIGNALS[name][1], ""))
