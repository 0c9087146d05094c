"""A broker that restarts, or that answers late, twice or not at all: what is sent again, and what isn't."""
import concurrent.futures, contextlib, glob, json, subprocess, threading, time
from collections.abc import Iterator
from typing import Any, Dict, List, Optional, Tuple
import pytest
from tests.client.flaky import MANY, FlakyBroker, flaky  # the fixture
from tests.client.peers import Proxy
from tests.client.tools import Client
from tests.process import Server, free_port
from tests.wire import OFFICE, Wrong, same
from tests.world import RED, fleet_file, pact

__all__ = ["flaky"]
Words = Tuple[str, ...]


@contextlib.contextmanager
def restarting(program: str, file: str, port: int, connections: int) -> Iterator[List[int]]:
    """A service that starts the program again each time it ends, as examples/broker.service does."""
    ends, starts = threading.Event(), []  # type: threading.Event, List[int]
    words = [program, "serve", "--file", file, "--listen", f"127.0.0.1:{port}", "--connections", str(connections)]
    process: List["subprocess.Popen[bytes]"] = []

    def loop() -> None:
        while not ends.is_set():
            process[:] = [subprocess.Popen(words, stderr=subprocess.DEVNULL)]
            starts.append(process[0].pid)
            process[0].wait()
            time.sleep(0.05)

    thread = threading.Thread(target=loop)
    thread.start()
    try:
        yield starts
    finally:
        ends.set()
        process[0].terminate()
        thread.join(60)


def build(client: Client, number: int) -> None:
    """A whole build, from its contract to the end of its deployment."""
    path, room = f"{client.room}/{number}.json", client.room
    with open(path, "w", encoding="utf-8") as it:
        it.write(pact(f"a thing {number}"))
    for words in (
        ("red", "publish", f"r{number}", "--branch", "main", path),
        ("blue", "fetch", "--provider", "stock", "--contract", "shop", f"r{number}", "--into", f"got{number}"),
    ):
        same(f"{words}", client.run(*words).status, 0)
    (fetched,) = glob.glob(f"{room}/got{number}/*.json")
    for words in (
        ("blue", "result", "1", "pass", fetched, "--run", f"build {number}"),
        ("red", "can-i-deploy", "shop", f"r{number}", "live"),
        ("red", "deploy", "shop", f"r{number}", "live", "--instance", f"i{number}"),
        ("red", "undeploy", "shop", f"r{number}", "live", "--instance", f"i{number}"),
        ("red", "status", "live"),
    ):
        same(f"{words}", client.run(*words).status, 0)


def test_restarts(program: str, room: str) -> None:
    """Builds beside one another go on as if it had served all the time, while it ends after each few connections."""
    file, port = fleet_file(program, room), free_port()
    client = Client(room, f"http://127.0.0.1:{port}")
    with restarting(program, file, port, 3) as starts:
        with concurrent.futures.ThreadPoolExecutor(3) as workers:
            for it in [workers.submit(build, client, number) for number in range(6)]:
                it.result()
        if len(starts) < 10:
            raise Wrong(f"the broker started only {len(starts)} times")


# What is sent again


RESULT, RUN = ("result", "1", "pass", "file.json"), ("--run", "build 1")
CASES: List[Tuple[Words, List[int], int, int]] = [
    ((*RESULT, *RUN), [502, 503, 0], 0, 4),
    (RESULT, [502], 3, 1),
    (RESULT, [503], 3, 1),
    (RESULT, [0], 3, 1),
    ((*RESULT, *RUN), [504], 0, 2),
    (RESULT, [504], 3, 1),
    ((*RESULT, *RUN), [500], 3, 1),
    (("publish", "1", "file.json"), [503, 0], 0, 3),
    (("deploy", "a", "1", "live"), [0, 502], 0, 3),
    (("undeploy", "a", "1", "live"), [503], 0, 2),
    (("undeploy", "a", "1", "live"), [504], 0, 2),
    (RESULT, [MANY, MANY], 0, 3),
    (("publish", "1", "file.json"), [MANY], 0, 2),
]


def with_file(room: str) -> None:
    with open(f"{room}/file.json", "w", encoding="utf-8") as it:
        it.write(json.dumps({**json.loads(pact("a book")), "metadata": {"holzhebo": {"consumerVersion": "1"}}}))


@pytest.mark.parametrize("words, statuses, status, count", CASES, ids=str)
def test_what_is_sent_again(
    words: Words, statuses: List[int], status: int, count: int, flaky: FlakyBroker, room: str
) -> None:
    """What is idempotent, after 502, 503, 504 and a connection that closes; and all, after a proxy's 429. A result
    without a run isn't after anything else, since it would count twice."""
    with_file(room)
    flaky.set(statuses)
    done = Client(room, flaky.url).run("red", *words)
    same(f"{words} after {statuses}", (done.status, flaky.count), (status, count))
    same("they are one request", len(set(flaky.bodies)), 1)


def test_the_wait_that_a_proxy_asks_for(flaky: FlakyBroker, room: str) -> None:
    """The field retry-after is kept to; if it is longer than the patience, the request isn't sent again."""
    with_file(room)
    for seconds, status, count in (2, 0, 2), (90, 3, 1):
        flaky.set([MANY], headers={"retry-after": str(seconds)})
        began = time.monotonic()
        done = Client(room, flaky.url).run("red", *RESULT, "--patience", "30")
        took = time.monotonic() - began
        same(f"after {seconds} seconds", (done.status, flaky.count), (status, count))
        if count == 2 and took < seconds:
            raise Wrong(f"it was sent again after {took:.1f} seconds")


def test_a_proxy_that_asks_for_no_wait(flaky: FlakyBroker, room: str) -> None:
    """It isn't asked without a pause: within a second after 0.1, 0.3 and 0.7 seconds."""
    with_file(room)
    flaky.set([MANY] * 1000, headers={"retry-after": "0"})
    done = Client(room, flaky.url).run("red", *RESULT, "--patience", "1")
    same("status, and whether it is asked seldom", (done.status, flaky.count <= 4), (3, True))


def test_a_refused_connection(room: str) -> None:
    """Nothing was sent, so nothing can count twice: a result without a run is sent again too, and arrives once."""
    with_file(room)
    port = free_port()
    client = Client(room, f"http://127.0.0.1:{port}")
    for run in (), RUN:
        began = time.monotonic()
        done = client.run("red", *RESULT, *run, "--patience", "1")
        took = time.monotonic() - began
        same("nobody listens", (done.status, done.errors.count("asked again"), took > 0.5), (3, 1, True))
    brokers: List[FlakyBroker] = []
    with contextlib.ExitStack() as ends:
        later = threading.Timer(1.5, lambda: brokers.append(ends.enter_context(FlakyBroker(port))))
        later.start()
        done = client.run("red", *RESULT)
        later.join()
    same("it listens later", (done.status, done.output, brokers[0].count), (0, f"file.json: {CLAIMED}\n", 1))


CLAIMED = "pass is claimed, result 1"


def place(version: str, instance: str = "") -> Dict[str, str]:
    return {"pacticipant": "shop", "version": version, "instance": instance}


BEFORE, OURS, OTHER = [place("1")], [place("2")], [place("3")]
# What is there before, what is there once the connection closed without an answer; how it ends, and how often it is
# sent.
MEANWHILE: List[Tuple[List[Dict[str, str]], List[Dict[str, str]], int, int]] = [
    (BEFORE, BEFORE, 0, 2),
    (BEFORE, OURS, 0, 2),
    (BEFORE, OTHER, 3, 1),
    ([], [], 0, 2),
    ([], OURS, 0, 2),
    ([], OTHER, 3, 1),
    (BEFORE, [], 3, 1),
    (BEFORE, [*BEFORE, place("3", "canary")], 0, 2),
]


# Whether the broker keeps connections, and whether its port is closed for a moment after the lost answer.
WAYS = {"closed": (False, False), "kept": (True, False), "kept, and it restarts": (True, True)}
AGAIN = [(way, *it) for way in WAYS for it in MEANWHILE[: 8 if way == "closed" else 3]]


@pytest.mark.parametrize("way, before, after, status, count", AGAIN, ids=str)
def test_a_deployment_again(
    way: str, before: Any, after: Any, status: int, count: int, flaky: FlakyBroker, room: str
) -> None:
    """A deployment whose answer is lost is repeated only if nothing else was deployed there meanwhile."""
    keeps, restarts = WAYS[way]

    def meanwhile() -> None:
        if flaky.count == 1:
            flaky.there = after
        if restarts and flaky.count == 1:
            flaky.goes()

    flaky.set([0], there=before, is_kept=keeps, meanwhile=meanwhile)
    done = Client(room, flaky.url).run("red", "deploy", "shop", "2", "live")
    same(f"{before} {after}", (done.status, flaky.count), (status, count))
    if status:
        same("it says what is there", f"meanwhile {'shop 3' if after else 'nothing'} is there" in done.errors, True)
        same("and claims nothing", done.output, "")


@pytest.mark.parametrize("way", WAYS)
def test_the_end_of_an_instance_again(way: str, flaky: FlakyBroker, room: str) -> None:
    """An undeployment whose answer is lost was done: that it isn't there any more is no fault."""
    keeps, restarts = WAYS[way]
    meanwhile = lambda: flaky.goes() if restarts and flaky.count == 2 else None
    flaky.set([200, 0, 404], is_kept=keeps, meanwhile=meanwhile)
    done = Client(room, flaky.url).run("red", "deploy", "shop", "2", "live", "--then-undeploy", "next")
    said = "shop 2 is deployed in live.\nshop 2 is no longer deployed in live, instance next.\n"
    same("it is done", (done.status, done.output, flaky.count), (0, said, 3))


def test_a_deployment_that_is_lost_twice(flaky: FlakyBroker, room: str) -> None:
    """It is looked again before each repetition, also if the answer to the look comes over a kept connection."""

    def meanwhile() -> None:
        flaky.there = OTHER if flaky.count == 2 else BEFORE

    flaky.set([0, 0], there=BEFORE, is_kept=True, meanwhile=meanwhile)
    done = Client(room, flaky.url).run("red", "deploy", "shop", "2", "live")
    same("shop 3 stays", (done.status, flaky.count), (3, 2))


@pytest.mark.parametrize("status, said", [(0, "closes without an answer"), (504, "answers 504")])
@pytest.mark.parametrize("words", [("deploy", "shop", "2", "live"), ("undeploy", "shop", "1", "live"), RESULT], ids=str)
def test_a_change_that_nobody_answers(words: Words, status: int, said: str, flaky: FlakyBroker, room: str) -> None:
    """That it may have been done is said."""
    with_file(room)
    flaky.set([status] * 100, there=BEFORE)
    done = Client(room, flaky.url).run("red", *words, "--patience", "0.5")
    end = f"holzhebo: the broker {said}; whether it took the request is not known"
    same("the end", (done.status, done.errors.splitlines()[-1]), (3, end))


def test_a_deployment_and_a_broker_that_is_gone(flaky: FlakyBroker, room: str) -> None:
    """It is said too if nobody answers the look at what is there."""

    def goes() -> None:
        flaky.shutdown()
        flaky.server_close()

    flaky.set([0], there=BEFORE, meanwhile=goes)
    done = Client(room, flaky.url).run("red", "deploy", "shop", "2", "live", "--patience", "0.5")
    said = "whether shop 2 was deployed isn't known; the broker refuses the connection"
    same("the end", (done.status, done.errors.splitlines()[-1]), (3, f"holzhebo: {said}"))


def test_another_deployment_isn_t_undone(fleet: Server, client: Client) -> None:
    """The answer of shop 1 is lost at a proxy, another build deploys shop 3; the first one doesn't put shop 1 back."""
    with Losing(fleet) as proxy:
        done = Client(client.room, proxy.url).run("red", "deploy", "shop", "1", "live")
    same("the first build", (done.status, done.output), (3, ""))
    same("what is there", client.done("red", "status", "live", "--service", "shop", "--format", "{version}"), "3\n")


class Losing(Proxy):
    """A proxy that loses the answer to the first deployment, before which another build's arrives."""

    is_lost = False

    def answers(self, method: str, path: str, token: str, body: bytes) -> Optional[Tuple[int, str]]:
        found = super().answers(method, path, token, body)
        if method != "POST" or self.is_lost:
            return found
        self.is_lost = True
        other = json.dumps({"pacticipant": "shop", "version": "3"})
        self.broker.do("POST", "/environments/live/deployments", RED, other)
        return None


def test_one_connection(fleet: Server, room: str, program: str) -> None:
    """The requests of a command share a connection: of 40 contracts, far fewer connections than requests are
    counted."""
    for number in range(40):
        name = f"c{number}"
        fleet.do("PUT", f"/pacticipants/{name}", OFFICE, '{"team":"red"}')
        text = pact("a thing").replace('"shop"', f'"{name}"')
        fleet.do("PUT", f"/pacts/provider/stock/consumer/{name}/version/1", RED, text)
        fleet.do("POST", "/environments/open/deployments", RED, json.dumps({"pacticipant": name, "version": "1"}))
    fleet.stop()
    with Server(program, fleet.file, 25) as few:
        done = Client(room, few.url).run("blue", "status", "open", "--provider", "stock", "--patience", "0")
        same("40 contracts over 25 connections", (done.status, done.output.count("\n")), (0, 40))
