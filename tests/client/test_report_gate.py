"""The gate of `holzhebo report`, the second reading of the tables, against the program.

For every version and every environment, what the report finds is what can-i-deploy answers, fault by fault, and what it
says is there is what the listing says: over the file that each scenario of tests/data/scenarios leaves that breaks no
rule by a statement, and over random histories, in which each kind of fault comes up."""
import collections, json, os, random, tempfile
from concurrent.futures import ThreadPoolExecutor
from pathlib import Path
from typing import Any
from urllib.parse import quote

from holzhebo.report.board import refusals
from holzhebo.report.copy import Copy
from holzhebo.report.gate import faults
from tests.client.report_shown import copied, page_of
from tests.players import scenario, scenario_plays
from tests.process import TOP, Server
from tests.wire import OFFICE, Wrong, same
from tests.world import BLUE, RED, new_file, pact

SEED, HISTORIES, STEPS = 1, 6, 160
Kinds = collections.Counter[str]


def in_answer(it: dict[str, str]) -> tuple[str, ...]:
    return it["consumer"], it["consumerVersion"], it["provider"], it["providerVersion"], it["kind"]


def compare_environment(server: Server, office: str, copy: Any, there: Any) -> Kinds:
    """What the program and the report say of an environment: the kinds of all faults, by their number."""
    place = quote(there.name, safe="")
    listing = json.loads(server.ask("GET", f"/environments/{place}", office).body)
    said = {(it["pacticipant"], it["version"]) for it in listing["deployed"] + listing["released"]}
    same("what is there", {copy.version(it) for them in there.there.values() for it in them}, said)
    kinds: Kinds = collections.Counter()
    refused: set[tuple[str, str]] = set()
    for (number,) in copy.rows("SELECT number FROM versions ORDER BY 1"):
        names = copy.version(number)
        one = f"pacticipant={quote(names[0], safe='')}&version={quote(names[1], safe='')}"
        ask = f"/can-i-deploy?{one}&environment={place}"
        status, _, text = server.ask("GET", ask, office)
        if status != 200:
            raise Wrong(f"{ask}: {status} {text}")
        answer = json.loads(text)
        same(
            f"the faults of {ask}",
            [tuple(it) for it in faults(copy, there, number)],
            [*map(in_answer, answer["faults"])],
        )
        kinds.update([it["kind"] for it in answer["faults"]] + ["asked"])
        refused |= {names} if names in said and not answer["permitted"] else set()
    same("what would be refused", {copy.version(it) for it, _ in refusals(copy, there)}, refused)
    return kinds


def compare(program: str, file: str, office: str, room: str) -> Kinds:
    """The same of all environments of a file that nobody serves."""
    kinds: Kinds = collections.Counter()
    with Server(program, copied(file, f"{room}/served.db")) as server:
        copy = Copy(copied(file, f"{room}/read.db"), room)
        for there in copy.environments:
            kinds += compare_environment(server, office, copy, there)
    page_of(f"{room}/read.db")
    return kinds


def kinds_of_scenario(program: str, name: str) -> Kinds | None:
    """A scenario, if it changes nothing by a statement."""
    read = scenario.Scenario(scenario.file_of(name))
    if any(it.strip() for stream in read.streams for it in stream.statements):
        return None
    with tempfile.TemporaryDirectory() as room:
        scenario_plays.play_file(program, read, "whole", room, "left")
        try:
            return compare(program, f"{room}/left.db", read.office, room)
        except Wrong as it:
            raise Wrong(f"{name}: {it}") from None


def test_the_gate_of_scenarios(program: str) -> None:
    names = sorted(it.stem for it in Path(f"{TOP}/tests/data/scenarios").glob("*.scenario"))
    with ThreadPoolExecutor(len(os.sched_getaffinity(0))) as pool:
        found = [it for it in pool.map(lambda name: kinds_of_scenario(program, name), names) if it is not None]
    if len(found) * 2 < len(names):
        raise Wrong(f"only {len(found)} of {len(names)} scenarios leave a sound file")
    kinds: Kinds = sum(found, collections.Counter())
    same("there are faults, and questions", kinds.total() > kinds["asked"] > 0, True)


SERVICES = {"a": RED, "b": RED, "c": BLUE, "d": BLUE}
PLACES = "open", "live", "vault"


def begin_history(server: Server) -> None:
    for team, token in ("red", RED), ("blue", BLUE):
        server.do("PUT", f"/teams/{team}", OFFICE, json.dumps({"token": token}))
    for service, token in SERVICES.items():
        server.do("PUT", f"/pacticipants/{service}", OFFICE, json.dumps({"team": "red" if token == RED else "blue"}))
    for place in PLACES:
        server.do(
            "PUT", f"/environments/{place}", OFFICE, json.dumps({"gated": place != "open", "strict": place == "vault"})
        )
        for team in "red", "blue":
            server.do("PUT", f"/grants/team/{team}/environment/{place}", OFFICE)


def step(chance: random.Random) -> tuple[str, str, str, str]:
    """A random request: its method and path, the token, the body."""
    one, other = chance.sample([*SERVICES], 2)
    number, there, text = chance.choice("123"), chance.choice("123"), chance.choice(["a cup", "a pen"])
    path = f"/pacts/provider/{other}/consumer/{one}/version/{number}"
    where = {"pacticipant": one, "version": number, **chance.choice([{}, {"instance": "x"}])}
    released = {"pacticipant": one, "version": number}
    reply = {"description": text, "response": {"status": chance.choice([200, 200, 500])}}
    asks = {
        "version": (one, f"PUT /pacticipants/{one}/versions/{number}", {}),
        "publish": (one, f"PUT {path}", json.loads(pact(text).replace("shop", one).replace("stock", other))),
        "result": (
            other,
            f"POST {path}/results",
            {"providerApplicationVersion": there, "success": chance.random() < 0.7},
        ),
        "replies": (other, f"POST {path}/replies", {"providerApplicationVersion": there, "replies": [reply]}),
        "deploy": (one, f"POST /environments/{chance.choice(PLACES)}/deployments", where),
        "undeploy": (one, f"POST /environments/{chance.choice(PLACES)}/undeployments", where),
        "release": (one, f"POST /environments/{chance.choice(PLACES)}/releases", released),
        "end": (one, f"POST /environments/{chance.choice(PLACES)}/support-ended", released),
    }
    service, ask, body = asks[chance.choices([*asks], [2, 3, 5, 6, 8, 1, 2, 1])[0]]
    method, path = ask.split(" ")
    return method, path, SERVICES[service], json.dumps(body)


def kinds_of_history(program: str, seed: int, room: str) -> Kinds:
    chance = random.Random(seed)
    file = new_file(program, room)
    with Server(program, file) as server:
        begin_history(server)
        for _ in range(STEPS):
            ask = step(chance)
            status, _, text = server.ask(*ask)
            if status not in (200, 404, 409) and '"check 1"' not in text:
                raise Wrong(f"history {seed}: {ask}: {status} {text}")
    return compare(program, file, OFFICE, room)


def test_the_gate_of_histories(program: str, room: str) -> None:
    """Each kind of fault is found in the histories that are tried."""
    kinds: Kinds = collections.Counter()
    for seed in range(SEED, SEED + HISTORIES):
        os.mkdir(f"{room}/{seed}")
        kinds += kinds_of_history(program, seed, f"{room}/{seed}")
    same("kinds that don't", [it for it in ("absent", "missing", "failed", "claimed") if not kinds[it]], [])
