"""A fleet of sixty services of eight teams whose versions are hashes: what is in staging differs from what is in live
in forty of them. Two hundred pairs of a consumer and a provider; of a few the new versions only go in one order, of a
few not at all."""
from __future__ import annotations

import hashlib, json, random
from collections.abc import Iterator
from urllib.parse import quote

from tests.wire import OFFICE, Wrong, request
from tests.process import Server

TEAM = "all-of-us-token-01"
SERVICES = [f"service-{at:02}" for at in range(60)]
ENVIRONMENTS = ["dev", "test", "staging", "live"]
DIFFERENT = 40
CONTACTS = {it: f"team {at % 8}" for at, it in enumerate(SERVICES)}
Ask = tuple[str, str, str, str]


def number(service: str, what: str) -> str:
    """The version of a service: a hash of 40 digits."""
    return hashlib.sha1(f"{service} {what}".encode()).hexdigest()


def put(caller: str, path: str, **body: object) -> Ask:
    return caller, "PUT", path, json.dumps(body)


def post(path: str, **body: object) -> Ask:
    return TEAM, "POST", path, json.dumps(body)


def contract(consumer: str, version: str, provider: str) -> str:
    return f"/pacts/provider/{provider}/consumer/{consumer}/version/{version}"


def pairs() -> list[tuple[str, str]]:
    """Who calls whom: nobody one before it, so that an order of providers first would do for most."""
    dice = random.Random(60)
    found = set[tuple[str, str]]()
    while len(found) < 200:
        consumer, provider = sorted(dice.sample(range(60), 2))
        found.add((SERVICES[consumer], SERVICES[provider]))
    return sorted(found)


def asks() -> Iterator[Ask]:
    """All that makes it, in order."""
    yield put(OFFICE, "/teams/all", token=TEAM)
    for service in SERVICES:
        yield put(OFFICE, f"/pacticipants/{service}", team="all")
        for what in "old", "new":
            yield put(TEAM, f"/pacticipants/{service}/versions/{number(service, what)}", branch="main")
    for environment in ENVIRONMENTS:
        yield put(OFFICE, f"/environments/{environment}", gated=environment != "dev")
        yield put(OFFICE, f"/grants/team/all/environment/{environment}")
        for at, service in enumerate(SERVICES):
            what = "new" if at < DIFFERENT and environment != "live" else "old"
            where = f"/environments/{environment}/deployments"
            yield post(where, pacticipant=service, version=number(service, what))
    for at, (consumer, provider) in enumerate(pairs()):
        yield from agreed(at, consumer, provider)


def agreed(at: int, consumer: str, provider: str) -> Iterator[Ask]:
    """The contracts of a pair and their results: of each ninth pair the new consumer needs the new provider, of each
    fortieth both new ones fail one another, and of the others all passes."""
    for what in "old", "new":
        interaction = {
            "description": f"{what} question",
            "request": {"path": f"/{provider}"},
            "response": {"status": 200},
        }
        file = {"consumer": {"name": consumer}, "provider": {"name": provider}, "interactions": [interaction]}
        path = contract(consumer, number(consumer, what), provider)
        yield put(TEAM, path, **file)
        for theirs in "old", "new":
            is_bad = what == "new" and (at % 9 == 0 and theirs == "old" or at % 40 == 0 and theirs == "new")
            yield post(f"{path}/results", providerApplicationVersion=number(provider, theirs), success=not is_bad)


def fill(server: Server, all_asks: Iterator[Ask]) -> None:
    """Sends these on few connections."""
    messages = [request(method, quote(path, safe="/%"), token, body) for token, method, path, body in all_asks]
    for begin in range(0, len(messages), 200):
        for body in server.send(*messages[begin : begin + 200]):
            if not body.startswith(('{"answer":"done"', '{"answer":"already"')):
                raise Wrong(f"the fleet isn't made: {body}")


# Many builds of one contract


def many_builds(builds: int) -> Iterator[Ask]:
    """Twenty-five consumers of config, each with so many builds that have one contract, and two contracts before it."""
    yield put(OFFICE, "/pacticipants/config", team="all")
    yield put(TEAM, f"/pacticipants/config/versions/{number('config', 'it')}", branch="main")
    for consumer in SERVICES[:25]:
        for at in range(builds):
            kind = "first" if at == 0 else "second" if at == 1 else "usual"
            interaction = {"description": kind, "request": {"path": "/config"}, "response": {"status": 200}}
            file = {"consumer": {"name": consumer}, "provider": {"name": "config"}, "interactions": [interaction]}
            version = number(consumer, f"build {at}")
            yield put(TEAM, f"/pacticipants/{consumer}/versions/{version}", branch="main")
            yield put(TEAM, contract(consumer, version, "config"), **file)
            if at < 3:
                path = f"{contract(consumer, version, 'config')}/results"
                yield post(path, providerApplicationVersion=number("config", "it"), success=at > 0)
