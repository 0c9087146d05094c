"""Random commands in a small world of teams, services and environments, and the questions about what it holds."""
import itertools, json, random
from collections.abc import Iterable, Iterator
from typing import Any, NamedTuple
from urllib.parse import quote
from tests.wire import OFFICE, request

TEAMS = {"red": "red-team-token-01", "blue": "blue-team-token-1", "grey": "grey-team-token-1"}
OWNERS = {"shop": "red", "web": "red", "stock": "blue", "tax": "grey"}
ENVIRONMENTS = {"test": (False, False), "live": (True, False), "vault": (True, True)}
VERSIONS = ["1", "2", "3", "4", "5", "6", "7", "feat/1", "rc 1"]
BRANCHES = ["main", "next", "feat"]
RUNS = [f"ci-{it}" for it in range(8)]
Name = tuple[str, str]


class Ask(NamedTuple):
    """A request, with what it names: versions, a run of a provider, the text of a pact, a branch of a pacticipant."""

    method: str
    path: str
    token: str
    body: str = ""
    versions: tuple[Name, ...] = ()
    run: Name | None = None
    text: str | None = None
    branch: Name | None = None

    def bytes(self) -> bytes:
        return request(self.method, self.path, self.token, self.body)


def text_of(pact_file: str) -> str:
    """What tells the text of a pact file, or of a stored contract, from all others here."""
    tree = json.loads(pact_file)
    return " ".join([tree["consumer"]["name"], tree["provider"]["name"], tree["interactions"][0]["description"][-1]])


def segment(name: str) -> str:
    return quote(name, safe="")


def pact(consumer: str, provider: str, text: int) -> str:
    """A pact file: the texts of one number differ from those of another."""
    interactions = [
        {
            "description": f"question {it} of {text}",
            "request": {"method": "GET", "path": f"/{text}/{it}"},
            "response": {"status": 200},
        }
        for it in range(2)
    ]
    return json.dumps({"consumer": {"name": consumer}, "provider": {"name": provider}, "interactions": interactions})


def replies(text: int, passed: bool) -> list[object]:
    status = 200 if passed else 500
    return [{"description": f"question {it} of {text}", "response": {"status": status}} for it in range(2)]


def contract_path(consumer: str, version: str, provider: str) -> str:
    return f"/pacts/provider/{provider}/consumer/{consumer}/version/{segment(version)}"


def start() -> Iterator[Ask]:
    for team, token in TEAMS.items():
        yield Ask("PUT", f"/teams/{team}", OFFICE, json.dumps({"token": token}))
    for name, (gated, strict) in ENVIRONMENTS.items():
        yield Ask("PUT", f"/environments/{name}", OFFICE, json.dumps({"gated": gated, "strict": strict}))
        for team in TEAMS:
            yield Ask("PUT", f"/grants/team/{team}/environment/{name}", OFFICE)
    for pacticipant, team in OWNERS.items():
        yield Ask("PUT", f"/pacticipants/{pacticipant}", OFFICE, json.dumps({"team": team}))


class Dice:
    """Commands by a seed. The text that a version's contract got is remembered, for replies that fit it."""

    def __init__(self, seed: str) -> None:
        self.random = random.Random(seed)
        self.texts: dict[tuple[str, str, str], int] = {}

    def commands(self) -> Iterator[Ask]:
        kinds = [self.version, self.contract, self.contract, self.result, self.result, self.answered, self.deployment]
        kinds += [self.deployment, self.deployment, self.undeployment, self.release, self.end, self.grant]
        while True:
            yield self.random.choice(kinds)()

    def pair(self) -> tuple[str, str]:
        consumer, provider = self.random.sample(list(OWNERS), 2)
        return consumer, provider

    def versioned(self) -> Name:
        return self.random.choice(list(OWNERS)), self.random.choice(VERSIONS)

    def version(self) -> Ask:
        pacticipant, version = self.versioned()
        branch = self.random.choice([*BRANCHES, None])
        path = f"/pacticipants/{pacticipant}/versions/{segment(version)}"
        body = json.dumps({"branch": branch}) if branch else ""
        token, named = TEAMS[OWNERS[pacticipant]], (pacticipant, version)
        return Ask("PUT", path, token, body, (named,), branch=(pacticipant, branch) if branch else None)

    def contract(self) -> Ask:
        (consumer, provider), version = self.pair(), self.random.choice(VERSIONS)
        text = self.texts.setdefault((consumer, version, provider), self.random.randrange(4))
        body = pact(consumer, provider, text)
        path = contract_path(consumer, version, provider)
        return Ask("PUT", path, TEAMS[OWNERS[consumer]], body, ((consumer, version),), text=text_of(body))

    def of_result(self, end: str, fields: dict[str, Any], key: tuple[str, str, str]) -> Ask:
        (consumer, version, provider), own = key, self.random.choice(VERSIONS)
        run = self.random.choice([*RUNS, None, None])
        said: dict[str, Any] = {"providerApplicationVersion": own, **fields, **({"run": run} if run else {})}
        path, named = f"{contract_path(consumer, version, provider)}/{end}", ((consumer, version), (provider, own))
        token = TEAMS[OWNERS[provider]]
        return Ask("POST", path, token, json.dumps(said), named, run=(provider, run) if run else None)

    def known(self) -> tuple[str, str, str]:
        """A contract that was sent, if one was."""
        return self.random.choice(list(self.texts) or [("shop", "1", "stock")])

    def result(self) -> Ask:
        return self.of_result("results", {"success": self.random.random() < 0.8}, self.known())

    def answered(self) -> Ask:
        key = self.known()
        return self.of_result("replies", {"replies": replies(self.texts.get(key, 0), self.random.random() < 0.8)}, key)

    def change(self, end: str, fields: dict[str, str]) -> Ask:
        pacticipant, version = self.versioned()
        said = json.dumps({"pacticipant": pacticipant, "version": version, **fields})
        path = f"/environments/{self.random.choice(list(ENVIRONMENTS))}/{end}"
        return Ask("POST", path, TEAMS[OWNERS[pacticipant]], said, ((pacticipant, version),))

    def instance(self) -> dict[str, str]:
        return {"instance": "canary"} if self.random.random() < 0.2 else {}

    def deployment(self) -> Ask:
        return self.change("deployments", self.instance())

    def undeployment(self) -> Ask:
        return self.change("undeployments", self.instance())

    def release(self) -> Ask:
        return self.change("releases", {})

    def end(self) -> Ask:
        return self.change("support-ended", {})

    def grant(self) -> Ask:
        method = self.random.choice(["PUT", "PUT", "PUT", "DELETE"])
        team, name = self.random.choice(list(TEAMS)), self.random.choice(list(ENVIRONMENTS))
        return Ask(method, f"/grants/team/{team}/environment/{name}", OFFICE)


def questions(versions: Iterable[Name], branches: Iterable[Name]) -> Iterator[Ask]:
    """Every question about these versions, and about these branches."""
    for name in ENVIRONMENTS:
        yield Ask("GET", f"/environments/{name}", OFFICE)
    for p, v in versions:
        query = f"pacticipant={segment(p)}&version={segment(v)}"
        for name in ENVIRONMENTS:
            yield Ask("GET", f"/can-i-deploy?{query}&environment={name}", OFFICE, versions=((p, v),))
        yield Ask("GET", f"/matrix?{query}", OFFICE, versions=((p, v),))
        for q in OWNERS:
            if q != p:
                yield Ask("GET", contract_path(p, v, q), OFFICE, versions=((p, v),))
    for (p, branch), q in itertools.product(branches, OWNERS):
        if q != p:
            yield Ask("GET", f"/pacts/provider/{q}/consumer/{p}/branch/{segment(branch)}", OFFICE, branch=(p, branch))
