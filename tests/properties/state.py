"""What a broker keeps, as docs/DEFINITIONS.md has it, in plain tables; who may do what; and the commands on names,
contracts and results."""
import json
from typing import Any, NamedTuple
from tests.wire import OFFICE

Said = tuple[int, str]
DONE, ALREADY = '{"answer":"done"}', '{"answer":"already"}'


class Refused(Exception):
    """The answer that ends a command before it changes anything."""

    def __init__(self, status: int, **said: Any) -> None:
        super().__init__()
        self.said = status, text(said)


class Result(NamedTuple):
    content: int
    version: str
    success: bool
    evidence: str
    run: tuple[str, str] | None


def text(value: Any) -> str:
    return json.dumps(value, separators=(",", ":"), sort_keys=True)


def pact(consumer: str, provider: str, book: str) -> str:
    """A pact file of one interaction; it is its own normal text."""
    asked = {"description": book, "providerStates": [], "request": {"method": "GET", "path": "/"}}
    sides = {"consumer": {"name": consumer}, "provider": {"name": provider}}
    return text({**sides, "interactions": [{**asked, "response": {"status": 200}}]})


class State:
    """The tables, and a method for each of these commands, which gives its answer."""

    def __init__(self) -> None:
        self.teams: dict[str, str] = {}
        self.owners: dict[str, str] = {}
        self.versions: list[tuple[str, str]] = []
        self.branches: set[tuple[str, str, str]] = set()
        self.environments: dict[str, tuple[bool, bool]] = {}
        self.grants: set[tuple[str, str]] = set()
        self.contents: list[str] = []
        self.contracts: dict[tuple[str, str, str], int] = {}
        self.results: list[Result] = []
        self.deployed: dict[tuple[str, str, str], str] = {}
        self.released: set[tuple[str, str, str]] = set()

    # Callers, what exists, the policy

    def caller(self, token: str) -> str:
        """The team of a token, or `` for the office."""
        if token == OFFICE:
            return ""
        for team, its in self.teams.items():
            if its == token:
                return team
        raise Refused(401, answer="denied", rule="A1")

    def exist(self, **names: str) -> None:
        """Each of these exists, in this order; a version is that of the pacticipant before it."""
        owner = ""
        for kind, name in names.items():
            kind = kind.rstrip("_")
            tables: dict[str, Any] = {"team": self.teams, "pacticipant": self.owners, "environment": self.environments}
            if (owner, name) not in self.versions if kind == "version" else name not in tables[kind]:
                raise Refused(404, answer="unknown", what=kind)
            owner = name if kind == "pacticipant" else owner

    def allow(self, is_allowed: bool, rule: str) -> None:
        if not is_allowed:
            raise Refused(403, answer="denied", rule=rule)

    def owns(self, team: str, pacticipant: str) -> bool:
        return self.owners[pacticipant] == team

    # Naming

    def put_team(self, caller: str, team: str, token: str) -> Said:
        self.allow(caller == "", "A2")
        if team in self.teams:
            return self.taken_or_already(self.teams[team] == token, "name")
        if token == OFFICE or token in self.teams.values():
            raise Refused(409, answer="taken", what="token")
        self.teams[team] = token
        return 200, DONE

    def taken_or_already(self, is_same: bool, what: str) -> Said:
        if not is_same:
            raise Refused(409, answer="taken", what=what)
        return 200, ALREADY

    def put_pacticipant(self, caller: str, name: str, team: str) -> Said:
        self.exist(team=team)
        self.allow(caller == "", "A2")
        if name in self.owners:
            return self.taken_or_already(self.owners[name] == team, "name")
        self.owners[name] = team
        return 200, DONE

    def put_environment(self, caller: str, name: str, gated: bool, strict: bool) -> Said:
        self.allow(caller == "", "A2")
        if name in self.environments:
            return self.taken_or_already(self.environments[name] == (gated, strict), "name")
        self.environments[name] = gated, strict
        return 200, DONE

    def put_grant(self, caller: str, team: str, environment: str) -> Said:
        self.exist(team=team, environment=environment)
        self.allow(caller == "", "A2")
        if (team, environment) in self.grants:
            return 200, ALREADY
        self.grants.add((team, environment))
        return 200, DONE

    def delete_grant(self, caller: str, team: str, environment: str) -> Said:
        self.exist(team=team, environment=environment)
        self.allow(caller == "", "A2")
        if (team, environment) not in self.grants:
            raise Refused(404, answer="unknown", what="grant")
        self.grants.remove((team, environment))
        return 200, DONE

    def put_version(self, caller: str, pacticipant: str, version: str, branch: str | None) -> Said:
        self.exist(pacticipant=pacticipant)
        self.allow(self.owns(caller, pacticipant), "A3")
        before = len(self.versions), len(self.branches)
        self.name_version(pacticipant, version)
        if branch is not None:
            self.branches.add((pacticipant, branch, version))
        return 200, ALREADY if before == (len(self.versions), len(self.branches)) else DONE

    def name_version(self, pacticipant: str, version: str) -> None:
        if (pacticipant, version) not in self.versions:
            self.versions.append((pacticipant, version))

    # Contracts and results

    def put_pact(self, caller: str, consumer: str, version: str, provider: str, book: str) -> Said:
        normal = pact(consumer, provider, book)
        self.exist(pacticipant=provider, pacticipant_=consumer)
        self.allow(self.owns(caller, consumer), "A3")
        place = consumer, version, provider
        if place in self.contracts:
            number = self.contracts[place]
            if self.contents[number - 1] != normal:
                raise Refused(409, answer="taken", what="other content")
            return 200, text({"answer": "already", "content": number})
        self.name_version(consumer, version)
        if normal not in self.contents:
            self.contents.append(normal)
        self.contracts[place] = self.contents.index(normal) + 1
        return 200, text({"answer": "done", "content": self.contracts[place]})

    def contract(self, consumer: str, version: str, provider: str) -> int:
        """The number of the content of a contract that has to exist."""
        self.exist(pacticipant=provider, pacticipant_=consumer, version=version)
        if (consumer, version, provider) not in self.contracts:
            raise Refused(404, answer="unknown", what="contract")
        return self.contracts[consumer, version, provider]

    def get_pact(self, caller: str, consumer: str, version: str, provider: str) -> Said:
        number = self.contract(consumer, version, provider)
        self.allow(caller == "" or self.owns(caller, consumer) or self.owns(caller, provider), "A5")
        return 200, self.contents[number - 1]

    def get_branch(self, caller: str, consumer: str, branch: str, provider: str) -> Said:
        self.exist(pacticipant=provider, pacticipant_=consumer)
        its = [name for its, name in self.versions if its == consumer and (consumer, branch, name) in self.branches]
        found = [it for it in its if (consumer, it, provider) in self.contracts]
        if not found:
            raise Refused(404, answer="unknown", what="contract")
        return self.get_pact(caller, consumer, found[-1], provider)

    def post_result(
        self, caller: str, consumer: str, version: str, provider: str, by: str, success: bool, run: str | None
    ) -> Said:
        number = self.contract(consumer, version, provider)
        self.allow(self.owns(caller, provider), "A4")
        return self.record(provider, Result(number, by, success, "claimed", (provider, run) if run else None), {})

    def post_replies(
        self, caller: str, consumer: str, version: str, provider: str, by: str, status: int, book: str
    ) -> Said:
        """Replies of one reply to the interaction of this description, with this status."""
        number = self.contract(consumer, version, provider)
        self.allow(self.owns(caller, provider), "A4")
        if pact(consumer, provider, book) != self.contents[number - 1]:
            raise Refused(422, answer="bad form", fault="check 1")
        success = status == 200
        said = {"failing": [] if success else [0], "success": success}
        return self.record(provider, Result(number, by, success, "checked", None), said)

    def record(self, provider: str, result: Result, said: dict[str, Any]) -> Said:
        earlier = [at for at, it in enumerate(self.results, 1) if result.run and it.run == result.run]
        if earlier and self.results[earlier[0] - 1] == result:
            return 200, text({"answer": "already", "result": earlier[0], **said})
        if earlier:
            raise Refused(409, answer="taken", what="run")
        self.name_version(provider, result.version)
        self.results.append(result)
        return 200, text({"answer": "done", "result": len(self.results), **said})

    def latest(self, content: int, version: str) -> tuple[int, Result] | None:
        its = [(at, it) for at, it in enumerate(self.results, 1) if (it.content, it.version) == (content, version)]
        return its[-1] if its else None
