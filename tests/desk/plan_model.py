"""A model of the gate, by docs/DEFINITIONS.md and docs/API.md: small enough to be believed by reading it, and slow. It
answers the three questions of a plan, and takes what changes an environment."""
from __future__ import annotations

import urllib.parse
from typing import Any, NamedTuple

Json = Any


class Environment(NamedTuple):
    gated: bool
    strict: bool
    deployed: dict[tuple[str, str], str]
    released: set[tuple[str, str]]

    def there(self) -> set[tuple[str, str]]:
        """The versions that are there: deployed in any instance, or released."""
        return {(service, version) for (service, _), version in self.deployed.items()} | self.released


class Model:
    """Versions with contracts, their texts' results in order, and environments."""

    def __init__(self) -> None:
        self.contracts: dict[tuple[tuple[str, str], str], str] = {}
        self.results: dict[tuple[str, str, str, str], tuple[bool, str]] = {}
        self.environments: dict[str, Environment] = {}

    def copy(self) -> Model:
        other = Model()
        other.contracts, other.results = self.contracts, self.results
        for name, it in self.environments.items():
            other.environments[name] = it._replace(deployed={**it.deployed}, released={*it.released})
        return other

    def latest(self, consumer: tuple[str, str], provider: tuple[str, str]) -> tuple[bool, str] | None:
        """The latest result of this provider's version for the text of the consumer's contract."""
        return self.results.get((consumer[0], provider[0], self.contracts[consumer, provider[0]], provider[1]))

    # The gate

    def needs(self, version: tuple[str, str], there: set[tuple[str, str]]) -> list[Json]:
        """The pairs of a consumer's version and a version of its provider, or none of it."""
        found: list[Any] = []
        for consumer, provider in self.contracts:
            if consumer == version:
                found += [(consumer, it) for it in there if it[0] == provider] or [(consumer, (provider, None))]
            elif provider == version[0] and consumer in there and consumer[0] != version[0]:
                found.append((consumer, version))
        return sorted(found, key=lambda it: (it[0], it[1][0], it[1][1] or ""))

    def faults(self, version: tuple[str, str], name: str) -> list[Json]:
        environment, found = self.environments[name], []
        for consumer, provider in self.needs(version, environment.there()):
            kind = "absent" if provider[1] is None else self.kind(self.latest(consumer, provider), environment.strict)
            if kind:
                side = {"consumer": consumer[0], "consumerVersion": consumer[1]}
                found.append({**side, "kind": kind, "provider": provider[0], "providerVersion": provider[1]})
        return found

    def without(self, service: str, versions: set[tuple[str, str]]) -> list[Json]:
        """The faults of these versions if nothing of this service were there, which isn't their own."""
        absent = {"kind": "absent", "provider": service, "providerVersion": None}
        calls = [it for it in sorted(versions) if (it, service) in self.contracts and it[0] != service]
        return [{"consumer": it[0], "consumerVersion": it[1], **absent} for it in calls]

    @staticmethod
    def kind(latest: tuple[bool, str] | None, strict: bool) -> str:
        """Why this result isn't good; or nothing."""
        if latest is None:
            return "missing"
        success, evidence = latest
        return "failed" if not success else "claimed" if strict and evidence == "claimed" else ""

    # Questions

    def get(self, target: str) -> Json:
        path, _, query = target.partition("?")
        words = dict(urllib.parse.parse_qsl(query, strict_parsing=True)) if query else {}
        if path == "/can-i-deploy":
            faults = self.faults((words["pacticipant"], words["version"]), words["environment"])
            return {"answer": "shown", "faults": faults, **self.marks(words["environment"]), "permitted": not faults}
        if path == "/matrix":
            return {"answer": "shown", "rows": self.rows((words["pacticipant"], words["version"]))}
        return self.listing(urllib.parse.unquote(path.split("/")[2]))

    def marks(self, name: str) -> Json:
        it = self.environments[name]
        return {"environment": name, "gated": it.gated, **({"strict": True} if it.strict else {})}

    def listing(self, name: str) -> Json:
        it = self.environments[name]
        deployed = [{"pacticipant": p, "instance": i, "version": v} for (p, i), v in sorted(it.deployed.items())]
        released = [{"pacticipant": p, "version": v} for p, v in sorted(it.released)]
        return {"answer": "shown", **self.marks(name), "deployed": deployed, "released": released}

    def rows(self, version: tuple[str, str]) -> list[Json]:
        found = []
        for (consumer, provider), text in sorted(self.contracts.items()):
            judged = {it[3]: it for it in self.results if it[:3] == (consumer[0], provider, text)}
            sides = {"consumer": consumer[0], "consumerVersion": consumer[1], "provider": provider}
            for theirs, it in sorted(judged.items()):
                if version in (consumer, (provider, theirs)):
                    success, evidence = self.results[it]
                    found.append({**sides, "providerVersion": theirs, "success": success, "evidence": evidence})
            if not judged and version == consumer:
                found.append({**sides, "providerVersion": None, "success": None, "evidence": None})
        return found

    # Commands

    def put(self, environment: str, how: str, version: tuple[str, str], instance: str = "") -> int:
        """The status of a deployment or of a release, or of the end of one."""
        it = self.environments[environment]
        if how == "undeploy":
            return 200 if it.deployed.pop((version[0], instance), "") == version[1] else 404
        if how == "end-support":
            it.released.remove(version)
            return 200
        if it.gated and self.faults(version, environment):
            return 409
        if how == "deploy":
            it.deployed[version[0], instance] = version[1]
        else:
            it.released.add(version)
        return 200
