"""A broker as docs/DEFINITIONS.md has it: the answer to each command, one after another. It knows nothing of HTTP, of files
and of the program."""
from typing import Any, NamedTuple
from tests.properties.state import ALREADY, DONE, Refused, Result, Said, State, text

KINDS = ["absent", "missing", "failed", "claimed"]


class Fault(NamedTuple):
    """A need that isn't good; the version of the provider is "" for none, which comes first."""

    consumer: str
    consumer_version: str
    provider: str
    provider_version: str
    kind: str

    def order(self) -> tuple[str, str, str, str, int]:
        return *self[:4], KINDS.index(self.kind)

    def shown(self) -> dict[str, Any]:
        names = "consumer", "consumerVersion", "provider", "providerVersion", "kind"
        return {**dict(zip(names, self)), "providerVersion": self.provider_version or None}


class Model(State):
    """The state, with the gate, what enters an environment, and the lists."""

    # The gate

    def there(self, environment: str) -> set[tuple[str, str]]:
        """The versions that are in an environment."""
        found = {(name, version) for (it, name, _), version in self.deployed.items() if it == environment}
        return found | {(name, version) for it, name, version in self.released if it == environment}

    def faults(self, environment: str, name: str, version: str) -> list[Fault]:
        there, found = self.there(environment), set()
        for (consumer, its, provider), content in self.contracts.items():
            if (consumer, its) == (name, version):
                standing = [by for it, by in there if it == provider]
                found |= {self.fault(environment, consumer, its, provider, by, content) for by in standing or [""]}
            if provider == name and consumer != name and (consumer, its) in there:
                found.add(self.fault(environment, consumer, its, provider, version, content))
        return sorted((it for it in found if it.kind), key=Fault.order)

    def fault(self, environment: str, consumer: str, its: str, provider: str, by: str, content: int) -> Fault:
        """What this need lacks, by its kind; an empty kind is nothing."""
        latest = self.latest(content, by)
        kind = "failed" if latest and not latest[1].success else ""
        if latest and latest[1].success and self.environments[environment][1] and latest[1].evidence != "checked":
            kind = "claimed"
        return Fault(consumer, its, provider, by, kind if latest else "missing" if by else "absent")

    def get_gate(self, caller: str, name: str, version: str, environment: str) -> Said:
        self.exist(pacticipant=name, version=version, environment=environment)
        self.allow(caller == "" or self.owns(caller, name), "A6")
        gated, strict = self.environments[environment]
        faults = [it.shown() for it in self.faults(environment, name, version)]
        said = {"environment": environment, "faults": faults, "gated": gated, "permitted": not faults or not gated}
        return 200, text({"answer": "shown", **said, **({"strict": True} if strict else {})})

    def enter(self, caller: str, environment: str, name: str, version: str) -> None:
        """What deployments, releases and their ends need."""
        self.exist(environment=environment, pacticipant=name, version=version)
        self.allow(caller != "" and self.owns(caller, name) and (caller, environment) in self.grants, "A7")

    def judge(self, environment: str, name: str, version: str) -> None:
        if self.environments[environment][0] and (faults := self.faults(environment, name, version)):
            raise Refused(409, answer="not permitted", faults=[it.shown() for it in faults])

    def deploy(self, caller: str, environment: str, name: str, version: str, instance: str) -> Said:
        self.enter(caller, environment, name, version)
        self.judge(environment, name, version)
        is_there = self.deployed.get((environment, name, instance)) == version
        self.deployed[environment, name, instance] = version
        return 200, ALREADY if is_there else DONE

    def undeploy(self, caller: str, environment: str, name: str, version: str, instance: str) -> Said:
        self.enter(caller, environment, name, version)
        if self.deployed.get((environment, name, instance)) != version:
            raise Refused(404, answer="unknown", what="deployed")
        del self.deployed[environment, name, instance]
        return 200, DONE

    def release(self, caller: str, environment: str, name: str, version: str) -> Said:
        self.enter(caller, environment, name, version)
        self.judge(environment, name, version)
        is_there = (environment, name, version) in self.released
        self.released.add((environment, name, version))
        return 200, ALREADY if is_there else DONE

    def end_support(self, caller: str, environment: str, name: str, version: str) -> Said:
        self.enter(caller, environment, name, version)
        if (environment, name, version) not in self.released:
            raise Refused(404, answer="unknown", what="released")
        self.released.remove((environment, name, version))
        return 200, DONE

    # Lists

    def get_environment(self, caller: str, environment: str) -> Said:
        self.exist(environment=environment)
        gated, strict = self.environments[environment]
        rows = sorted((*place[1:], version) for place, version in self.deployed.items() if place[0] == environment)
        deployed = [{"instance": instance, "pacticipant": name, "version": version} for name, instance, version in rows]
        its = sorted((name, version) for it, name, version in self.released if it == environment)
        released = [{"pacticipant": name, "version": version} for name, version in its]
        said = {"deployed": deployed, "environment": environment, "gated": gated, "released": released}
        return 200, text({"answer": "shown", **said, **({"strict": True} if strict else {})})

    def get_matrix(self, caller: str, name: str, version: str) -> Said:
        self.exist(pacticipant=name, version=version)
        self.allow(caller == "" or self.owns(caller, name), "A6")
        rows = []
        for (consumer, its, provider), content in self.contracts.items():
            by = sorted({it.version for it in self.results if it.content == content})
            is_own = (consumer, its) == (name, version)
            by = [it for it in by if is_own or (provider, it) == (name, version)]
            rows += [(consumer, its, provider, it, self.latest(content, it)) for it in by]
            rows += [(consumer, its, provider, "", None)] if is_own and not by else []
        return 200, text({"answer": "shown", "rows": [row_of(*it) for it in sorted(rows, key=lambda it: it[:4])]})


def row_of(consumer: str, its: str, provider: str, by: str, latest: tuple[int, Result] | None) -> dict[str, Any]:
    sides = {"consumer": consumer, "consumerVersion": its, "provider": provider, "providerVersion": by or None}
    number, result = latest or (None, None)
    said = {"evidence": result and result.evidence, "result": number, "success": result and result.success}
    return {**sides, **said}
