"""Random fleets to plan for: services with an old and a new version, sometimes a third, in two environments, with
contracts and results. Of most fleets new versions go together, and of old and new ones those that a hidden order brings
together, or by chance; some have a circle."""
from __future__ import annotations

import itertools, random
from collections.abc import Iterable, Iterator
from typing import Any, NamedTuple
from urllib.parse import quote

from tests.desk.plan_model import Environment, Model

Json = Any
NAMES = ["auth", "book", "cart", "desk", "echo", "a/b", "p p", "ö-ü"]
VERSIONS = {"p p": ["1", "2", "mid/ä 3&=+"], "echo": ["0" * 40, "f" * 39 + "0", "f" * 40]}
HOW = {"deploy": "deployments", "release": "releases", "undeploy": "undeployments", "end-support": "support-ended"}


class Place(NamedTuple):
    how: str
    service: str
    instance: str
    version: str


class Result(NamedTuple):
    consumer: str
    version: str
    provider: str
    theirs: str
    outcome: str


def segment(name: str) -> str:
    return quote(name, safe="")


class Fleet:
    def __init__(self, seed: int, most: int = 6, prefix: str = "") -> None:
        self.dice = dice = random.Random(seed)
        self.source, self.target, self.prefix = prefix + "staging", prefix + "live", prefix
        while True:
            self.services = [prefix + name for name in dice.sample(NAMES, dice.randint(2, min(most, len(NAMES))))]
            self.there, self.here = self.places(0.12), self.places(0.08, True)
            if 1 <= len(set(self.here) - set(self.there)) <= most:
                break
        gated = dice.random() < 0.96
        self.marks = {self.source: dice.choice([(False, False), (True, False), (True, True)])}
        self.marks[self.target] = (gated, gated and dice.random() < 0.3)
        self.contracts = self.agreements()
        self.results = list(self.verifications())

    def versions(self, service: str) -> list[str]:
        return VERSIONS.get(service.removeprefix(self.prefix), ["1", "2", "3"])

    def places(self, rare: float, is_from: bool = False) -> list[Place]:
        dice, found = self.dice, []
        for service in self.services:
            old, new, other = self.versions(service)
            if dice.random() < 0.88:
                found.append(Place("deploy", service, "", new if is_from and dice.random() < 0.92 else old))
            if dice.random() < rare:
                found.append(Place("deploy", service, dice.choice(["canary", "eu"]), dice.choice([old, new, other])))
            if dice.random() < rare:
                found.append(Place("release", service, "", dice.choice([old, new, other])))
        return found

    def agreements(self) -> dict[tuple[str, str, str], str]:
        """The text of each contract, by consumer, version, provider."""
        dice, found = self.dice, {}
        density = dice.choice([0.25, 0.4, 0.6])
        for consumer, provider in itertools.permutations(self.services, 2):
            if dice.random() < density:
                for at, version in enumerate(self.versions(consumer)):
                    if dice.random() < 0.88:
                        found[consumer, version, provider] = str(dice.choice([at, at, at, 0]))
        return found

    def verifications(self) -> Iterator[Result]:
        """Each outcome is pass (checked), claim (a pass that is claimed), fail (checked) or lie (a failure claimed)."""
        dice = self.dice
        way, health = dice.choice(["order", "order", "circle", "random"]), dice.choice([0.5, 0.75, 0.9, 0.97])
        turn = {it: at for at, it in enumerate(dice.sample(self.services, len(self.services)))}
        spoilt, good = dice.choice([0, 0, 0.02, 0.1]), dice.choice([["pass"], ["pass"] * 9 + ["claim"], ["claim"]])
        passes = good if self.marks[self.target][1] else ["pass", "claim"]
        newest = {(consumer, text, provider): version for (consumer, version, provider), text in self.contracts.items()}
        for (consumer, _, provider), version in sorted(newest.items()):
            for at, theirs in enumerate(self.versions(provider)):
                is_old, is_theirs_old = version == self.versions(consumer)[0], at == 0
                one, other = (provider, consumer) if is_old else (consumer, provider)  # the new one goes first: bad
                is_bad = is_old != is_theirs_old and turn[one] < turn[other] and dice.random() < 0.6
                if way == "circle":
                    is_bad = is_old != is_theirs_old and dice.random() < 0.4
                if dice.random() < spoilt or way == "random" and dice.random() > health:
                    is_bad = True
                outcomes = [dice.choice(["fail", "lie", "none"] if is_bad else passes)]
                if dice.random() < 0.1 and outcomes != ["none"]:
                    outcomes.insert(0, dice.choice(["pass", "claim", "fail", "lie"]))
                yield from (Result(consumer, version, provider, theirs, it) for it in outcomes if it != "none")

    def model(self) -> Model:
        it = Model()
        for name, (gated, strict) in self.marks.items():
            places = self.here if name == self.source else self.there
            deployed = {(p.service, p.instance): p.version for p in places if p.how == "deploy"}
            it.environments[name] = Environment(
                gated, strict, deployed, {(p.service, p.version) for p in places if p.how == "release"}
            )
        for (consumer, version, provider), text in self.contracts.items():
            it.contracts[(consumer, version), provider] = text
        for r in self.results:
            text = self.contracts[r.consumer, r.version, r.provider]
            it.results[r.consumer, r.provider, text, r.theirs] = KINDS[r.outcome]
        return it

    def requests(self, office: str, team: str, copies: Iterable[str] = ()) -> Iterator[tuple[str, str, str, Json]]:
        """All that makes it in a broker, as token, method, path, body; with more environments that are as TO is. The
        versions are deployed before there are contracts, so that each mixture can be there."""
        yield office, "PUT", f"/teams/{segment(self.prefix)}all", {"token": team}
        for service in self.services:
            yield office, "PUT", f"/pacticipants/{segment(service)}", {"team": f"{self.prefix}all"}
            for version in self.versions(service):
                yield team, "PUT", f"/pacticipants/{segment(service)}/versions/{segment(version)}", {}
        marks = {**self.marks, **{it: self.marks[self.target] for it in copies}}
        for name, (gated, strict) in marks.items():
            yield office, "PUT", f"/environments/{segment(name)}", {"gated": gated, "strict": strict}
            yield office, "PUT", f"/grants/team/{segment(self.prefix)}all/environment/{segment(name)}", {}
            for it in self.here if name == self.source else self.there:
                yield team, *put(name, it.how, (it.service, it.version), it.instance)
        for (consumer, version, provider), text in self.contracts.items():
            asked = [{"description": text, "request": {}, "response": {"status": 200}}]
            pact = {"consumer": {"name": consumer}, "provider": {"name": provider}, "interactions": asked}
            yield team, "PUT", contract(consumer, version, provider), pact
        for r in self.results:
            body: Json = {"providerApplicationVersion": r.theirs}
            more: Json
            if r.outcome in ("claim", "lie"):
                way, more = "results", {"success": r.outcome == "claim"}
            else:
                reply = {"status": 200 if r.outcome == "pass" else 500}
                text = self.contracts[r.consumer, r.version, r.provider]
                way, more = "replies", {"replies": [{"description": text, "response": reply}]}
            yield team, "POST", f"{contract(r.consumer, r.version, r.provider)}/{way}", {**body, **more}


KINDS = {"pass": (True, "checked"), "claim": (True, "claimed"), "fail": (False, "checked"), "lie": (False, "claimed")}


def contract(consumer: str, version: str, provider: str) -> str:
    return f"/pacts/provider/{segment(provider)}/consumer/{segment(consumer)}/version/{segment(version)}"


def put(environment: str, how: str, version: tuple[str, str], instance: str = "") -> tuple[str, str, Json]:
    body: Json = {"pacticipant": version[0], "version": version[1]}
    if instance:
        body["instance"] = instance
    return "POST", f"/environments/{segment(environment)}/{HOW[how]}", body
