"""The contracts that a provider's build is to meet."""
import hashlib
from typing import Dict, List, NamedTuple, Optional, Tuple

from holzhebo.api import Broker, Refused, Stop
from holzhebo.faults import USAGE
from holzhebo.pact.faults import is_name
from holzhebo.text import shown


class Contract(NamedTuple):
    """A contract's text, and the versions and places by which it was found. A branch's contract may have no version."""

    consumer: str
    provider: str
    versions: List[str]
    places: List[str]
    text: str

    def name(self) -> str:
        return shown(f"{self.consumer} {', '.join(self.versions) or self.places[0]}")

    def digest(self) -> str:
        return hashlib.sha256(self.text.encode()).hexdigest()[:16]


class Wanted(NamedTuple):
    """Which contracts are asked for."""

    provider: str
    environments: List[str]
    versions: List[Tuple[str, str]]
    branches: List[str]
    consumers: List[str]

    def test(self) -> None:
        if not (self.environments or self.branches or self.versions):
            raise Stop("which contracts: give --for, --branch or --contract", status=USAGE)
        if self.branches and not (self.environments or self.consumers):
            why = "whose branch: give --consumer, or --for the environment in which the consumers are"
            raise Stop(why, status=USAGE)


class Search:
    """The contracts with a provider; versions with the same contract are found once. What can't be had is kept too,
    with why, so that the others can go on."""

    def __init__(self, broker: Broker, provider: str) -> None:
        self.broker, self.provider = broker, provider
        self.found: Dict[Tuple[str, str], Contract] = {}
        self.failed: List[Tuple[str, str]] = []

    def add(self, consumer: str, version: Optional[str], branch: Optional[str], place: str) -> bool:
        """The contract of this version, or the newest of this branch, if there is one."""
        try:
            with self.broker.one_of_several():
                if version is not None:
                    text = self.broker.contract(consumer, version, self.provider)
                else:
                    text = self.broker.newest_contract(consumer, branch or "", self.provider)
        except Refused as why:
            if why.is_unknown("contract"):
                return False
            if why.http_status in (401, 404):
                raise
            self.failed.append((shown(f"{consumer} {version or place}"), str(why)))
            return False
        contract = self.found.setdefault((consumer, text), Contract(consumer, self.provider, [], [], text))
        if version is not None and version not in contract.versions:
            contract.versions.append(version)
        if place not in contract.places:
            contract.places.append(place)
        return True

    def add_version(self, consumer: str, version: str, place: str) -> bool:
        return self.add(consumer, version, None, place)

    def add_branch(self, consumer: str, branch: str) -> bool:
        return self.add(consumer, None, branch, f"branch {branch}")


def standing(broker: Broker, environment: str) -> List[Tuple[str, str]]:
    """The pacticipants and versions that are deployed or released in an environment."""
    said = broker.environment(environment)
    deployed = {(it.pacticipant, it.version) for it in said.deployed}
    return sorted(deployed | {(it.pacticipant, it.version) for it in said.released})


def contracts_of(broker: Broker, wanted: Wanted) -> Search:
    """The contracts that are asked for: of what is in environments, of branches, and of versions by name."""
    if not broker.knows_pacticipant(wanted.provider):
        raise Stop(f"the broker doesn't know the pacticipant {shown(wanted.provider)}")
    search, consumers = Search(broker, wanted.provider), list(wanted.consumers)
    for environment in wanted.environments:
        for consumer, version in standing(broker, environment):
            if consumer != wanted.provider and search.add_version(consumer, version, environment):
                consumers.append(consumer)
    for consumer, version in wanted.versions:
        failures = len(search.failed)
        if not search.add_version(consumer, version, "named") and len(search.failed) == failures:
            raise Stop(f"{shown(consumer)} {shown(version)} has no contract with {shown(wanted.provider)}")
    for branch in wanted.branches:
        for consumer in dict.fromkeys(consumers):
            search.add_branch(consumer, branch)
    return search


def run_of(run: Optional[str], digest: str) -> Optional[str]:
    """The run of a build, which may send one result for each contract."""
    if run is None:
        return None
    if not is_name(f"{run} {digest}"):
        raise Stop("name: --run is 1 to 83 bytes without control characters")
    return f"{run} {digest}"
