"""What the broker answers with status 200, by docs/API.md."""
from dataclasses import dataclass
from typing import List, Optional


@dataclass(frozen=True)
class Changed:
    """A change: `done`, or `already` if it was so and nothing changed."""

    answer: str

    @property
    def is_new(self) -> bool:
        return self.answer == "done"


@dataclass(frozen=True)
class Published(Changed):
    """A publication, with the number of the content."""

    content: int


@dataclass(frozen=True)
class Claimed(Changed):
    """A claimed result, with its number."""

    result: int


@dataclass(frozen=True)
class Checked(Changed):
    """A checked result: its number, the places of the interactions that fail, and whether none does."""

    failing: List[int]
    result: int
    success: bool


@dataclass(frozen=True)
class Lack:
    """What a pair lacks: absent, missing, failed or claimed."""

    consumer: str
    consumer_version: str
    kind: str
    provider: str
    provider_version: Optional[str]


@dataclass(frozen=True)
class Permission:
    """What the gate says of a version in an environment."""

    environment: str
    faults: List[Lack]
    gated: bool
    permitted: bool
    strict: bool = False


@dataclass(frozen=True)
class Refusal:
    """A refusal of the gate."""

    faults: List[Lack]


@dataclass(frozen=True)
class Row:
    """A contract and its latest result by a version of the provider; or by none."""

    consumer: str
    consumer_version: str
    evidence: Optional[str]
    provider: str
    provider_version: Optional[str]
    result: Optional[int]
    success: Optional[bool]


@dataclass(frozen=True)
class Matrix:
    rows: List[Row]


@dataclass(frozen=True)
class Deployed:
    instance: str
    pacticipant: str
    version: str


@dataclass(frozen=True)
class Released:
    pacticipant: str
    version: str


@dataclass(frozen=True)
class Environment:
    """What is deployed and released in an environment."""

    environment: str
    gated: bool
    deployed: List[Deployed]
    released: List[Released]
    strict: bool = False

    def version_in(self, pacticipant: str, instance: str) -> Optional[str]:
        """The version of a pacticipant in an instance, None if there is none."""
        found = [it.version for it in self.deployed if (it.pacticipant, it.instance) == (pacticipant, instance)]
        return found[0] if found else None
