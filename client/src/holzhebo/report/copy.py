"""A copy of a broker's file."""
import collections, contextlib, datetime, fcntl, functools, os, re, shutil, sqlite3, tempfile
from typing import Dict, List, NamedTuple, Optional, Set, Tuple
from urllib.parse import quote

# The bytes that SQLite locks while a file is read.
SHARED = 0x40000002, 510


class Refused(Exception):
    """Why there is no page."""


class Version(NamedTuple):
    pacticipant: str
    version: str


class Need(NamedTuple):
    """A contract, by its consumer's version and its provider, and a version of the provider that has to meet it."""

    consumer: int
    provider: str
    content: int
    there: Optional[int]


class Fault(NamedTuple):
    """What a need lacks."""

    consumer: str
    consumer_version: str
    provider: str
    provider_version: Optional[str]
    kind: str


# The place of a version in the instance that has no name.
DEPLOYED = "deployed"


class Environment:
    """An environment, with the numbers of the versions that are there, and the contracts that these consume."""

    def __init__(self, name: str, gated: bool, strict: bool) -> None:
        self.name, self.gated, self.strict = name, gated, strict
        self.there: Dict[str, Set[int]] = collections.defaultdict(set)
        self.places: Dict[Tuple[str, int], List[str]] = collections.defaultdict(list)
        self.consumed: Dict[str, List[Tuple[int, int]]] = collections.defaultdict(list)

    @property
    def marks(self) -> str:
        return "gated, strict" if self.strict else "gated" if self.gated else "open"


def place_of(path: str, room: str) -> str:
    """Where a copy is read: in its own place, or with its log in another one, since the log is moved as it is read."""
    with open(path, "rb") as it:
        try:
            fcntl.lockf(it, fcntl.LOCK_SH | fcntl.LOCK_NB, SHARED[1], SHARED[0])
        except OSError:
            raise Refused(f"{path} is in use: make a copy by examples/backup.sh") from None
    if not os.path.exists(f"{path}-wal"):
        return f"file:{quote(os.path.abspath(path))}?immutable=1"
    to = tempfile.mkdtemp(dir=room) + "/copy.db"
    for end in "", "-wal":
        shutil.copyfile(path + end, to + end)
    return f"file:{quote(to)}"


DATE = re.compile(r"(\d{4}-\d{2}-\d{2}T\d{2}):?(\d{2}):?(\d{2})Z")


def made_at(path: str) -> Tuple[float, bool]:
    """When a copy was made: by the date in its name, as examples/keep-copies.sh gives it, or in that of the file to
    which it leads; else the time of the file, which is another one if it was fetched from elsewhere."""
    found = DATE.search(os.path.basename(path)) or DATE.search(os.path.basename(os.path.realpath(path)))
    if found:
        with contextlib.suppress(ValueError):
            it = datetime.datetime.strptime(f"{found[1]}:{found[2]}:{found[3]}+0000", "%Y-%m-%dT%H:%M:%S%z")
            return it.timestamp(), True
    return os.path.getmtime(path), False


class Copy:
    """A copy of a broker's file."""

    def __init__(self, path: str, room: str) -> None:
        self.path, self.real = path, os.path.realpath(path)
        self.base = sqlite3.connect(place_of(self.real, room), uri=True, isolation_level=None)
        self.made, self.is_dated = made_at(path)
        files = [self.real + end for end in ("", "-wal")]
        self.size = sum(os.path.getsize(it) for it in files if os.path.exists(it))
        self.test()
        owners = self.rows("SELECT name, team FROM pacticipants ORDER BY name")
        self.owners = {str(name): str(team) for name, team in owners}
        self.environments = self.read_environments()

    def rows(self, text: str, *values: object) -> List[Tuple[object, ...]]:
        return self.base.execute(text, values).fetchall()

    def number(self, text: str) -> int:
        found = self.rows(text)[0][0]
        return found if isinstance(found, int) else 0

    def test(self) -> None:
        """Refuses what isn't a broker's of format 2, or breaks its rules."""
        try:
            self.office = self.rows("SELECT format, office_digest FROM meta")[0]
        except (sqlite3.Error, IndexError):
            raise Refused(f"{self.path} isn't a broker's file") from None
        if self.office[0] != 2:
            raise Refused(f"{self.path} is of format {self.office[0]}, and not 2")
        newest = "SELECT content, provider_version, max(number) FROM results GROUP BY 1, 2"
        differ = f"SELECT * FROM latest EXCEPT {newest}", f"{newest} EXCEPT SELECT * FROM latest"
        if any(self.rows(it) for it in ("PRAGMA foreign_key_check", *differ)):
            raise Refused(f"{self.path} has rows that break the broker's rules")

    def read_environments(self) -> List[Environment]:
        strict = {name for name, in self.rows("SELECT environment FROM strict_environments")}
        rows = self.rows("SELECT name, gated FROM environments ORDER BY name")
        found = {str(name): Environment(str(name), gated == 1, name in strict) for name, gated in rows}
        there = """SELECT environment, version_number, instance FROM deployed
            UNION ALL SELECT environment, version_number, NULL FROM released ORDER BY 1, 2, 3"""
        for name, number, instance in self.rows(there):
            assert isinstance(number, int)
            it, owner = found[str(name)], self.version(number).pacticipant
            place = "released" if instance is None else f"as {instance}" if instance else DEPLOYED
            it.there[owner].add(number)
            it.places[owner, number].append(place)
        for it in found.values():
            for number in sorted(set().union(*it.there.values())):
                for provider, content in self.contracts(number):
                    it.consumed[provider].append((number, content))
        return [*found.values()]

    @functools.lru_cache(None)
    def version(self, number: int) -> Version:
        pacticipant, version = self.rows("SELECT pacticipant, version FROM versions WHERE number = ?", number)[0]
        return Version(str(pacticipant), str(version))

    @functools.lru_cache(None)
    def contracts(self, number: int) -> List[Tuple[str, int]]:
        """The contracts of a version: the provider of each, and its content."""
        text = "SELECT provider, content FROM contracts WHERE version_number = ? ORDER BY provider"
        return [(str(provider), int(str(content))) for provider, content in self.rows(text, number)]

    @functools.lru_cache(None)
    def latest(self, content: int, number: int) -> Optional[str]:
        """The outcome of the latest result of this version for this content: failed, claimed or checked."""
        text = """SELECT r.pass, EXISTS (SELECT 1 FROM checked_results WHERE result = r.number)
            FROM latest l JOIN results r ON r.number = l.result WHERE l.content = ? AND l.provider_version = ?"""
        for passed, checked in self.rows(text, content, number):
            return "failed" if not passed else "checked" if checked else "claimed"
        return None
