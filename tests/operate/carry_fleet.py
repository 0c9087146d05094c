"""The file of a fleet that has built for so many days: rows are written by sqlite3 into the tables that the program
made, and the pages get their sums. 60 services, each a consumer of three or four others, 1,200 builds a day: a version
of 40 digits on main or on a branch of its own for a while, a contract with each provider, whose text changes in one
build of fifty, and a result for each consumer's contract on main.

    python3 -m tests.operate.carry_fleet PROGRAM FILE DAYS     makes FILE"""
import hashlib, json, random, sqlite3, sys
from collections.abc import Iterator
from tests.operate.carry_state import opened
from tests.process import ran
from tests.wire import OFFICE, same

SERVICES, BUILDS = 60, 1200


class Fleet:
    """What each build adds to the tables."""

    def __init__(self, db: sqlite3.Connection) -> None:
        self.db, self.random = db, random.Random(7)
        self.names = [f"service-{it:02}" for it in range(SERVICES)]
        steps = {it: (1, 7, 19, 23)[: 3 + it % 3 // 2] for it in range(SERVICES)}
        self.providers = {it: sorted({(it + step) % SERVICES for step in steps[it]}) for it in range(SERVICES)}
        self.consumers: dict[int, list[int]] = {it: [] for it in range(SERVICES)}
        for it, providers in self.providers.items():
            for provider in providers:
                self.consumers[provider].append(it)
        self.versions = self.texts = self.results = 0
        self.text: dict[tuple[int, int], int] = {}
        self.branch = ["main"] * SERVICES

    def start(self) -> None:
        teams = [(f"team-{it}", hashlib.sha256(f"team-token-of-{it:04}".encode()).hexdigest()) for it in range(8)]
        self.db.executemany("INSERT INTO teams VALUES (?, ?)", teams)
        own = [(name, f"team-{at % 8}") for at, name in enumerate(self.names)]
        self.db.executemany("INSERT INTO pacticipants VALUES (?, ?)", own)
        self.db.executemany("INSERT INTO environments VALUES (?, ?)", [("test", 0), ("live", 1)])
        grants = [(team, name) for team, _ in teams for name in ("test", "live")]
        self.db.executemany("INSERT INTO grants VALUES (?, ?)", grants)

    def pact(self, consumer: int, provider: int) -> str:
        interactions = [
            {
                "description": f"a question {it}",
                "request": {"method": "GET", "path": f"/things/{it}"},
                "response": {"body": {"id": it, "text": f"{self.texts} of {it}" * 8}, "status": 200},
            }
            for it in range(4)
        ]
        names = {"consumer": {"name": self.names[consumer]}, "interactions": interactions}
        return json.dumps({**names, "provider": {"name": self.names[provider]}}, separators=(",", ":"))

    def contract(self, consumer: int, provider: int) -> int:
        if (consumer, provider) not in self.text or self.random.random() < 0.02:
            self.texts += 1
            body = self.pact(consumer, provider)
            digest = hashlib.sha256(body.encode()).hexdigest()
            self.db.execute("INSERT INTO contents VALUES (?, ?, ?)", (self.texts, digest, body))
            self.text[consumer, provider] = self.texts
        return self.text[consumer, provider]

    def build(self, service: int) -> None:
        self.versions += 1
        version, name = self.versions, self.names[service]
        digest = hashlib.sha1(f"{version}".encode()).hexdigest()
        self.db.execute("INSERT INTO versions VALUES (?, ?, ?)", (version, name, digest))
        if self.random.random() < 0.2:
            self.branch[service] = self.random.choice(["main", f"feature-{version}"])
        self.db.execute("INSERT INTO branches VALUES (?, ?)", (version, self.branch[service]))
        rows = [(version, self.names[it], self.contract(service, it)) for it in self.providers[service]]
        self.db.executemany("INSERT INTO contracts VALUES (?, ?, ?)", rows)
        for consumer in self.consumers[service]:
            if (consumer, service) in self.text:
                self.verify(self.text[consumer, service], name, version)
        if self.branch[service] == "main" and self.random.random() < 0.3:
            for environment in "test", "live":
                self.db.execute("INSERT OR REPLACE INTO deployed VALUES (?, ?, '', ?)", (environment, name, version))

    def verify(self, content: int, provider: str, version: int) -> None:
        self.results += 1
        run = f"ci/{provider}/{self.results}"
        row = (self.results, content, provider, version, self.random.random() < 0.97, run)
        self.db.execute("INSERT INTO results VALUES (?, ?, ?, ?, ?, ?)", row)
        self.db.execute("INSERT OR REPLACE INTO latest VALUES (?, ?, ?)", (content, version, self.results))

    def builds(self, days: int) -> Iterator[int]:
        for _ in range(days * BUILDS):
            yield self.random.randrange(SERVICES)


def make(program: str, file: str, days: int) -> int:
    """Makes the file; gives how many builds it has."""
    same("init", ran([program, "init", "--file", file, "--office-token", OFFICE]).status, 0)
    with opened(file) as db:
        db.executescript("PRAGMA synchronous = OFF; PRAGMA cache_size = -200000; BEGIN")
        fleet = Fleet(db)
        fleet.start()
        for service in fleet.builds(days):
            fleet.build(service)
    return fleet.versions


if __name__ == "__main__":
    print(f"{make(sys.argv[1], sys.argv[2], int(sys.argv[3])):,} builds")
