"""What the file of a broker holds, and what of it has to be carried: computed from sets, by no statement of SQL."""
import collections, contextlib, os, sqlite3, sys
from collections.abc import Iterable, Iterator
from typing import Any, NamedTuple
from tests.process import TOP

sys.path.insert(0, os.path.join(TOP, "client", "src"))

from holzhebo import carry_pages  # noqa: E402

Name = tuple[str, str]
Row = tuple[Any, ...]
Tables = dict[str, set[Row]]
# The columns of the tables that hold a number of another table's row.
NUMBERS: dict[str, dict[int, str]] = {
    "versions": {0: "versions"},
    "contents": {0: "contents"},
    "results": {0: "results", 1: "contents", 3: "versions"},
    "branches": {0: "versions"},
    "contracts": {0: "versions", 2: "contents"},
    "latest": {0: "contents", 1: "versions", 2: "results"},
    "deployed": {3: "versions"},
    "released": {1: "versions"},
    "checked_results": {0: "results"},
}


@contextlib.contextmanager
def opened(file: str) -> Iterator[sqlite3.Connection]:
    """A file that isn't served, by SQLite. Afterwards its header says again how it is written, and its pages have their
    sums."""
    with open(file, "rb") as it:
        written = it.read(20)[18:]
    with contextlib.closing(sqlite3.connect(file)) as db:
        db.execute("PRAGMA journal_mode = DELETE")
        yield db
        db.commit()
    carry_pages.seal(file, written)


def read_tables(file: str) -> tuple[Tables, list[Row]]:
    """The rows of each table, and what declares all of them."""
    with contextlib.closing(sqlite3.connect(f"file:{file}?mode=ro&immutable=1", uri=True)) as db:
        schema = db.execute("SELECT type, name, tbl_name, sql FROM sqlite_schema ORDER BY rowid").fetchall()
        names = [it[1] for it in schema if it[0] == "table"]
        return {it: set(db.execute(f"SELECT * FROM {it}")) for it in names}, schema


class Carried(NamedTuple):
    """What a carry has to make of tables; old numbers to new ones; and what is dropped."""

    tables: Tables
    numbers: dict[str, dict[int, int]]
    kept: set[Name]
    dropped: set[Name]
    texts: set[str]
    runs: set[Name]
    cut: set[Name]


def kept_versions(tables: Tables, keep: int, only: list[str]) -> tuple[set[int], set[Name]]:
    """The numbers of the versions that are kept, and the branches that aren't carried."""
    of = {number: pacticipant for number, pacticipant, _ in tables["versions"]}
    kept = {row[3] for row in tables["deployed"]} | {row[1] for row in tables["released"]}
    for pacticipant in set(of.values()):
        own = sorted((it for it in of if of[it] == pacticipant), reverse=True)
        kept.update(own[:keep])
    providers: dict[int, set[str]] = collections.defaultdict(set)
    for number, provider, _ in tables["contracts"]:
        providers[number].add(provider)
    heads: dict[tuple[str, str, str | None], int] = {}
    for number, branch in sorted(tables["branches"]):
        for provider in (None, *providers[number]):
            heads[of[number], branch, provider] = number
    kept.update(number for (_, branch, _), number in heads.items() if not only or branch in only)
    return kept, {(p, branch) for (p, branch, q), number in heads.items() if q is not None and number not in kept}


def has_run(row: Row) -> bool:
    """Whether the row of a result has a run, which is a name."""
    return row[5] is not None and not row[5].startswith("\t")


def renumbered(numbers: Iterable[int]) -> dict[int, int]:
    return {old: new for new, old in enumerate(sorted(numbers), 1)}


def carried(tables: Tables, keep: int, only: list[str]) -> Carried:
    versions, cut = kept_versions(tables, keep, only)
    names = {number: (pacticipant, version) for number, pacticipant, version in tables["versions"]}
    contents = {content for number, _, content in tables["contracts"] if number in versions}
    latest = {result for _, _, result in tables["latest"]}
    pairs = [row for row in tables["results"] if row[1] in contents and row[3] in versions]
    results = {row[0] for row in pairs if has_run(row) or row[0] in latest}
    numbers = {"versions": renumbered(versions), "contents": renumbered(contents), "results": renumbered(results)}
    made: Tables = {}
    for table, rows in tables.items():
        columns = NUMBERS.get(table, {})
        whole = [row for row in rows if all(row[at] in numbers[of] for at, of in columns.items())]
        if table == "branches":
            whole = [row for row in whole if (names[row[0]][0], row[1]) not in cut]
        made[table] = {
            tuple(numbers[columns[at]][it] if at in columns else it for at, it in enumerate(row)) for row in whole
        }
    made["results"] = {row if has_run(row) else (*row[:5], f"\t{row[0]}") for row in made["results"]}
    texts = {body for number, _, body in tables["contents"] if number not in contents}
    runs = {(row[2], row[5]) for row in tables["results"] if has_run(row) and row[0] not in results}
    kept = {names[it] for it in versions}
    return Carried(made, numbers, kept, set(names.values()) - kept, texts, runs, cut)


def branches_of(tables: Tables) -> set[Name]:
    of = {number: pacticipant for number, pacticipant, _ in tables["versions"]}
    return {(of[number], branch) for number, branch in tables["branches"]}
