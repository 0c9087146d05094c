"""Which rows of a broker's file are carried into a smaller one; the rules of the tables; and what the gate looks at.

Kept is each version that is deployed or released, the last N of each pacticipant, and of each branch the newest one and
the newest that has a contract with each provider; their contracts with their texts; and of these texts and versions the
latest results, and each result with a run, with their evidence. The numbers are given again in the same order."""
import hashlib, sqlite3
from typing import Iterator, List, NamedTuple, Sequence, Tuple

from holzhebo.carry_pages import Refused

# The SHA-256 of the texts that make all tables and indexes of a file, in their order, and the format of it.
SCHEMAS = {"41e51ec4556b43c1b55da7938e84c5a54ab20fe92c5412acf6742e8a6aa9a124": 2}
# The columns that hold a number of one of the numbered tables; `number` is that of the row itself.
NUMBERS = {"version_number": "versions", "provider_version": "versions", "content": "contents", "result": "results"}

# Of each branch its newest version, and the newest that has a contract with each provider, which is what is asked for.
NEWEST = "SELECT pacticipant, branch, max(number) number FROM old.branches JOIN old.versions ON number = version_number"
HEADS = f"{NEWEST} JOIN old.contracts USING (version_number) GROUP BY pacticipant, branch, provider"
# In the column of a run: a name, or of a result without one a tab and the result's number, or NULL in an older row.
HAS_RUN = "run >= ' '"
NO_RUN = "char(9) || k_number.new"
# What is kept of the numbered tables, as old numbers. A result is kept if it is the latest of its content and provider
# version, or has a run: a report that is sent again then finds its run, and isn't stored as a newer result.
KEPT = {
    "versions": f"""SELECT version_number FROM old.deployed UNION SELECT version_number FROM old.released
        UNION SELECT number FROM (
          SELECT number, row_number() OVER (PARTITION BY pacticipant ORDER BY number DESC) AS place FROM old.versions)
          WHERE place <= :keep
        UNION SELECT number FROM ({NEWEST} GROUP BY 1, 2 UNION {HEADS})
          WHERE branch IN named OR NOT EXISTS (SELECT * FROM named) ORDER BY 1""",
    "contents": "SELECT DISTINCT content FROM old.contracts JOIN kept_versions ON version_number = old ORDER BY 1",
    "results": f"""SELECT number FROM old.results r JOIN kept_contents c ON r.content = c.old
        JOIN kept_versions v ON r.provider_version = v.old
        WHERE {HAS_RUN} OR number IN (SELECT result FROM old.latest) ORDER BY 1""",
}
# A branch by which an older contract would be found than before, since a newer one is dropped: it isn't carried.
CUT = f"SELECT DISTINCT pacticipant, branch FROM ({HEADS}) WHERE number NOT IN (SELECT old FROM kept_versions)"
UNCUT = "NOT EXISTS (SELECT 1 FROM old.versions, cut WHERE number = version_number AND p = pacticipant AND b = branch)"

# The rules of the tables: each finds what breaks one. {db} is a file, main or old.
COUNTED = "SELECT 'numbers of {0}' FROM {{db}}.{0} GROUP BY 1 HAVING min(number) <> 1 OR max(number) <> count(*)"
LATEST = "SELECT content, provider_version, result FROM {db}.latest"
BY_RESULTS = "SELECT content, provider_version, max(number) FROM {db}.results GROUP BY 1, 2"
NAMED = "SELECT '{0}' FROM {{db}}.{0} t LEFT JOIN {{db}}.versions v ON v.number = {1} WHERE v.pacticipant IS NOT t.{2}"
RULES = [
    *(COUNTED.format(it) for it in KEPT),
    "SELECT 'digests' FROM {db}.contents WHERE digest <> sha256(body)",
    "SELECT 'a text twice' FROM {db}.contents GROUP BY digest HAVING count(*) > 1",
    f"SELECT 'a run twice' FROM {{db}}.results WHERE {HAS_RUN} GROUP BY provider, run HAVING count(*) > 1",
    "SELECT 'no run' FROM {db}.results WHERE run < ' ' AND run <> char(9) || number",
    NAMED.format("results", "provider_version", "provider"),
    NAMED.format("deployed", "version_number", "pacticipant"),
    f"SELECT 'latest' FROM ({LATEST} EXCEPT {BY_RESULTS})",
    f"SELECT 'latest' FROM ({BY_RESULTS} EXCEPT {LATEST})",
    "PRAGMA {db}.foreign_key_check",
    "PRAGMA {db}.integrity_check",
]

# What can-i-deploy looks at for a kept version: each need of it in each environment, by names, and what it lacks.
NEEDS = """WITH v AS (SELECT number, pacticipant FROM {db}.versions JOIN kept_versions k ON k.{kept} = number),
  there AS (SELECT environment, version_number AS number FROM {db}.deployed UNION SELECT * FROM {db}.released),
  present AS (SELECT environment, number, pacticipant FROM there JOIN {db}.versions USING (number)),
  need AS (
    SELECT e.name AS environment, v.number AS judged, v.number AS consumer, provider, content, s.number AS other
    FROM v JOIN {db}.contracts ON version_number = v.number JOIN {db}.environments e
    LEFT JOIN present s ON s.environment = e.name AND s.pacticipant = provider
    UNION SELECT environment, v.number, s.number, provider, content, v.number
    FROM v JOIN present s ON s.pacticipant <> v.pacticipant
    JOIN {db}.contracts ON version_number = s.number AND provider = v.pacticipant)
  SELECT n.environment, j.pacticipant, j.version, c.pacticipant, c.version, n.provider, p.version,
    CASE WHEN other IS NULL THEN 'absent' WHEN r.number IS NULL THEN 'missing' WHEN NOT pass THEN 'failed'
    WHEN n.environment IN {db}.strict_environments AND r.number NOT IN {db}.checked_results THEN 'claimed' END
  FROM need n JOIN {db}.versions j ON j.number = judged JOIN {db}.versions c ON c.number = consumer
  LEFT JOIN {db}.versions p ON p.number = other
  LEFT JOIN {db}.latest l ON l.content = n.content AND l.provider_version = other
  LEFT JOIN {db}.results r ON r.number = result"""


class Table(NamedTuple):
    """How much of a table is carried: rows, and bytes of their values."""

    name: str
    kept: int
    dropped: int
    bytes_kept: int
    bytes_dropped: int


class Rows(NamedTuple):
    """What is carried, and what isn't."""

    tables: List[Table]
    forgotten_runs: int
    cut_branches: int
    needs: int


def count(db: sqlite3.Connection, query: str) -> int:
    (number,) = db.execute(query).fetchone()
    return int(number)


def tables_of(db: sqlite3.Connection, name: str) -> List[str]:
    query = f"SELECT name FROM {name}.sqlite_schema WHERE type = 'table' ORDER BY rowid"
    return [str(it) for (it,) in db.execute(query)]


def test_schema(db: sqlite3.Connection, path: str) -> List[str]:
    """The texts that make the tables and indexes of the old file, if they are those of a broker's file."""
    texts = [str(it) for (it,) in db.execute("SELECT sql FROM old.sqlite_schema WHERE sql IS NOT NULL ORDER BY rowid")]
    known = SCHEMAS.get(hashlib.sha256("\n".join(texts).encode()).hexdigest())
    if not known or db.execute("SELECT one, format FROM old.meta").fetchall() != [(1, known)]:
        raise Refused(f"{path} isn't a broker's file of a format that is carried: {sorted(SCHEMAS.values())}")
    return texts


def test_rules(db: sqlite3.Connection, name: str, path: str) -> None:
    db.create_function("sha256", 1, lambda text: hashlib.sha256(text.encode()).hexdigest(), deterministic=True)
    for rule in RULES:
        found = db.execute(rule.format(db=name)).fetchone()
        if found and found != ("ok",):
            raise Refused(f"{path} breaks a rule of the tables: {' '.join(str(it) for it in found)}")


def choose(db: sqlite3.Connection, keep: int, branches: Sequence[str]) -> None:
    """Makes tables of what is kept, by new and old numbers, and of the branches that aren't carried."""
    db.execute("CREATE TEMP TABLE named (branch TEXT)")
    db.executemany("INSERT INTO named VALUES (?)", ((it,) for it in branches))
    for table, rows in KEPT.items():
        db.execute(f"CREATE TEMP TABLE kept_{table} (new INTEGER PRIMARY KEY, old INTEGER UNIQUE)")
        db.execute(f"INSERT INTO kept_{table} (old) {rows}", {"keep": keep})
    db.execute("CREATE TEMP TABLE cut (p TEXT, b TEXT, PRIMARY KEY (p, b))")
    db.execute(f"INSERT INTO cut {CUT}")


def fill(db: sqlite3.Connection, table: str) -> Table:
    """Copies the rows of a table whose numbers are all kept."""
    columns = [str(it[1]) for it in db.execute(f"PRAGMA main.table_info({table})")]
    kept = {it: NUMBERS.get(it, table) for it in columns if it in NUMBERS or it == "number"}
    joins = "".join(f" JOIN kept_{of} AS k_{it} ON k_{it}.old = t.{it}" for it, of in kept.items())
    others = {"run": f"CASE WHEN t.{HAS_RUN} THEN t.run ELSE {NO_RUN} END"}
    values = ", ".join(f"k_{it}.new" if it in kept else others.get(it, f"t.{it}") for it in columns)
    where = UNCUT if table == "branches" else "true"
    db.execute(f"INSERT INTO main.{table} SELECT {values} FROM old.{table} t{joins} WHERE {where} ORDER BY t.rowid")
    size = " + ".join(f"ifnull(length(CAST({it} AS BLOB)), 0)" for it in columns)
    total = f"SELECT count(*), ifnull(sum({size}), 0) FROM"
    sums = [db.execute(f"{total} {it}.{table}").fetchone() for it in ("old", "main")]
    (before, bytes_before), (after, bytes_after) = sums
    return Table(table, after, before - after, bytes_after, bytes_before - bytes_after)


def compare(db: sqlite3.Connection) -> int:
    """How many needs of kept versions there are, if both files say the same of each."""
    one, two = NEEDS.format(db="old", kept="old"), NEEDS.format(db="main", kept="new")
    for first, second in (one, two), (two, one):
        if db.execute(f"SELECT * FROM ({first}) EXCEPT SELECT * FROM ({second})").fetchone():
            raise Refused("an answer of can-i-deploy would change: a fault of `holzhebo carry`; nothing is made")
    return count(db, f"SELECT count(*) FROM ({two})")


def copy_rows(db: sqlite3.Connection, names: Tuple[str, str], keep: int, branches: Sequence[str]) -> Rows:
    """Makes in `main`, which is empty, the tables of `old` with what is kept, and tests both. The names are theirs."""
    old, new = names
    texts = test_schema(db, old)
    test_rules(db, "old", old)
    choose(db, keep, branches)
    for text in texts:
        db.execute(text)
    tables = [fill(db, it) for it in tables_of(db, "main")]
    db.execute("COMMIT")
    test_rules(db, "main", new)
    left = "number NOT IN (SELECT old FROM kept_results)"
    runs = count(db, f"SELECT count(*) FROM old.results WHERE {HAS_RUN} AND {left}")
    return Rows(tables, runs, count(db, "SELECT count(*) FROM cut"), compare(db))


def lines_of(rows: Rows) -> Iterator[str]:
    """What is said of the rows."""
    yield f"{'table':20}{'kept':>12}{'dropped':>12}{'bytes kept':>16}{'bytes dropped':>16}"
    for it in rows.tables:
        yield f"{it.name:20}{it.kept:12,}{it.dropped:12,}{it.bytes_kept:16,}{it.bytes_dropped:16,}"
    yield f"{rows.needs:,} needs of kept versions are the same in both files, with what they lack"
    yield f"{rows.forgotten_runs:,} runs are forgotten: sent again, they count as new results"
    yield f"{rows.cut_branches:,} branches aren't carried: their newest contract is dropped"
