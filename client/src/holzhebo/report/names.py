"""Names, results, and what has changed since an earlier copy."""
import collections, re
from typing import List, Optional

from holzhebo.report.board import headed
from holzhebo.report.copy import Copy, Refused, place_of
from holzhebo.report.gate import needs, outcome
from holzhebo.report.markup import Markup, element, joined, listed, named, sentence, table


def registry(copy: Copy) -> Markup:
    """Who owns what, and who may change what is in an environment."""
    rows = []
    for (team,) in copy.rows("SELECT name FROM teams ORDER BY name"):
        owned = [named(it) for it, owner in copy.owners.items() if owner == team]
        granted = copy.rows("SELECT environment FROM grants WHERE team = ? ORDER BY 1", team)
        rows.append([named(str(team)), joined(owned, ", "), joined((named(str(it)) for it, in granted), ", ")])
    return table("Teams", ("team", "owns", "may change what is in"), rows, "There is no team.")


UNUSED = {
    "The team {name} owns nothing.": "SELECT name FROM teams WHERE name NOT IN (SELECT team FROM pacticipants)",
    "The team {name} has no grant.": "SELECT name FROM teams WHERE name NOT IN (SELECT team FROM grants)",
    "{name} has no version, and no contract names it.": """SELECT name FROM pacticipants
        WHERE name NOT IN (SELECT pacticipant FROM versions) AND name NOT IN (SELECT provider FROM contracts)""",
    "Contracts name {name}, which has no version.": """SELECT name FROM pacticipants
        WHERE name NOT IN (SELECT pacticipant FROM versions) AND name IN (SELECT provider FROM contracts)""",
    "Nobody may change what is in {name}.": """SELECT name FROM environments
        WHERE name NOT IN (SELECT environment FROM grants)""",
    "Nothing is in {name}.": """SELECT name FROM environments
        WHERE name NOT IN (SELECT environment FROM deployed UNION SELECT environment FROM released)""",
}


def unused(copy: Copy) -> Markup:
    found = [(text, str(name)) for text, ask in UNUSED.items() for name, in copy.rows(f"{ask} ORDER BY name")]
    lines = [sentence(text, name=name) for text, name in found]
    return listed(lines, "Each name is used.")


KINDS = "checked", "claimed", "failed", "missing", "absent"


def evidence(copy: Copy) -> Markup:
    """How the needs of what is there are met, and the results of each provider."""
    rows = []
    for there in copy.environments:
        numbers = set().union(*there.there.values())
        needed = set().union(*(needs(copy, there, it) for it in numbers))
        count = collections.Counter(outcome(copy, it) for it in needed)
        rows.append([headed(there), *(f"{count[it]:,}" for it in KINDS)])
    caption = "How the needs of what is there are met"
    first = table(caption, ("what the versions that are there need", *KINDS), rows, "There is no environment.")
    text = """SELECT r.provider, count(*),
            sum(r.pass AND k.result IS NOT NULL), sum(NOT r.pass AND k.result IS NOT NULL),
            sum(r.pass AND k.result IS NULL), sum(NOT r.pass AND k.result IS NULL)
        FROM results r LEFT JOIN checked_results k ON k.result = r.number GROUP BY 1 ORDER BY 1"""
    counts = [[named(str(name)), *(f"{it:,}" for it in numbers)] for name, *numbers in copy.rows(text)]
    heads = ("all results of a provider", "results", *(f"{a}, {b}" for a in KINDS[:2] for b in ("pass", "failure")))
    return joined([first, table("Results of each provider", heads, counts, "There is no result.")])


# Since an earlier copy


# What a copy has of each kind, as a sentence with its columns in the places {c0}, {c1} and so on; `@` is the copy.
KEPT = {
    "team {c0}": "SELECT name FROM @teams",
    "{c0}, of the team {c1}": "SELECT name, team FROM @pacticipants",
    "environment {c0}, {c1}": """SELECT name, CASE WHEN name IN (SELECT environment FROM @strict_environments)
        THEN 'gated, strict' WHEN gated THEN 'gated' ELSE 'open' END FROM @environments""",
    "grant: {c0} for {c1}": "SELECT team, environment FROM @grants",
    "version {c0} {c1}": "SELECT pacticipant, version FROM @versions",
    "branch {c2} of {c0} {c1}": """SELECT v.pacticipant, v.version, b.branch
        FROM @branches b JOIN @versions v ON v.number = b.version_number""",
    "contract of {c0} {c1} with {c2}": """SELECT v.pacticipant, v.version, c.provider
        FROM @contracts c JOIN @versions v ON v.number = c.version_number""",
    "result {c0} of {c1} {c2}: {c3}": """SELECT r.number, v.pacticipant, v.version,
        CASE WHEN r.pass THEN 'pass' ELSE 'failure' END
            || CASE WHEN r.number IN (SELECT result FROM @checked_results) THEN ', checked' ELSE ', claimed' END
        FROM @results r JOIN @versions v ON v.number = r.provider_version""",
    "{c1} {c2} deployed in {c0}{c3}": """SELECT d.environment, v.pacticipant, v.version,
        CASE WHEN d.instance = '' THEN '' ELSE ' as ' || d.instance END
        FROM @deployed d JOIN @versions v ON v.number = d.version_number""",
    "{c1} {c2} released in {c0}": """SELECT r.environment, v.pacticipant, v.version
        FROM @released r JOIN @versions v ON v.number = r.version_number""",
}
# What is never taken back: an earlier copy of the same broker has nothing of it that a later one lacks.
STAYING = "teams", "pacticipants", "versions", "branches", "environments", "contracts", "results"


def attach(copy: Copy, earlier: Copy, room: str) -> None:
    """Makes the earlier copy's tables known to the statements on the later one."""
    copy.base.execute("ATTACH ? AS earlier", [place_of(earlier.real, room)])
    lost = [it for it in STAYING if copy.rows(f"SELECT * FROM earlier.{it} EXCEPT SELECT * FROM main.{it} LIMIT 1")]
    if lost or copy.office != earlier.office:
        raise Refused(f"{earlier.path} isn't an earlier copy of the same broker as {copy.path}")


def changes(copy: Copy) -> Markup:
    """What came and what went since the earlier copy."""
    parts: List[Markup] = []
    for text, ask in KEPT.items():
        new, old = ask.replace("@", "main."), ask.replace("@", "earlier.")
        for sign, statement in ("+", f"{new} EXCEPT {old}"), ("\u2212", f"{old} EXCEPT {new}"):
            columns = ", ".join(str(int(it) + 1) for it in sorted(set(re.findall(r"\{c(\d)\}", text))))
            rows = copy.rows(f"SELECT * FROM ({statement}) ORDER BY {columns}")
            lines = [sentence(f"{sign} {text}", **{f"c{at}": str(it) for at, it in enumerate(row)}) for row in rows]
            parts += [listed(lines, "")] if lines else []
    return joined(parts) if parts else element("p", "Nothing has changed.")


# Rows and bytes


TABLES = """teams pacticipants versions branches environments grants contents contracts results latest deployed released
    checked_results strict_environments""".split()


def sizes(copy: Copy, earlier: Optional[Copy]) -> Markup:
    rows = []
    for it in TABLES:
        count = copy.number(f"SELECT count(*) FROM {it}")
        before = [earlier.number(f"SELECT count(*) FROM {it}")] if earlier else []
        rows.append([it, f"{count:,}", *(f"{count - old:+,}" for old in before)])
    rows.append(["bytes of the file", f"{copy.size:,}", *([f"{copy.size - earlier.size:+,}"] if earlier else [])])
    text = "SELECT sum(length(CAST(body AS BLOB))) FROM contents"
    before = [earlier.number(text)] if earlier else []
    count = copy.number(text)
    rows.append(["bytes of the texts of contracts", f"{count:,}", *(f"{count - it:+,}" for it in before)])
    heads = ["rows", "now", *(["since the earlier copy"] if earlier else [])]
    found = table("The tables of the file", heads, rows, "")
    return joined([found, *([growth(copy, earlier)] if earlier else [])])


def growth(copy: Copy, earlier: Copy) -> Markup:
    days = (copy.made - earlier.made) / 86400
    if days <= 0 or copy.size <= earlier.size:
        return element("p", "The file hasn't grown.")
    each = (copy.size - earlier.size) / days
    left = f"; at this rate it has 200 MB in {max(0, 200e6 - copy.size) / each:,.0f} days" if copy.size < 200e6 else ""
    return element("p", f"It grew by {each:,.0f} bytes a day{left}.")
