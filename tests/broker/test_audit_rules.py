"""Which rows `audit` names. The tables are filled by requests (filled.py). Then a row is changed with Python's SQLite:
it breaks one rule, and obeys all that an opening tests: keys, CHECKs, REFERENCES, the sums of pages. What is expected
is from docs/OPERATING.md, and the lines are written by hand."""
import hashlib, os, sqlite3
import pytest
from tests.broker.filled import GREEN, audited
from tests.broker.parts import PACT, UNKNOWN, Broker, question
from tests.players.files import statements
from tests.wire import same

ROWS = {
    "rowid, name FROM teams": ["1|red", "2|blue", "3|green"],
    "rowid, name, team FROM pacticipants": ["1|shop|red", "2|stock|blue", "3|post|green"],
    "pacticipant || ' ' || version FROM versions": [
        "stock 1", "shop 1", "shop 2", "shop 3", "shop 4", "stock 2", "post 1", "post 2",
    ],
    "* FROM branches": ["5|main", "6|main"],
    "number FROM contents": ["1", "2", "3"],
    "* FROM contracts": ["2|stock|1", "3|stock|2", "4|stock|3", "5|stock|1"],
    "number, content, provider_version, pass, run FROM results": [
        "1|1|1|1|\t1", "2|3|1|1|\t2", "3|1|6|0|ci-7", "4|1|6|1|\t4", "5|1|1|1|ci-8",
    ],
    "rowid, * FROM latest": ["1|1|1|5", "2|3|1|2", "3|1|6|4"],
    "rowid, * FROM deployed": ["2|live|stock||1", "3|vault|stock||1", "4|live|shop||2", "5|live|stock|b|6"],
    "* FROM released": ["live|5"],
    "* FROM checked_results": ["2"],
}


def test_the_rows(file: str) -> None:
    """They are those that `fill` says, by whose numbers rows are named below."""
    base = sqlite3.connect(file)
    for text, rows in ROWS.items():
        same(text, ["|".join(map(str, row)) for row in base.execute(f"SELECT {text} ORDER BY rowid")], rows)
    base.close()


# A name of the most bytes that it may have, and names that look odd.
NAMES = [f"'{it}'" for it in ("x" * 100, "é" * 50, " ", "\u0080", "a/b?c#d", "''")]
NAMED = "INSERT INTO teams VALUES (?, 'd'); INSERT INTO pacticipants VALUES (?, ?);"
NAMED += "INSERT INTO versions VALUES (9, ?, ?)"
# What keeps every rule. Names of branches and environments are found by what is asked, and not read back.
KEPT = {
    "no run, as an earlier program wrote it": "UPDATE results SET run = NULL WHERE run < ' '",
    "no run at all": "UPDATE results SET run = NULL",
    "no run in place of runs": "UPDATE results SET run = char(9) || number",
    "a run with a tab in its middle": "UPDATE results SET run = 'ci' || char(9) || '9' WHERE number = 5",
    "other runs": "UPDATE results SET run = '7' WHERE number = 4; UPDATE results SET run = ' 5' WHERE number = 5",
    "no grants": "DELETE FROM grants",
    "nothing released": "DELETE FROM released",
    "nothing deployed": "DELETE FROM deployed",
    "no contracts": "DELETE FROM contracts",
    "no checked results": "DELETE FROM checked_results",
    "each result checked": "INSERT OR IGNORE INTO checked_results SELECT number FROM results",
    "other verdicts": "UPDATE results SET pass = 1 - pass",
    "no results": "DELETE FROM checked_results; DELETE FROM latest; DELETE FROM results",
    "no newest result": "UPDATE latest SET result = 1 WHERE rowid = 1; DELETE FROM results WHERE number = 5",
    "no newest version": "DELETE FROM versions WHERE number = 8",
    "another row of latest": "UPDATE latest SET rowid = 77 WHERE rowid = 2",
    "other rows of teams": "UPDATE teams SET rowid = 0 WHERE rowid = 3; UPDATE teams SET rowid = -5 WHERE rowid = 1",
    "another environment": "INSERT INTO environments VALUES ('' , 1); INSERT INTO strict_environments VALUES ('')",
    "another branch": "INSERT INTO branches VALUES (1, CAST(x'ff' AS TEXT))",
    "an instance": "UPDATE deployed SET instance = 'ä' || char(10) WHERE rowid = 5",
    "a team's new name": "UPDATE teams SET name = 'lime' WHERE name = 'green';"
    "UPDATE pacticipants SET team = 'lime' WHERE team = 'green'; UPDATE grants SET team = 'lime' WHERE team = 'green'",
    "a new owner": "UPDATE pacticipants SET team = 'red'",
    "versions in another order": "UPDATE versions SET number = 9 WHERE number = 7;"
    "UPDATE versions SET number = 7 WHERE number = 8; UPDATE versions SET number = 8 WHERE number = 9",
}
KEPT |= {f"the name {it}": NAMED.replace("?", it) for it in NAMES}


@pytest.mark.parametrize("what", KEPT)
def test_rows_that_keep_the_rules(broker: Broker, file: str, what: str) -> None:
    statements(file, KEPT[what])
    audited(broker, file)


# What holds none


def text_of(digits: str) -> str:
    """The SQL of a text of these bytes, which needn't be UTF-8."""
    return f"CAST(x'{digits}' AS TEXT)"


# What is no name: nothing, too long by one byte, with a control character, cut within a character.
NO_NAMES = ["''", f"'{'x' * 101}'", f"'{'é' * 50}x'", "char(9)", "'a' || char(0)", "'a' || char(127)", text_of("61c3")]
META = "meta, row 1: not of format 2, or no digest"
TEAMS = "teams, row %d: no name, or no digest"
PACTICIPANTS = "pacticipants, row %d: no name, or no name of a team"
VERSIONS = "versions, row %d: a gap in the numbers, or no name"
CONTENTS = "contents, row %d: a gap in the numbers, or not the text of its digest"
RESULTS = "results, row %d: a gap in the numbers, or no run"
PROVIDER = "results, row %d: its provider isn't the pacticipant of its version"
LATEST = "latest, row %d: it names a result of another content or version"
NEWEST = "results, row %d: in latest an older result is named, or none"
DEPLOYED = "deployed, row %d: its version is of another pacticipant, or its instance isn't UTF-8"


def content(number: int, text: bytes) -> str:
    """The SQL of a content with the digest of its text."""
    return f"INSERT INTO contents VALUES ({number}, '{hashlib.sha256(text).hexdigest()}', {text_of(text.hex())})"


BROKEN = [
    (META, f"UPDATE meta SET office_digest = {text_of('ff')}"),
    (TEAMS % 2, f"UPDATE teams SET token_digest = {text_of('30ff')} WHERE name = 'blue'"),
    (TEAMS % 1, f"UPDATE teams SET token_digest = {text_of('ff')} || rowid"),
    (TEAMS % 77, "INSERT INTO teams (rowid, name, token_digest) VALUES (77, '', 'd')"),
    (TEAMS % -7, "INSERT INTO teams (rowid, name, token_digest) VALUES (-7, '', 'd')"),
    (TEAMS % 3, "UPDATE teams SET name = 'lime' || char(10) WHERE name = 'green';"
     "UPDATE pacticipants SET team = 'lime' || char(10) WHERE team = 'green';"
     "UPDATE grants SET team = 'lime' || char(10) WHERE team = 'green'"),
    *((TEAMS % 4, f"INSERT INTO teams VALUES ({it}, 'd')") for it in NO_NAMES),
    *((PACTICIPANTS % 4, f"INSERT INTO pacticipants VALUES ({it}, 'red')") for it in NO_NAMES),
    *((VERSIONS % 9, f"INSERT INTO versions VALUES (9, 'shop', {it})") for it in NO_NAMES),
    (VERSIONS % 10, "INSERT INTO versions VALUES (10, 'shop', '10')"),
    (VERSIONS % 8, "DELETE FROM versions WHERE number = 7"),
    (VERSIONS % 0, "UPDATE versions SET number = 0 WHERE number = 8"),
    (VERSIONS % -1, "UPDATE versions SET number = -1 WHERE number = 8"),
    (VERSIONS % 4294967304, "UPDATE versions SET number = number + 4294967296 WHERE number = 8"),
    (VERSIONS % (2**63 - 1), f"UPDATE versions SET number = {2**63 - 1} WHERE number = 8"),
    (CONTENTS % 2, "UPDATE contents SET body = body || ' ' WHERE number = 2"),
    (CONTENTS % 3, "UPDATE contents SET body = '' WHERE number = 3"),
    (CONTENTS % 3, "UPDATE contents SET digest = upper(digest) WHERE number = 3"),
    (CONTENTS % 1, "UPDATE contents SET digest = substr(digest, 2) WHERE number = 1"),
    (CONTENTS % 1, "UPDATE contents SET digest = digest || ' ' WHERE number = 1"),
    (CONTENTS % 2, "UPDATE contents SET digest = (SELECT digest FROM contents WHERE number = 3) WHERE number = 2"),
    (CONTENTS % 4, content(4, b"\xff")),
    (CONTENTS % 5, content(5, b"{}")),
    (CONTENTS % 0, content(0, b"{}")),
    (RESULTS % 4, "UPDATE results SET run = char(9) || '5' WHERE number = 4"),
    (RESULTS % 4, "UPDATE results SET run = char(9) || '04' WHERE number = 4"),
    (RESULTS % 4, "UPDATE results SET run = char(9) || '4 ' WHERE number = 4"),
    (RESULTS % 5, "UPDATE results SET run = char(9) || 'ci-8' WHERE number = 5"),
    (RESULTS % 5, "UPDATE results SET run = char(9) WHERE number = 5"),
    (RESULTS % 9, "UPDATE results SET number = 9 WHERE number = 5; UPDATE latest SET result = 9 WHERE result = 5"),
    (RESULTS % 5, "DELETE FROM results WHERE number = 3"),
    (RESULTS % 0, "UPDATE results SET number = 0, run = NULL WHERE number = 1"),
    (PROVIDER % 3, "UPDATE results SET provider = 'shop' WHERE number = 3"),
    (PROVIDER % 1, "UPDATE results SET provider_version = 2 WHERE number = 1; INSERT INTO latest VALUES (1, 2, 1)"),
    (LATEST % 1, "UPDATE latest SET result = 2 WHERE rowid = 1"),
    (LATEST % 3, "UPDATE latest SET result = 5 WHERE rowid = 3"),
    (LATEST % 4, "INSERT INTO latest VALUES (2, 1, 1)"),
    (LATEST % 9, "UPDATE latest SET rowid = 9, content = 2 WHERE rowid = 2"),
    (NEWEST % 5, "UPDATE latest SET result = 1 WHERE rowid = 1"),
    (NEWEST % 4, "UPDATE latest SET result = 3 WHERE rowid = 3"),
    (NEWEST % 2, "DELETE FROM latest WHERE rowid = 2"),
    (NEWEST % 1, "DELETE FROM latest"),
    (DEPLOYED % 4, "UPDATE deployed SET version_number = 6 WHERE rowid = 4"),
    (DEPLOYED % 2, "UPDATE deployed SET pacticipant = 'post' WHERE rowid = 2"),
    (DEPLOYED % 5, f"UPDATE deployed SET instance = {text_of('c328')} WHERE rowid = 5"),
]


@pytest.mark.parametrize("line, text", BROKEN)
def test_a_row_that_breaks_a_rule(broker: Broker, file: str, line: str, text: str) -> None:
    """It is named with the rule, and no row after it."""
    statements(file, text)
    audited(broker, file, line)


# One for each rule, in their order, which can be broken together.
TOGETHER = [
    (META, f"UPDATE meta SET office_digest = {text_of('ff')}"),
    (TEAMS % 4, "INSERT INTO teams VALUES ('', 'd')"),
    (PACTICIPANTS % 4, "INSERT INTO pacticipants VALUES ('', 'red')"),
    (VERSIONS % 19, "INSERT INTO versions VALUES (19, 'shop', '19')"),
    (CONTENTS % 2, "UPDATE contents SET body = body || ' ' WHERE number = 2"),
    (RESULTS % 4, "UPDATE results SET run = char(9) || '5' WHERE number = 4"),
    (PROVIDER % 3, "UPDATE results SET provider = 'shop' WHERE number = 3"),
    (LATEST % 3, "UPDATE latest SET result = 5 WHERE rowid = 3"),
    (NEWEST % 2, "DELETE FROM latest WHERE rowid = 2"),
    (DEPLOYED % 4, "UPDATE deployed SET version_number = 6 WHERE rowid = 4"),
]


def test_the_order_of_the_rules(broker: Broker, file: str) -> None:
    """Broken one after another from the last to the first, each in its turn is the one that is named."""
    for line, text in reversed(TOGETHER):
        statements(file, text)
        audited(broker, file, line)


def test_a_rule_that_is_broken_in_the_log(broker: Broker, file: str) -> None:
    """The newest version is only there. Of nine rows its number is the one that is too great."""
    statements(file, "UPDATE versions SET number = 9 WHERE number = 8")
    with broker.serving(file, 100) as it:
        it.do("PUT", "/pacticipants/post/versions/3", GREEN)
        it.kill()
    assert os.path.getsize(f"{file}-wal") > 4096
    audited(broker, file, VERSIONS % 10)


def test_a_file_of_many_pages(broker: Broker, room: str) -> None:
    """500 contents, two megabytes together; the last one isn't that of its digest."""
    file = broker.new_file(room)
    statements(file, ";".join(content(it, b"%d" % it + PACT.encode() * 10) for it in range(1, 501)))
    audited(broker, file)
    statements(file, "UPDATE contents SET body = body || 'x' WHERE number = 500")
    audited(broker, file, CONTENTS % 500)
    same("a question", broker(*question(file)), (3, "", UNKNOWN))
