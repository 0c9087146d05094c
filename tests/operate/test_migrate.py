"""The migration of a broker's file of format 1: one is made by sqlite3, refused, migrated, and read by sqlite3; the
gate answers for it. test_examples.py has examples/migrate.sh, which makes a copy first."""
import os
import pytest
from tests.broker.parts import former_file
from tests.process import ran, run
from tests.wire import same
from tests.world import RED, new_file

pytestmark = pytest.mark.needs("sqlite3")
TABLES = "teams pacticipants versions branches environments grants contents contracts results latest deployed released"
PERMITTED = '{"answer":"shown","environment":"live","faults":[],"gated":true,"permitted":true}\n'


@pytest.fixture
def file(room: str) -> str:
    """A file of format 1, with 18 rows."""
    made = former_file(room, name="broker.db")
    sound(made, 1)
    return made


def ask(file: str, text: str) -> str:
    """What sqlite3 answers over the file."""
    return run(["sqlite3", "-bail", file, text]).rstrip("\n")


def rows(file: str) -> str:
    """All rows of the tables of format 1, but for the format."""
    asks = [f"SELECT '{it}', * FROM {it} ORDER BY rowid" for it in TABLES.split()]
    return ask(file, "; ".join([*asks, "SELECT 'meta', one, office_digest FROM meta"]))


def sound(file: str, number: int) -> None:
    """It is a sound database of this format."""
    same("integrity_check", ask(file, "PRAGMA integrity_check"), "ok")
    same("foreign_key_check", ask(file, "PRAGMA foreign_key_check"), "")
    same("format", ask(file, "SELECT format FROM meta"), str(number))


def gate(program: str, file: str) -> tuple[int, str, str]:
    """Whether shop 1 may be deployed to live."""
    words = ["--token", RED, "--pacticipant", "shop", "--version", "1", "--to-environment", "live"]
    return ran([program, "can-i-deploy", "--file", file, *words])


def test_migrated(program: str, file: str, room: str) -> None:
    before = rows(file)
    same("number of rows", len(before.split("\n")), 18)
    same("the gate before", gate(program, file), (3, "", "open 3.1\n"))
    same("the migration", ran([program, "migrate", "--file", file]), (0, "", ""))
    sound(file, 2)
    same("rows", rows(file), before)
    same("checked_results", ask(file, "SELECT count(*) FROM checked_results"), "0")
    same("strict_environments", ask(file, "SELECT count(*) FROM strict_environments"), "0")
    schema = "SELECT sql FROM sqlite_schema WHERE sql IS NOT NULL ORDER BY sql"
    same("schema", ask(file, schema), ask(new_file(program, room, "new.db"), schema))
    same("the gate", gate(program, file), (0, PERMITTED, ""))
    same("a second migration", ran([program, "migrate", "--file", file]), (3, "", "open 3.2\n"))
    sound(file, 2)
    same("rows after it", rows(file), before)
    same("the gate after it", gate(program, file), (0, PERMITTED, ""))


def test_no_file(program: str, room: str) -> None:
    same("the migration", ran([program, "migrate", "--file", f"{room}/nowhere.db"]), (3, "", "file\n"))
    same("whether a file is made", os.path.exists(f"{room}/nowhere.db"), False)
