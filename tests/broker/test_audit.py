"""What `audit` says of a broker's file, which it leaves as it was: with rows in a log, of an earlier format, in use, or
refused by an opening. What is expected is from docs/OPERATING.md. test_audit_rules.py has the rules of rows."""
import os, shutil, sqlite3
import pytest
from tests.broker.filled import GREEN, STOCK, audited
from tests.broker.parts import Broker, auditing, former_file, kept, migrating, question, unchanged
from tests.players.files import has_sums, seal, statements
from tests.wire import same
from tests.world import BLUE, folded


def test_a_file_that_requests_filled(broker: Broker, file: str) -> None:
    assert has_sums(file)
    audited(broker, file)


def test_a_new_file(broker: Broker, room: str) -> None:
    audited(broker, broker.new_file(room))


@pytest.mark.parametrize("log", ["with a log", "after an opening"])
def test_a_file_whose_broker_was_killed(broker: Broker, file: str, log: str) -> None:
    """Its newest rows are in the log, which stays as it is; or in the file, once another broker has served it."""
    with broker.serving(file, 100) as it:
        it.do("PUT", "/pacticipants/post/versions/3", GREEN, '{"branch":"main"}')
        it.kill()
    assert os.path.getsize(f"{file}-wal") > 4096
    if log == "after an opening":
        folded(broker.program, file)
    audited(broker, file)


@pytest.mark.parametrize("line", ["", "results, row 3: in latest an older result is named, or none"])
def test_a_file_of_format_1_and_its_migration(broker: Broker, room: str, line: str) -> None:
    """Its rows stay as they were, also one that breaks a rule."""
    file = former_file(room, "UPDATE latest SET result = 2;" if line else "")
    before = kept(room)
    same("before", broker(*auditing(file)), (3, "", "open 3.1\n"))
    unchanged(room, before)
    same("migrate", broker(*migrating(file)), (0, "", ""))
    audited(broker, file, line)


# What isn't read


def test_a_row_that_an_opening_refuses(broker: Broker, file: str) -> None:
    """By a CHECK, a REFERENCES, or a page's sum."""
    for text in "UPDATE results SET pass = 2", "UPDATE deployed SET version_number = 99":
        copy = shutil.copy(file, f"{file}.copy")
        statements(copy, f"PRAGMA ignore_check_constraints = ON; {text}")
        before = kept(os.path.dirname(file))
        for words in auditing(copy), question(copy):
            same(f"{words} after {text}", broker(*words), (3, "", "file\n"))
        unchanged(os.path.dirname(file), before)
    base = sqlite3.connect(file)
    base.execute("UPDATE meta SET office_digest = 'other'")
    base.commit()
    base.close()
    same("audit", broker(*auditing(file)), (3, "", "file\n"))
    seal(file)
    audited(broker, file)


def test_a_file_that_is_served(broker: Broker, file: str, room: str) -> None:
    """It is in use; a copy of both files isn't."""
    os.mkdir(f"{room}/copy")
    with broker.serving(file, 100) as it:
        it.do("PUT", "/pacticipants/post/versions/3", GREEN)
        same("audit", broker(*auditing(file)), (3, "", "file\n"))
        for end in "", "-wal":
            shutil.copy(file + end, f"{room}/copy/broker.db{end}")
        it.do("PUT", "/pacticipants/post/versions/4", GREEN)
        audited(broker, f"{room}/copy/broker.db")


def test_it_is_served_afterwards(broker: Broker, file: str) -> None:
    audited(broker, file)
    with broker.serving(file, 100) as it:
        it.do("POST", f"{STOCK}/4/results", BLUE, '{"providerApplicationVersion":"2","success":false}')
    audited(broker, file)


def test_standard_output_that_takes_nothing(broker: Broker, file: str, room: str) -> None:
    """Or that is closed, or is read by nobody: it is `file` if there is a line to write, and else isn't used."""
    for text, wanted in ("", (0, "", "")), ("DELETE FROM latest", (3, "", "file\n")):
        statements(file, text)
        before, words = kept(room), auditing(file)
        with open("/dev/full", "wb") as full:
            same("with /dev/full", broker(*words, stdout=full), wanted)
        same("with none", broker.shell('exec "$@" >&-', *words), wanted)
        reader, writer = os.pipe()
        os.close(reader)
        same("with no reader", broker(*words, stdout=writer), wanted)
        os.close(writer)
        unchanged(room, before)
