"""What the program says of a file that it can't use, and that it leaves it as it was. What is expected is from
docs/OPERATING.md."""
import hashlib, os, resource, socket, sqlite3
import pytest
from tests.broker.parts import FORMER, UNKNOWN, Broker, auditing, faults_of_file, former_file, kept, making, migrating
from tests.broker.parts import put_team, question, serving, unchanged
from tests.players.files import statements
from tests.wire import OFFICE, same
from tests.world import DONE

OTHER = "office-token-0002"


@pytest.mark.parametrize("rights", [0, 0o444], ids=["without leave", "read only"])
def test_a_file_that_may_not_be_read_or_written(broker: Broker, by_nobody: tuple[Broker, str], rights: int) -> None:
    nobody, room = by_nobody
    file = broker.new_file(room)
    os.chmod(file, rights)
    faults_of_file(nobody, room, file)


@pytest.mark.parametrize("more", [0, 100], ids=["at the end of a page", "within a page"])
def test_a_file_that_is_cut_in_its_middle(broker: Broker, room: str, more: int) -> None:
    file = broker.new_file(room)
    os.truncate(file, os.path.getsize(file) // 4096 // 2 * 4096 + more)
    faults_of_file(broker, room, file)


LOOKS = {"question": question, "serve": serving, "migrate": migrating, "audit": auditing}


@pytest.mark.parametrize("kind", ["nought", "bare"])
@pytest.mark.parametrize("look", LOOKS)
def test_a_file_of_nought_bytes_or_without_tables(broker: Broker, room: str, look: str, kind: str) -> None:
    """It is `open 2` but for init, which takes it. A look at a file of nought bytes may write the first page of a
    database into it: it stays one that init takes."""
    file = f"{room}/{kind}.db"
    open(file, "wb").close()
    if kind == "bare":
        statements(file, "CREATE TABLE notes (line TEXT); DROP TABLE notes")
    words: list[str] = LOOKS[look](file)  # type: ignore[operator]
    same(words, broker(*words), (3, "", "open 2\n"))
    same("init", broker(*making(file)), (0, "", ""))
    same("a question", broker(*question(file)), (3, "", UNKNOWN))


def test_a_folder(broker: Broker, room: str) -> None:
    os.mkdir(f"{room}/folder")
    faults_of_file(broker, room, f"{room}/folder")


def test_a_folder_in_the_place_of_the_log(broker: Broker, room: str) -> None:
    file = broker.new_file(room)
    if os.path.exists(f"{file}-wal"):
        os.remove(f"{file}-wal")
    os.mkdir(f"{file}-wal")
    faults_of_file(broker, room, file)


def test_a_socket(broker: Broker, room: str) -> None:
    with socket.socket(socket.AF_UNIX) as it:
        it.bind(f"{room}/socket")
        faults_of_file(broker, room, f"{room}/socket")


@pytest.mark.parametrize("target", ["nowhere/broker.db", "broker.db"])
def test_a_symbolic_link_to_nowhere(broker: Broker, room: str, target: str) -> None:
    os.symlink(f"{room}/{target}", f"{room}/link")
    faults_of_file(broker, room, f"{room}/link")


def test_a_file_that_is_no_database(broker: Broker, room: str) -> None:
    with open(f"{room}/notes.txt", "w", encoding="utf-8") as it:
        it.write("These are notes, and no database.\n" * 100)
    faults_of_file(broker, room, f"{room}/notes.txt")


def test_another_database(broker: Broker, room: str) -> None:
    statements(f"{room}/notes.db", "CREATE TABLE notes (line TEXT)")
    faults_of_file(broker, room, f"{room}/notes.db", "open 2", "open 1")


META = "CREATE TABLE meta (one INTEGER PRIMARY KEY, format INTEGER, office_digest TEXT)"
STRICT_META = (
    "CREATE TABLE meta (one INTEGER PRIMARY KEY CHECK (one = 1), format INTEGER NOT NULL, "
    "office_digest TEXT NOT NULL) STRICT"
)
LOOSE_META = META.replace("format INTEGER", "format BIGINT DEFAULT 7").replace("TEXT", "VARCHAR(64) COLLATE NOCASE")
NOTES = "CREATE TABLE notes (line TEXT)"
VIEW = "CREATE VIEW meta AS SELECT one, format, office_digest FROM notes"


def with_format(number: object, table: str = META) -> str:
    return f"{table}; INSERT INTO meta (one, format, office_digest) VALUES (1, {number}, 'd')"


# Another's tables, and the line that they are opened with.
DECLARED = [
    (with_format(0), "open 3.0"),
    (with_format(0, STRICT_META), "open 3.0"),
    (f"{with_format(7)}; {NOTES}", "open 3.7"),
    (with_format(0, LOOSE_META), "open 3.0"),
    (with_format("'two'"), "open 5"),
    (with_format("NULL"), "open 5"),
    (with_format(-1), "open 5"),
    (with_format(1 << 32), "open 5"),
    (META, "open 2"),
    (f"{with_format(0)}; INSERT INTO meta (one) VALUES (2)", "open 2"),
    (f"{NOTES}; CREATE INDEX lines ON notes (line); {with_format(0)}", "open 3.0"),
    (f"{NOTES}; CREATE VIEW lines AS SELECT line FROM notes; {with_format(0)}", "open 3.0"),
    (f"{with_format(0).replace('meta', 'metas')}; {with_format(4).replace('meta', 'META')}", "open 3.4"),
    (f"{NOTES}; {META}", "open 2"),
    (with_format(0, META.replace("INTEGER PRIMARY KEY", "INTEGER")), "open 2"),
    (with_format(0, META.replace("INTEGER, office", "TEXT, office")), "open 2"),
    (with_format(0, META.replace("digest TEXT", "digest TEXT, since TEXT")), "open 2"),
    (with_format(0).replace("meta", "notes"), "open 2"),
    (f"{with_format(0).replace('meta', 'notes')}; {VIEW}", "open 2"),
]


@pytest.mark.parametrize("text, line", DECLARED)
def test_the_table_meta_of_another(broker: Broker, room: str, text: str, line: str) -> None:
    """It is a broker's meta by its name, its columns and its key, wherever it is and however it is declared."""
    statements(f"{room}/other.db", text)
    faults_of_file(broker, room, f"{room}/other.db", line, "open 1")


RELEASED = "CREATE TABLE released (environment TEXT, version_number INTEGER, PRIMARY KEY (environment, version_number))"
# What isn't the table `released` of format 1.
UNLIKE = [
    "",
    RELEASED.replace("environment TEXT,", "environment TEXT, since TEXT,"),
    RELEASED.replace("version_number INTEGER", "version_number TEXT"),
    RELEASED.replace("version_number", "version"),
    RELEASED.replace("(environment, version_number)", "(version_number, environment)"),
    RELEASED.replace(", PRIMARY KEY (environment, version_number)", ""),
    RELEASED.replace("(environment, version_number))", "(environment, version_number), UNIQUE (version_number))"),
    "CREATE VIEW released AS SELECT environment, version_number FROM deployed",
    RELEASED.replace("environment TEXT,", "environment TEXT COLLATE NOCASE,"),
    RELEASED.replace("environment TEXT,", "environment TEXT COLLATE RTRIM,"),
    f"{RELEASED}; {NOTES}",
    f"{RELEASED}; CREATE VIEW lines AS SELECT version_number FROM released",
    f"{RELEASED}; CREATE INDEX lines ON released (version_number)",
    f"{RELEASED}; CREATE TRIGGER lines AFTER INSERT ON released BEGIN SELECT 1; END",
]


@pytest.mark.parametrize("text", UNLIKE)
def test_another_file_of_format_1_is_not_migrated(broker: Broker, room: str, text: str) -> None:
    """Unless its tables have the columns, by bytes, and the keys, and nothing else is there: else it is `open 2`, and as
    it was."""
    file = former_file(room)
    statements(file, f"DROP TABLE released; {text}")
    before = kept(room)
    same("migrate", broker(*migrating(file)), (3, "", "open 2\n"))
    same("a question to it", broker(*question(file)), (3, "", "open 3.1\n"))
    unchanged(room, before)


def loose(text: str) -> str:
    """These tables without STRICT and NOT NULL, and in another order."""
    made = [it.replace(" STRICT", "").replace(" NOT NULL", "") for it in text.splitlines() if it.startswith("CREATE")]
    rows = [it for it in text.splitlines() if not it.startswith("CREATE")]
    return "\n".join([*made[::-1], *rows])


@pytest.mark.parametrize("text", [loose(FORMER), f"{FORMER}DROP TABLE released; {RELEASED}"], ids=["loose", "released"])
def test_another_file_of_format_1_is_migrated(broker: Broker, room: str, text: str) -> None:
    file = f"{room}/former.db"
    statements(file, text)
    same("migrate", broker(*migrating(file)), (0, "", ""))
    shown = '{"answer":"shown","environment":"live","faults":[],"gated":true,"permitted":true}\n'
    same("a question", broker(*question(file, "red-team-token-01")), (0, shown, ""))
    same("migrate again", broker(*migrating(file)), (3, "", "open 3.2\n"))


def test_no_file_is_made_but_by_init(broker: Broker, room: str) -> None:
    faults_of_file(broker, room, f"{room}/nowhere/broker.db")
    faults_of_file(broker, room, f"{room}/broker.db", made=None)


def test_a_file_that_another_program_serves(broker: Broker, room: str) -> None:
    with broker.serving(broker.new_file(room)) as it:
        faults_of_file(broker, room, it.file)


@pytest.mark.parametrize("most", [0, 1000, 20000])
def test_a_file_that_may_not_grow(broker: Broker, room: str, most: int) -> None:
    """It is `file`, and init can be run again."""
    words = making(f"{room}/broker.db")
    same("init", broker(*words, limits=[(resource.RLIMIT_FSIZE, most)]), (3, "", "file\n"))
    same("init again", broker(*words), (0, "", ""))


def test_a_migration_whose_file_may_not_grow(broker: Broker, room: str) -> None:
    words = migrating(former_file(room))
    same("migrate", broker(*words, limits=[(resource.RLIMIT_FSIZE, 0)]), (3, "", "file\n"))
    same("migrate again", broker(*words), (0, "", ""))


def test_init_with_another_token(broker: Broker, room: str) -> None:
    """The office has this one, and the usual one opens nothing."""
    denied, file = '{"answer":"denied","rule":"A1"}', broker.new_file(room, token=OTHER)
    same("this token", broker(*question(file, OTHER)), (3, "", UNKNOWN))
    same("the usual one", broker(*question(file, OFFICE)), (3, "", f"{denied}\n"))
    with broker.serving(file) as it:
        same("answers", it.send(put_team("red"), put_team("red", OTHER)), [denied, DONE])


def test_what_init_makes(broker: Broker, room: str) -> None:
    """The row of the format and of the office's digest, and the indexes."""
    it = sqlite3.connect(broker.new_file(room))
    digest = hashlib.sha256(OFFICE.encode()).hexdigest()
    same("meta", it.execute("SELECT one, format, office_digest FROM meta").fetchall(), [(1, 2, digest)])
    indexes = ["contents_by_digest", "contracts_by_content", "latest_by_provider_version", "versions_by_pacticipant"]
    found = it.execute("SELECT name FROM sqlite_schema WHERE type = 'index' AND sql IS NOT NULL ORDER BY name")
    same("indexes", [name for name, in found], indexes)
    it.close()
