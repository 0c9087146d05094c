"""What `holzhebo carry` refuses, and then makes nothing: wrong files, files in use, full disks, wrong command lines.
And killed at each kind of call, its new file is whole or not there."""
import collections, contextlib, fcntl, os, random, re, resource, shutil, sqlite3, subprocess, sys, tempfile
import pytest
from tests.operate.carry_pair import Broker, played
from tests.operate.carry_state import opened, read_tables
from tests.operate.carry_world import Dice
from tests.operate.service import content
from tests.process import TOP, bytes_of, ran, text_of
from tests.wire import same
from tests.world import new_file

from holzhebo import carry, carry_pages, carry_rows

CARRY = [sys.executable, f"{TOP}/client/holzhebo", "carry"]


@pytest.fixture(scope="module")
def history(program: str, tmp_path_factory: pytest.TempPathFactory) -> bytes:
    """The file of a broker with a history."""
    room = str(tmp_path_factory.mktemp("history"))
    file = new_file(program, room)
    played(program, file, Dice("refusals"), 400)
    return content(room)["broker.db"]


@pytest.fixture
def old(history: bytes, memory: str) -> str:
    with open(f"{memory}/old.db", "wb") as it:
        it.write(history)
    return f"{memory}/old.db"


NEWEST = "(SELECT max(number) FROM {0})"
OTHER = "(SELECT max(name) FROM pacticipants WHERE name <> {0})"
BREAKS = {
    "a gap in versions": f"UPDATE versions SET number = number + 1 WHERE number = {NEWEST.format('versions')}",
    "versions from 2": "UPDATE versions SET number = number + 100; UPDATE versions SET number = number - 99",
    "a gap in results": f"UPDATE results SET number = number + 1 WHERE number = {NEWEST.format('results')}",
    "a gap in contents": f"UPDATE contents SET number = number + 1 WHERE number = {NEWEST.format('contents')}",
    "another text": "UPDATE contents SET body = body || ' ' WHERE number = 1",
    "another digest": "UPDATE contents SET digest = replace(digest, 'a', 'b') WHERE number = 1",
    "a text twice": "INSERT INTO contents SELECT max(number) + 1, digest, body FROM contents",
    "another provider": f"UPDATE results SET provider = {OTHER.format('provider')}, run = 'other' WHERE number = 1",
    "deployed as another": f"UPDATE deployed SET instance = 'x', pacticipant = {OTHER.format('pacticipant')}"
    " WHERE rowid = (SELECT min(rowid) FROM deployed)",
    "no latest": "DELETE FROM latest WHERE result = (SELECT max(result) FROM latest)",
    "an older latest": "UPDATE latest SET result = (SELECT min(number) FROM results)",
    "a latest too many": "INSERT INTO latest SELECT max(c.number), min(v.number), 1 FROM contents c, versions v"
    " WHERE (c.number, v.number) NOT IN (SELECT content, provider_version FROM latest)",
    "a contract without text": "UPDATE contracts SET content = 1000",
    "a branch of nothing": "INSERT INTO branches VALUES (1000, 'main')",
    "released nothing": "INSERT INTO released SELECT name, 1000 FROM environments",
    "a checked nothing": "INSERT INTO checked_results VALUES (1000)",
    "format 1": "UPDATE meta SET format = 1",
    "another format": "UPDATE meta SET format = 99",
    "no meta": "DELETE FROM meta",
    "a table more": "CREATE TABLE more (one INTEGER)",
    "an index less": "DROP INDEX contracts_by_content",
    "a table less": "DROP TABLE checked_results",
    "a column more": "ALTER TABLE teams ADD COLUMN more TEXT",
    "a view": "CREATE VIEW more AS SELECT * FROM contracts",
}


def refused(why: str, file: str, limit: int = 0) -> None:
    """Nothing is made, with one line that says why; and nothing else is changed."""
    folder = os.path.dirname(file)
    before = content(folder)
    limits = [(resource.RLIMIT_FSIZE, limit)] if limit else []
    ended = ran([*CARRY, file, f"{folder}/new.db", "--keep", "1"], limits=limits)
    same(why, (ended.status, ended.output, len(ended.errors.splitlines())), (3, "", 1))
    same(f"the files after {why}", content(folder) == before, True)


def broken(file: str, text: str) -> None:
    """These statements over the file, whose sums are right then."""
    with opened(file) as db:
        changes = db.total_changes
        db.executescript(text)
        assert db.total_changes > changes or re.match("CREATE|DROP|ALTER", text), text


@pytest.mark.parametrize("why", BREAKS)
def test_broken_rules(old: str, why: str) -> None:
    broken(old, BREAKS[why])
    refused(why, old)


def test_sound_again(old: str) -> None:
    """The same way of changing a file, with a change that breaks nothing, isn't refused."""
    broken(old, "UPDATE grants SET team = team; CREATE TABLE more (one INTEGER); DROP TABLE more")
    carry.carry(old, f"{os.path.dirname(old)}/new.db", 1)


def test_damaged(old: str, history: bytes) -> None:
    """Flipped bits, files that are cut, and what is no broker's file."""
    dice, new = random.Random(1), f"{os.path.dirname(old)}/new.db"
    wrong = []
    for _ in range(200):
        at = dice.randrange(len(history) * 8)
        wrong.append(history[: at // 8] + bytes([history[at // 8] ^ 1 << at % 8]) + history[at // 8 + 1 :])
    cuts = 0, 99, 100, 4095, len(history) - 1, len(history) - 4096, len(history) // 8192 * 4096
    for text in [*wrong, *(history[:it] for it in cuts), b"no database at all" * 1000]:
        with open(old, "wb") as it:
            it.write(text)
        with pytest.raises((carry_pages.Refused, sqlite3.Error)):
            carry.carry(old, new, 1)
        same("the files", os.listdir(os.path.dirname(old)), ["old.db"])
    os.remove(old)
    refused("a file that isn't there", old)


def test_without_sums(old: str) -> None:
    texts = [it[3] for it in read_tables(old)[1] if it[3]]
    os.remove(old)
    with contextlib.closing(sqlite3.connect(old)) as db:
        db.executescript(";".join(texts) + f"; INSERT INTO meta VALUES (1, 2, '{'0' * 64}')")
    refused("a file without sums", old)


def test_files_beside(old: str) -> None:
    """A new file that is there, newer rows in a log, also beside what a link leads to, and a file that is in use."""
    folder = os.path.dirname(old)
    link = f"{folder}/link.db"
    os.symlink("old.db", link)
    for size, name in (1, "new.db"), (4152, "old.db-wal"), (100_000, "old.db-wal"), (1, "old.db-journal"):
        with open(f"{folder}/{name}", "wb") as it:
            it.write(b"x" * size)
        refused(f"{size} bytes in {name}", old)
        refused(f"{size} bytes in {name}, by a link", link)
        os.remove(f"{folder}/{name}")
    with open(f"{folder}/old.db-wal", "wb") as it:
        it.write(b"x" * 41)
    # By another process: this one's lock would go with the first file that it closes.
    text = "import fcntl, sys; it = open(sys.argv[1], 'rb+'); fcntl.lockf(it, fcntl.LOCK_EX, 510, 0x40000002)"
    words = [sys.executable, "-c", f"{text}; print(flush=True); sys.stdin.read()", old]
    with subprocess.Popen(words, stdin=subprocess.PIPE, stdout=subprocess.PIPE) as locking:
        assert locking.stdout and locking.stdout.readline()
        refused("a file that is locked", old)
        locking.communicate()
    carry.carry(old, f"{folder}/new.db", 1)


def test_served(program: str, old: str) -> None:
    broker = Broker(program, old)
    refused("a file that is served", old)
    broker.end()


def test_full_disk(old: str) -> None:
    for limit in 4096, 8192, 65536, os.path.getsize(old) // 2 // 4096 * 4096:
        refused(f"a disk that takes {limit} bytes", old, limit)


def test_words(old: str) -> None:
    """Wrong command lines end with 2, and a right one says what is kept, and what isn't."""
    new = f"{os.path.dirname(old)}/new.db"
    wrong: list[list[str]] = [[], [old], [old, new], [old, new, "--keep", "-1"], [old, new, "--keep", "all"]]
    wrong.append([old, new, "--keep=1", "more"])
    for words in wrong:
        same(str(words), ran([*CARRY, *words]).status, 2)
    same("the files", os.listdir(os.path.dirname(old)), ["old.db"])
    ended = ran([*CARRY, old, new, "--keep", "1", "--branch", "main"])
    same("its status", (ended.status, ended.errors), (0, ""))
    lines = ended.output.splitlines()
    after = read_tables(new)[0]
    for row in lines[1 : 1 + len(after)]:
        name, kept = row.split()[:2]
        same(f"rows of {name}", int(kept.replace(",", "")), len(after[name]))
    sizes = f"{old} has {os.path.getsize(old):,} bytes, {new} {os.path.getsize(new):,}"
    same("its last line", lines[-1], sizes)
    same("its mode", os.stat(new).st_mode & 0o777, 0o600)


# What a kill leaves

CALLS = ["write", "pwrite64", "rename", "fsync", "mkdir", "rmdir", "unlink", "unlinkat", "ftruncate"]


@pytest.mark.needs("strace")
def test_killed(program: str, memory: str) -> None:
    """At each kind of call that changes a file, up to sixteen of each kind: the new file is whole or not there, the
    copy is as it was, and the next run removes what is left."""
    old, new = new_file(program, memory, "old.db"), f"{memory}/new.db"
    played(program, old, Dice("killed"), 80)
    words, before = [*CARRY, old, new, "--keep", "1"], content(memory)["old.db"]
    trace = ["strace", "-f", "-qq", "-e", f"trace={','.join(CALLS)}"]
    with tempfile.TemporaryDirectory() as room:
        same("the first run", ran([*trace, "-o", f"{room}/trace", *words]).status, 0)
        made = collections.Counter(re.findall(r"(?m)^\d+ +(\w+)\(", text_of(f"{room}/trace")))
    whole = content(memory)["new.db"]
    assert made["pwrite64"] > 20 and made["write"] > 20 and made["rename"] == 1 and made["fsync"] == 2, made
    seen: dict[str, int] = collections.Counter()
    for call, count in made.items():
        for at in sorted({1 + round(step * (count - 1) / 15) for step in range(16)}):
            os.remove(new)
            ended = ran([*trace, "-o", "/dev/null", "-e", f"inject={call}:signal=KILL:when={at}", *words])
            left = content_below(memory)
            same("the copy", left.pop("old.db") == before, True)
            same(f"the new file, killed at {call} {at}", left.pop("new.db", whole) == whole, True)
            what = "and whole" if os.path.exists(new) else "with something left" if left else "and nothing left"
            seen[what] += 1
            assert ended.status != 0 or os.path.exists(new), (call, at, ended)
            if not os.path.exists(new):
                carry.carry(old, new, 1)
            same("the next run's file", content_below(memory).get("new.db") == whole, True)
            if not left:
                same("what is left after it", sorted(os.listdir(memory)), ["new.db", "old.db"])
    print(dict(made), dict(seen))
    assert min(seen["with something left"], seen["and nothing left"] + seen["and whole"]) > 0, seen


def content_below(folder: str) -> dict[str, bytes]:
    found = {}
    for at, _, names in os.walk(folder):
        for name in names:
            found[os.path.relpath(f"{at}/{name}", folder)] = bytes_of(f"{at}/{name}")
    return found


def test_left_is_removed(old: str) -> None:
    """What a killed run left is removed, but not what one that goes on uses."""
    folder = os.path.dirname(old)
    for name in "left", "used":
        os.mkdir(f"{folder}/new.db.part.{name}")
        with open(f"{folder}/new.db.part.{name}/new.db", "wb"):
            pass
    it = os.open(f"{folder}/new.db.part.used", os.O_RDONLY)
    fcntl.flock(it, fcntl.LOCK_EX)
    carry.carry(old, f"{folder}/new.db", 1)
    os.close(it)
    same("the files", sorted(os.listdir(folder)), ["new.db", "new.db.part.used", "old.db"])
    shutil.rmtree(f"{folder}/new.db.part.used")


def test_schema(program: str, memory: str) -> None:
    """The tables of a file that this program makes are known."""
    new_file(program, memory)
    carry.carry(f"{memory}/broker.db", f"{memory}/new.db", 0)
    assert 2 in carry_rows.SCHEMAS.values()


def test_report_reads_it(old: str) -> None:
    """A second reader of the tables finds nothing wrong in what is carried."""
    new = f"{os.path.dirname(old)}/new.db"
    carry.carry(old, new, 1)
    said = subprocess.run([f"{TOP}/tools/report", new], capture_output=True, text=True, check=False)
    same("report", (said.returncode, said.stderr), (0, ""))
