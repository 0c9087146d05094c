"""Makes a smaller file of a broker from a copy of its file: what is in an environment, the newest versions, and what
these need. Nothing is changed in the copy; the new file is whole, or not there. It needs SQLite 3.37."""
import contextlib, fcntl, glob, os, shutil, sqlite3, tempfile
from typing import Iterator, List, Sequence
from urllib.parse import quote

from holzhebo.carry_pages import Refused, empty_page, seal, sync_folder, test_copy
from holzhebo.carry_rows import Rows, copy_rows, lines_of


@contextlib.contextmanager
def unfinished(new: str) -> Iterator[str]:
    """A folder beside the new file that only this process uses. Those of processes that were killed are removed."""
    for left in glob.glob(f"{glob.escape(new)}.part.*"):
        with contextlib.suppress(OSError), locked(left):
            shutil.rmtree(left)
    folder = tempfile.mkdtemp(prefix=f"{os.path.basename(new)}.part.", dir=os.path.dirname(os.path.abspath(new)))
    try:
        with locked(folder):
            yield folder
    finally:
        shutil.rmtree(folder, ignore_errors=True)


@contextlib.contextmanager
def locked(folder: str) -> Iterator[None]:
    it = os.open(folder, os.O_RDONLY | os.O_DIRECTORY)
    try:
        fcntl.flock(it, fcntl.LOCK_EX | fcntl.LOCK_NB)
        yield
    finally:
        os.close(it)


def make(part: str, copy: str, new: str, keep: int, branches: Sequence[str]) -> Rows:
    """Makes the new file at `part`, with its sums, and synced."""
    written = test_copy(copy)
    with open(os.open(part, os.O_WRONLY | os.O_CREAT | os.O_EXCL, 0o600), "wb") as it:
        it.write(empty_page())
    db = sqlite3.connect(f"file:{quote(part)}?mode=rw", uri=True, isolation_level=None)
    with contextlib.closing(db):
        db.execute("ATTACH ? AS old", (f"file:{quote(os.path.abspath(copy))}?mode=ro&immutable=1",))
        db.executescript("PRAGMA main.journal_mode = OFF; PRAGMA main.synchronous = OFF; PRAGMA temp_store = 2; BEGIN")
        rows = copy_rows(db, (copy, new), keep, branches)
    seal(part, written)
    return rows


def carry(copy: str, new: str, keep: int, branches: Sequence[str] = ()) -> List[str]:
    """Makes the new file, and gives the lines that say what is in it."""
    if os.path.lexists(new):
        raise Refused(f"{new} is there already")
    seen = os.stat(copy)
    with unfinished(new) as folder:
        part = f"{folder}/new.db"
        rows = make(part, copy, new, keep, branches)
        now = os.stat(copy)
        if (seen.st_mtime_ns, seen.st_size) != (now.st_mtime_ns, now.st_size) or os.path.lexists(new):
            raise Refused(f"{copy} was changed meanwhile, or {new} made")
        os.rename(part, new)
        sync_folder(new)
    return [*lines_of(rows), f"{copy} has {now.st_size:,} bytes, {new} {os.path.getsize(new):,}"]
