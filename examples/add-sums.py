#!/usr/bin/env python3
"""Makes a copy with page sums of a stopped broker's file that has none, as files of an earlier program have none.

    add-sums.py FILE NEW     FILE stays as it is; NEW is made, with the same rows, whole or not at all

Needs sqlite3 (the Debian package), which copies the rows into pages that keep eight bytes free. This script then writes
into each page its sum, as SQLite's extension cksumvfs computes it. Stop the service first, make a backup, and serve NEW
in the place of FILE only when `broker can-i-deploy` over it answers as over FILE. Ends with 1 and without NEW if
something is wrong; if it is killed, NEW.part may be left, which the next run removes. One at a time works in a folder,
and the others wait."""
import contextlib, fcntl, os, struct, subprocess, sys

PAGE, RESERVED, SUM = 4096, 20, 8
# Ended by its first fault, and without ~/.sqliterc of who calls it, which may change what it prints.
ALONE = ["-batch", "-init", "/dev/null", "-bail"]


def sqlite3(file, *words):
    """What sqlite3 prints for these lines over the file."""
    done = subprocess.run(["sqlite3", *ALONE, file, *words], capture_output=True, text=True, check=False)
    if done.returncode or done.stderr:
        sys.exit(f"sqlite3 over {file}: {done.stderr.strip()}")
    return done.stdout


def rows(file):
    """Every row of every table, in the order of its columns."""
    tables = sqlite3(file, "SELECT name FROM sqlite_schema WHERE type = 'table' ORDER BY name").split()
    return [sorted(sqlite3(file, ".mode quote", f"SELECT * FROM {it}").split("\n")) for it in tables]


def checksum(page):
    """The sum of a page's bytes but for the last eight."""
    first = second = 0
    for one, two in struct.iter_unpack("<2I", page):
        first = first + one + second & 0xFFFFFFFF
        second = second + two + first & 0xFFFFFFFF
    return struct.pack("<2I", first, second)


def make(old, new):
    """Makes the copy, and syncs it."""
    sqlite3(old, f".filectrl reserve_bytes {SUM}", "VACUUM INTO '%s'" % new.replace("'", "''"))
    if rows(new) != rows(old):
        sys.exit(f"{new} has other rows than {old}")
    with open(new, "r+b") as it:
        if it.read(RESERVED + 1)[RESERVED] != SUM:
            sys.exit("this sqlite3 leaves no room for the sums")
        it.seek(0)
        while page := it.read(PAGE):
            it.seek(-SUM, os.SEEK_CUR)
            it.write(checksum(page[:-SUM]))
        it.flush()
        os.fsync(it.fileno())


def wait_for_others(folder):
    """The lock of the folder, as the scripts beside this one have it while they work there; until this one ends."""
    with contextlib.suppress(OSError):
        fcntl.flock(os.open(folder, os.O_RDONLY), fcntl.LOCK_EX)


def main():
    if len(sys.argv) != 3:
        sys.exit("usage: add-sums.py FILE NEW")
    old, new = map(os.path.abspath, sys.argv[1:])
    wait_for_others(os.path.dirname(new))
    if not os.path.isfile(old) or os.path.exists(new):
        sys.exit(f"{old} isn't there, or {new} is there already")
    os.umask(0o077)
    part = f"{new}.part"
    try:
        with contextlib.suppress(FileNotFoundError):
            os.remove(part)
        make(old, part)
        os.rename(part, new)
    except OSError as why:
        sys.exit(f"{new} can't be made: {why.strerror}")
    finally:
        with contextlib.suppress(OSError):
            os.remove(part)
    print(f"{new} holds the rows of {old}, with sums")


main()
