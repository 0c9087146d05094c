#!/usr/bin/env python3
"""Measures a file with many builds whose contracts don't change, and prints a row for docs/LIMITS.md.

    bench/shared.py PROGRAM [N ..] [--pairs P]     PROGRAM is the path of `broker`; N are numbers of results: 100000 if
                                                   none is given

For each N it makes files by SQL: P consumers and P providers (400 if not given), each consumer with ten contracts over
time; N builds of a consumer with one of these, N builds of its provider, and a result of each of these: in one file by
a run each, in another without runs. Measured are the file, without sums; one opening, by `can-i-deploy`, in seconds and
in seconds of a processor, and its memory; and then the requests of bench/capacity.py, whose results have no run. TMPDIR
is the folder of the file."""
import argparse, hashlib, os, sqlite3, subprocess, sys, tempfile, time

sys.dont_write_bytecode = True
WORDS = argparse.ArgumentParser(allow_abbrev=False)
WORDS.add_argument("program")
WORDS.add_argument("sizes", type=int, nargs="*", default=[100000])
WORDS.add_argument("--pairs", type=int, default=400)
GIVEN = WORDS.parse_args()
# What follows the program is no word of bench/capacity.py.
del sys.argv[2:]
from capacity import MARK, OFFICE, PROGRAM, TEAM, kinds, normal_text, requests, without_sums

CONTENTS = 10
# What stands in the column of a run: a run, or what stands for none in the row of the result i + 1.
RUNS = {"each": "'run' || i", "none": "char(9) || (i + 1)"}
BUILDS = """
CREATE TEMP TABLE n AS WITH RECURSIVE c(i) AS (SELECT 0 UNION ALL SELECT i + 1 FROM c WHERE i + 1 < {count})
    SELECT i, i % {pairs} AS pair, 1 + i % {pairs} * {contents} + i * {contents} / {count} AS content FROM c;
INSERT INTO versions SELECT 2 * i + 1, printf('consumer%010d', pair), i FROM n;
INSERT INTO versions SELECT 2 * i + 2, printf('provider%010d', pair), i FROM n;
INSERT INTO contracts SELECT 2 * i + 1, printf('provider%010d', pair), content FROM n;
INSERT INTO results SELECT i + 1, content, printf('provider%010d', pair), 2 * i + 2, 1, {run} FROM n;
INSERT INTO latest SELECT content, 2 * i + 2, i + 1 FROM n;
INSERT INTO deployed VALUES ('live', 'provider0000000000', '', 2);
"""


def fill(file, count, run):
    """Makes a broker's file of so many results, each with this run."""
    subprocess.run([PROGRAM, "init", "--file", file, "--office-token", OFFICE], check=True)
    without_sums(file)
    base, template = sqlite3.connect(file), normal_text()
    base.execute("INSERT INTO teams VALUES ('red', ?)", [hashlib.sha256(TEAM.encode()).hexdigest()])
    base.execute("INSERT INTO environments VALUES ('live', 1)")
    base.execute("INSERT INTO grants VALUES ('red', 'live')")
    for pair in range(GIVEN.pairs):
        consumer, provider = f"consumer{pair:010}", f"provider{pair:010}"
        base.execute("INSERT INTO pacticipants VALUES (?, 'red'), (?, 'red')", [consumer, provider])
        named = template.replace(f"consumer{MARK}", consumer).replace(f"provider{MARK}", provider)
        for number in range(1 + pair * CONTENTS, 1 + (pair + 1) * CONTENTS):
            body = named.replace(MARK, f"{number:010}")
            digest = hashlib.sha256(body.encode()).hexdigest()
            base.execute("INSERT INTO contents VALUES (?, ?, ?)", [number, digest, body])
    base.executescript(BUILDS.format(count=count, pairs=GIVEN.pairs, contents=CONTENTS, run=run))
    base.commit()
    base.close()


def opening(file):
    """Seconds, seconds of a processor, and megabytes of a can-i-deploy over the file."""
    words = ["can-i-deploy", "--file", file, "--token", TEAM, "--pacticipant", "consumer0000000000", "--version", "0"]
    began = time.monotonic()
    it = subprocess.Popen([PROGRAM, *words, "--to-environment", "live"], stdout=subprocess.DEVNULL)
    _, status, used = os.wait4(it.pid, 0)
    it.returncode = os.waitstatus_to_exitcode(status)
    if it.returncode:
        sys.exit(f"can-i-deploy ends with {it.returncode}")
    return time.monotonic() - began, used.ru_utime + used.ru_stime, used.ru_maxrss / 1000


def row(file, count, name):
    """Prints the row of a file of so many results."""
    fill(file, count, RUNS[name])
    cells = [f"{count:,}", name, f"{os.path.getsize(file) / 1e6:.1f}"]
    seconds, processor, most = opening(file)
    cells += [f"{seconds:.2f}", f"{processor:.2f}", f"{most:.0f}"]
    took, serving = requests(file, count)
    cells += [f"{serving:.0f}", *(f"{it:.2f}" for it in took.values())]
    print("| " + " | ".join(cells) + " |", flush=True)


def main():
    columns = ["results", "runs", "the file, MB", "opening, s", "of a processor, s", "its memory, MB", "memory of `serve`, MB"]
    print("| " + " | ".join(columns + [f"{it}, ms" for it in kinds(0)]) + " |")
    print("|---:|---|" + "---:|" * (len(columns) - 2 + len(kinds(0))))
    for count in GIVEN.sizes:
        for name in RUNS:
            with tempfile.TemporaryDirectory() as folder:
                row(f"{folder}/broker.db", count, name)


main()
