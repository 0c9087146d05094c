"""What the gate took when it was last measured: ci/times.tsv.

A line has a name, a kind, the seconds that it took, the seconds of the processors, the most memory of a process in MB
(of the whole, of all that ran), how many mutants were tried (of `./build`, how many crates were proved), in how many
checks, and the date. The kinds are the `proof` of a crate, its `mutants`, and the whole, `./build` or `./test`, whose
name is the number of processors."""
import datetime, os
from collections import namedtuple

from definitions import TOP

MEASURED = f"{TOP}/ci/times.tsv"
Row = namedtuple("Row", "elapsed seconds memory count checks date", defaults=[0, 0, ""])


def measured():
    """The rows of each kind, by their names."""
    found = {"proof": {}, "mutants": {}, "./build": {}, "./test": {}}
    with open(MEASURED, encoding="utf-8") as it:
        for name, kind, *numbers, date in (row.split("\t") for row in it.read().splitlines()):
            found[kind][name] = Row(*map(int, numbers), date)
    return found


def record(rows):
    """Writes rows, each by its kind and name, in the place of those of the same."""
    known = {(kind, name): row for kind, found in measured().items() for name, row in found.items()}
    known |= {key: row._replace(date=datetime.date.today().isoformat()) for key, row in rows.items()}
    with open(f"{MEASURED}.new", "w", encoding="utf-8") as it:
        for (kind, name), row in sorted(known.items()):
            it.write("\t".join(map(str, (name, kind, *row))) + "\n")
    os.replace(f"{MEASURED}.new", MEASURED)
