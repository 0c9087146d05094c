"""The rule of the kit: it is used by the commands that `rt help` documents, and by nothing else. No script loads a file
as a module by its path, as one would load the kit's own scripts, looks where the kit is, or names a file of it. What
the commands may be is held by ci/documented/rt, which is first on PATH while the gate runs."""
import os, re

from definitions import TOP, text_of

LOADS = re.compile(
    r"SourceFileLoader|spec_from_(?:file_location|loader)|runpy|which\(\W*rt\W*\)|\bcommand -v rt\b|\brtlib\b|\brt_gate\b"
    r"|/opt/rattle|bin/rattle\b|out/(?:rlib|incremental)\b"
)
# This file; what passes a command on to the kit; who gives a kit to a machine of its own; and what was once so.
EXCEPT = {"ci/rules/kit.py", "ci/documented/rt", "ci/fresh", "CHANGELOG.md"}
ELSEWHERE = {"out", "crates", "wrong-bodies", "wrong-definitions"}


def files():
    """The repository's own text files, but for crates and edits."""
    for at, folders, names in os.walk(TOP):
        folders[:] = [it for it in folders if it not in ELSEWHERE and (it[0] not in "._" or it == ".ci")]
        yield from (f"{at}/{it}" for it in names if not it.endswith((".png", ".svg")))


def faults(product, checks):
    for path in sorted(files()):
        name = os.path.relpath(path, TOP)
        for at, row in enumerate(text_of(path).split("\n") if name not in EXCEPT else [], 1):
            if found := LOADS.search(row):
                yield f"{name}:{at}: {found[0]}: use the kit by what rt help documents"
