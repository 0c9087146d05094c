"""Names that documents cite: `NAME` in `path`, of a path below crates/. The file declares the name, once, or once
outside all else; or it is named with what it belongs to, as `Name::new` and `Opened.room`."""
import re

from definitions import TOP, text_of
from sources import bald

CITED = re.compile(r"`([^`\s]+)`\s+in\s+`(\w+/(?:src|specs|proofs)/[\w/]+\.(?:rt|antt))`")
KEYWORD = r"(?:pub|abbrev|unfoldable|opaque|record|data|ghost|const|fn|struct|enum|trait|mod|type|ensures|requires)"
COMMENT = r"\s*(?://|--)"
# The first line of what has parts, with its name; what implements a trait has that of its type.
PARTS = r"(?:impl (?:.* for )?|(?:record|data|fn|struct|enum|trait|mod) )"
HEAD = re.compile(rf"\s*(?:pub(?:\(\w+\))? )?(?:const )?{PARTS}\s*([\w'-]+)")


def declared(name, rows):
    """The lines that declare the name, from 1; or if none does, those that hold it."""
    word = rf"(?<![\w'-]){re.escape(name)}(?![\w'-])"
    found = [n for n, row in enumerate(rows, 1) if re.search(rf"(?:^|\s){KEYWORD} {word}|^\s*{word}\s*:(?!:)", row)]
    return found or [n for n, row in enumerate(rows, 1) if re.search(word, row) and not re.match(COMMENT, row)]


def indent(row):
    return len(row) - len(row.lstrip())


def owner_of(line, rows):
    """What this line is a part of: the last thing before it that is set in less and has parts."""
    own = indent(rows[line - 1])
    heads = (HEAD.match(bald(it)) for it in reversed(rows[: line - 1]) if indent(it) < own)
    return next((it[1] for it in heads if it), None)


def line_of(name, path):
    """The line that declares the name in this file below crates/; or none, and what is wrong."""
    *owners, last = re.split(r"::|\.", name)
    rows = text_of(f"{TOP}/crates/{path}").split("\n")
    every = found = declared(last, rows)
    if len(found) > 1 and "::" in name:
        found = [it for it in found if f"fn {last}" in rows[it - 1]] or found
    if len(found) > 1:
        found = [it for it in found if owner_of(it, rows) == (owners[-1] if owners else None)]
    if len(found) == 1:
        return found[0], None
    return None, f"its lines {', '.join(map(str, every))} have the name" if every else "it doesn't declare the name"
