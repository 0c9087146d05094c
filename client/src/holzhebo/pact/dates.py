"""What to write in the place of a rule for a date or a time: a pattern of the same format."""
import re
from typing import Optional

from holzhebo.faults import Json
from holzhebo.pact.json import member

DATES = ("date", "time", "timestamp", "datetime")
USUAL = "yyyy-MM-dd"
CALLS = "`regex` in pact-js, `stringMatcher` in pact-jvm, in the place of the call for a date or a time"
ZONE = {1: r"(Z|[+-]\d{2})", 2: r"(Z|[+-]\d{4})", 3: r"(Z|[+-]\d{2}:\d{2})"}
PIECE = re.compile(r"'((?:[^']|'')*)'|([A-Za-z])\2*|[^A-Za-z']")


def piece_of(letters: str) -> Optional[str]:
    """The pattern of a run of one letter, as SimpleDateFormat of Java means it; None for names of months and such."""
    letter, count = letters[0], len(letters)
    if letter == "X" and count in ZONE:
        return ZONE[count]
    if letter == "Z":
        return r"[+-]\d{4}"
    if letter == "y":
        return r"\d{2}" if count == 2 else r"\d{4,}" if count == 1 else f"\\d{{{count}}}"
    if letter == "S" or letter in "MdHhms" and count == 2:
        return f"\\d{{{count}}}"
    return r"\d{1,2}" if letter in "MdHhms" and count == 1 else None


def pattern_of(text: str) -> Optional[str]:
    """The pattern of the texts of a format, as `yyyy-MM-dd'T'HH:mm:ssXXX`; None if it has what no pattern here
    means."""
    found, at = "", 0
    while at < len(text):
        it = PIECE.match(text, at)
        if it is None:
            return None
        if it[1] is not None:
            found += re.escape(it[1].replace("''", "'") or "'")
        else:
            piece = piece_of(it[0]) if it[2] else re.escape(it[0])
            if piece is None:
                return None
            found += piece
        at = it.end()
    return f"^{found}$".replace(r"\-", "-").replace(r"\:", ":").replace(r"\ ", " ")


def instead_of_date(matcher: Json) -> str:
    given = member(matcher, str(member(matcher, "match"))) or member(matcher, "format") or USUAL
    pattern = pattern_of(given) if isinstance(given, str) else None
    if pattern is None:
        return f"write a regex for this format: {CALLS}"
    escaped = pattern.replace("\\", "\\\\").replace('"', '\\"')
    return f'write a regex, as {{"match":"regex","regex":"{escaped}"}}: {CALLS}'
