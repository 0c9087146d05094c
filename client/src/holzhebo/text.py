"""What is printed: text for a terminal, tables, notes."""
import sys
from typing import Sequence


def shown(text: object) -> str:
    """The text for a terminal: what isn't printable, or would turn the direction of a line, is written as an escape."""
    return "".join(it if it.isprintable() else f"\\u{{{ord(it):x}}}" for it in str(text))


def short(text: object, most: int = 60) -> str:
    whole = shown(str(text)[: most + 1])
    return whole if len(whole) <= most else whole[: most - 3] + "..."


def reason(why: BaseException) -> str:
    """Why something can't be done, as the system says it."""
    return short(getattr(why, "strerror", None) or str(why) or type(why).__name__, 100)


def tell(text: str = "") -> None:
    """Prints lines in one write, so that a reader that ends early never meets half of them."""
    sys.stdout.write(text + "\n")
    sys.stdout.flush()


def note(text: str) -> None:
    print(f"holzhebo: {text}", file=sys.stderr, flush=True)


def table(rows: Sequence[Sequence[str]], indent: str = "") -> str:
    """Rows, whose columns are as wide as their widest text."""
    widths = [max(len(row[at]) for row in rows) for at in range(len(rows[0]))] if rows else []
    lines = ["  ".join(it.ljust(width) for it, width in zip(row, widths)).rstrip() for row in rows]
    return "\n".join(indent + it for it in lines)


def tell_table(rows: Sequence[Sequence[str]], indent: str = "") -> None:
    """Prints a table."""
    if rows:
        tell(table(rows, indent))


def listed(names: Sequence[str]) -> str:
    return ", ".join(shown(it) for it in names)


def counted(count: int, what: str) -> str:
    return f"{count} {what}{'' if count == 1 else 's'}"
