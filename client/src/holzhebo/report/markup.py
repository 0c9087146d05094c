"""Text of the page: a name is text, whatever is in it."""
import html, re, unicodedata
from typing import Iterable, Sequence

# How many lines a list has at most; what is left out is counted.
MOST = 300


class Markup(str):
    """Text that is markup already."""


def visible(text: str) -> str:
    """The text, with each character that can't be seen written by its number."""
    hidden = {it for it in text if it != " " and unicodedata.category(it)[0] in "CZ"}
    return "".join(f"[U+{ord(it):04X}]" if it in hidden else it for it in text)


def element(name: str, *parts: str, **attributes: str) -> Markup:
    """An element; a part that isn't markup is text."""
    fields = "".join(f' {key.rstrip("_").replace("_", "-")}="{html.escape(it)}"' for key, it in attributes.items())
    inner = "".join(it if isinstance(it, Markup) else html.escape(visible(it)) for it in parts)
    return Markup(f"<{name}{fields}>{inner}</{name}>")


def joined(parts: Iterable[str], between: str = "") -> Markup:
    return Markup(between.join(it if isinstance(it, Markup) else html.escape(visible(it)) for it in parts))


def named(name: str) -> Markup:
    """A name, apart from the text around it, so that its direction changes nothing else."""
    return element("bdi", name)


def sentence(pattern: str, **parts: str) -> Markup:
    """The pattern, with a name or markup in each place `{key}`."""
    cut = re.split(r"\{(\w+)\}", pattern)
    values = {key: it if isinstance(it, Markup) else named(it) for key, it in parts.items()}
    return joined(values[it] if at % 2 else it for at, it in enumerate(cut))


def table(caption: str, heads: Sequence[str], rows: Sequence[Sequence[str]], nothing: str) -> Markup:
    """A table with these heads, or what is said if it has no rows. One that is too wide is scrolled, also by keyboard."""
    if not rows:
        return element("p", nothing)
    head = element("tr", *(element("th", it, scope="col") for it in heads))
    body = [element("tr", element("th", row[0], scope="row"), *(element("td", it) for it in row[1:])) for row in rows]
    parts = element("caption", caption), element("thead", head), element("tbody", *body)
    return element("div", element("table", *parts), class_="wide", tabindex="0", role="region", aria_label=caption)


def listed(lines: Sequence[str], nothing: str) -> Markup:
    """A list of these lines, or of the first of them."""
    more = [element("li", f"and {len(lines) - MOST:,} more")] if len(lines) > MOST else []
    return element("ul", *(element("li", it) for it in lines[:MOST]), *more) if lines else element("p", nothing)
