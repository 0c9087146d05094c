"""The pages of docs/, whose lines tests run as they stand there."""
import re
from tests.process import text_of


def section(page: str, name: str) -> str:
    """The text of a section of a page; nothing if the page has none of this name."""
    found = re.search(rf"(?ms)^## {name}\n(.*?)(?=^## |\Z)", text_of(f"docs/{page}"))
    return found[1] if found else ""
