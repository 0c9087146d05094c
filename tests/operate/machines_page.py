"""The lines of docs/CLUSTER.md that are pasted on the machines."""
import re, textwrap
from typing import NamedTuple
from tests.operate.pages import section
from tests.wire import same

PAGE = "CLUSTER.md"
# What the page installs of Debian is there already, unless the machines are fresh.
FETCHES = re.compile(r"(?m)^apt-get .*\n")


class Step(NamedTuple):
    """A block of lines of the page, and whether it is for each machine."""

    is_for_each: bool
    text: str


def steps() -> list[Step]:
    """The blocks of the section Installing, in their order; the last one is for who asks."""
    found = re.findall(r"(?ms)^\d\. (.*?)^   ```\n(.*?)^   ```$", section(PAGE, "Installing"))
    same("blocks of Installing", len(found), 6)
    return [Step("**each machine**" in words, textwrap.dedent(it)) for words, it in found]


def copying() -> str:
    """The lines by which the page makes a copy."""
    found: list[str] = re.findall(r"(?ms)^```\n(.*?)^```$", section(PAGE, "Backup and restore"))
    same("blocks of Backup and restore", len(found), 1)
    return found[0]
