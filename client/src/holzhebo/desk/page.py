"""The files of the page: those of a folder; else those that are in the one file and in the wheel, of the repository, or
of the package of Debian."""
import importlib.resources, os
from typing import Dict, Optional

from holzhebo.faults import Stop
from holzhebo.text import shown

SOURCES = os.path.dirname(os.path.abspath(__file__))
FOLDERS = os.path.normpath(os.path.join(SOURCES, *[os.pardir] * 4, "desk")), "/usr/share/holzhebo/desk"


def files_in(folder: str) -> Dict[str, bytes]:
    found = {}
    try:
        for name in sorted(os.listdir(folder)):
            if os.path.isfile(os.path.join(folder, name)):
                with open(os.path.join(folder, name), "rb") as it:
                    found[name] = it.read()
    except OSError as why:
        raise Stop(f"{shown(folder)} can't be read: {why.strerror}") from None
    if not {"index.html", "desk.json"} <= set(found):
        raise Stop(f"{shown(folder)} isn't the page: it has no index.html, or no desk.json")
    return found


def page_of(folder: Optional[str]) -> Dict[str, bytes]:
    """What the page has, by the names of its files."""
    within = importlib.resources.files("holzhebo.desk").joinpath("page")
    if folder is None and within.is_dir():
        return {it.name: it.read_bytes() for it in within.iterdir() if it.is_file()}
    found = [it for it in ([folder] if folder is not None else FOLDERS) if folder is not None or os.path.isdir(it)]
    if not found:
        raise Stop("there is no page here: give --page, the folder desk of the repository")
    return files_in(found[0])
