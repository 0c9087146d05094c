"""Who put what where, as files beside the page, which shows it: docs/DESK.md."""
import os
from typing import Dict, Iterable, List
from urllib.parse import quote

from holzhebo.desk.names import named_in
from holzhebo.faults import DONE, UNDONE, Stop
from holzhebo.files import replace_file
from holzhebo.pact.json import compact
from holzhebo.proxy.log import Logged, change_of
from holzhebo.text import note, shown

# What encodeURIComponent leaves as it is, beside letters, digits and what `quote` leaves.
KEPT = "!'()*"


def environments_of(folder: str) -> List[str]:
    """The environments of the page's desk.json."""
    path = os.path.join(folder, "desk.json")
    names = named_in(path, "environments")
    if not isinstance(names, list) or not all(isinstance(it, str) for it in names):
        raise Stop(f"{shown(path)} can't be read, or names no environments")
    return names


def name_of(environment: str) -> str:
    """The name of an environment's file, in which it is as JavaScript writes it into an address."""
    return f"who-{quote(environment, safe=KEPT)}.json"


def write_who(folder: str, requests: Iterable[Logged]) -> int:
    """Puts a file for each environment in the place of the one that is there; one that can't be written is said."""
    found: Dict[str, List[Dict[str, str]]] = {it: [] for it in environments_of(folder)}
    for it in requests:
        if it.status != 200 or it.method != "POST" or not it.path.startswith("/environments/"):
            continue
        for name, changes in found.items():
            told = change_of(it, name)
            if "version" in told:
                changes.append(told)
    status = DONE
    for name, changes in found.items():
        try:
            replace_file(os.path.join(folder, name_of(name)), f"{compact(changes)}\n".encode())
        except Stop as why:
            note(str(why))
            status = UNDONE
    return status
