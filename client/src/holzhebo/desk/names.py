"""The page's desk.json: which environments it shows, and whom to call for a service."""
from holzhebo.faults import Json
from holzhebo.pact.json import NotJson, member, read_json


def named_in(path: str, key: str) -> Json:
    """What this file has by a key; None if it can't be read, or has nothing by it."""
    try:
        with open(path, "rb") as it:
            return member(read_json(it.read()), key)
    except (OSError, NotJson):
        return None
