"""Recorded replies beside a contract, without a broker: what `broker check` says of them, and what differs."""
from typing import Dict, List, Tuple

from holzhebo.faults import Json, Stop
from holzhebo.pact.faults import findings_of, key_of, normal_interaction, wrong_header
from holzhebo.pact.json import NotJson, is_whole, member, numbers_not_whole, read_json, too_deep
from holzhebo.pact.rules import is_surely_refused
from holzhebo.text import short, shown

Key = Tuple[str, str]


def contract_in(content: bytes, path: str) -> List[Json]:
    """The interactions of a pact file, in their normal form; of those with one key one."""
    found = findings_of(content, is_surely_refused)
    if found.faults:
        raise Stop(f"{shown(path)} is no contract: {found.faults[0].line}; holzhebo explain has more")
    interactions: Dict[Key, Json] = {}
    for it in read_json(content)["interactions"]:
        one = normal_interaction(it)
        interactions.setdefault(key_of(one), one)
    return list(interactions.values())


def replies_in(content: bytes, path: str) -> Dict[Key, Json]:
    """The recorded responses of a file, by description and states."""
    try:
        file = read_json(content)
    except NotJson as why:
        raise Stop(f"{shown(path)} has no replies: {why}") from None
    items = member(file, "replies")
    if not isinstance(items, list):
        raise Stop(f"{shown(path)} has no list of replies")
    for fault in untaken_in(file):
        raise Stop(f"{shown(path)}: {fault}")
    found: Dict[Key, Json] = {}
    for at, it in enumerate(items):
        response = member(it, "response")
        if not isinstance(member(it, "description"), str) or not is_response(response):
            raise Stop(f"{shown(path)}: replies[{at}] is no reply")
        try:
            key = key_of(normal_interaction({"request": {}, **it}))
        except (TypeError, KeyError):
            raise Stop(f"{shown(path)}: replies[{at}] is no reply") from None
        if key in found:
            raise Stop(f"{shown(path)} has two replies of one description and one list of states")
        found[key] = response
    return found


def untaken_in(file: Json) -> List[str]:
    """What the broker takes nowhere in replies: numbers that aren't whole, and what nests too deep."""
    numbers = numbers_not_whole(file)
    found = [f"the number {short(it)} at {where} isn't whole, or isn't from -2^63 to 2^64 - 1" for where, it in numbers]
    return found + [f"it nests deeper than 100 levels at {where}" for where in too_deep(file)]


def is_response(response: Json) -> bool:
    status = member(response, "status")
    return is_whole(status) and 100 <= status <= 999 and wrong_header(member(response, "headers")) is None


def paired(interactions: List[Json], replies: Dict[Key, Json]) -> List[Tuple[Json, Json]]:
    """Each interaction with its reply, None if there is none; a reply that belongs to none of them is refused."""
    keys = {key_of(it) for it in interactions}
    if any(key not in keys for key in replies):
        raise Stop("a reply belongs to no interaction of the contract")
    return [(it, replies.get(key_of(it))) for it in interactions]
