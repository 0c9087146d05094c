"""The faults of a pact file, in the order in which the broker looks for them: docs/LIMITS.md has them all."""
import re
from typing import Dict, List, Optional, Tuple

from holzhebo.faults import Json
from holzhebo.pact.json import NotJson, below, compact, is_whole, kind, member, numbers_not_whole, read_json, rounded
from holzhebo.pact.json import ascii_lower, too_deep
from holzhebo.pact.findings import MOST_BYTES, VERSION_3, Findings, Judge
from holzhebo.pact.rules import read_rules
from holzhebo.text import short, shown


def findings_of(content: bytes, judge: Judge) -> Findings:
    """All faults of a pact file; the first is the broker's."""
    found = Findings(judge)
    if len(content) > MOST_BYTES:
        found.fault("1", "$", f"the file has {len(content)} bytes, and at most {MOST_BYTES} are taken", SHORTER)
    try:
        file = read_json(content)
    except NotJson as why:
        found.fault("2", "$", str(why), "write JSON in UTF-8 without a byte order mark")
        return found
    read_numbers(found, file)
    if not isinstance(file, dict):
        found.shape("file", rounded(file), "a pact file is an object", "$")
        return found
    file = rounded(file)
    read_head(found, file)
    read_interactions(found, file)
    return found


SHORTER = "write shorter examples, or fewer interactions"
WAY_OUT = (
    "write a whole example with a rule `type`: a library's verifier then still takes fractions, recorded replies can't"
    " have any; or let the provider send a text, as 19.99 in quotes, or a smaller unit, as 1999 cents"
)
IN_REQUEST = "write a text, as 19.99 in quotes, or a smaller unit, as 1999 cents, if the provider takes one of these"


def read_numbers(found: Findings, file: Json) -> None:
    deep = too_deep(file)
    if deep:
        found.fault("6.2", deep[0], "it nests deeper than 100 levels", "write a flatter example")
    for path, text in numbers_not_whole(file):
        is_sent = re.match(r"\$\.interactions\[\d+\]\.(request|providerStates?)\b", path) is not None
        what = f"the number {short(text)} isn't whole, or isn't from -2^63 to 2^64 - 1"
        found.fault("6.1", path, what, IN_REQUEST if is_sent else WAY_OUT)


def read_head(found: Findings, file: Json) -> None:
    """The version, the messages, and the two sides."""
    for key in "pactSpecification", "pact-specification":
        version = member(member(member(file, "metadata"), key), "version")
        if isinstance(version, str) or is_whole(version):
            if str(version) != "3" and not (isinstance(version, str) and version.startswith("3.")):
                found.fault("4", f"{below('$.metadata', key)}.version", f"the version is {shown(version)}", VERSION_3)
            break
    if file.get("messages") not in (None, []):
        found.fault("5", "$.messages", "the file has messages", "publish contracts of HTTP only; take the messages out")
    names = [read_side(found, file, side) for side in ("consumer", "provider")]
    if names[0] is not None and names[0] == names[1]:
        found.fault("10", "$.provider.name", f"both sides are {shown(names[0])}", "give each side its own name")


def is_name(text: str) -> bool:
    return 1 <= len(text.encode()) <= 100 and not re.search(r"[\x00-\x1f\x7f]", text)


def read_side(found: Findings, file: Json, side: str) -> Optional[str]:
    if not isinstance(file.get(side), dict):
        found.shape(side, file.get(side), 'write {"name":"..."}')
        return None
    name = file[side].get("name")
    if isinstance(name, str) and is_name(name):
        return name
    found.shape(f"{side}.name", name, "write a text of 1 to 100 bytes without control characters")
    return None


def read_interactions(found: Findings, file: Json) -> None:
    items = file.get("interactions")
    if not isinstance(items, list):
        found.shape("interactions", items, "write a list of interactions")
        return
    if len(items) > 512:
        found.fault("9", "$.interactions", f"there are {len(items)}, and at most 512 are taken", "take some out")
    for index, it in enumerate(items):
        read_interaction(found, index, it)
    if not [it for it in found.faults if it.line.startswith("pact 3")]:
        read_twins(found, file, [normal_interaction(it) for it in items])


def read_interaction(found: Findings, index: int, it: Json) -> None:
    place = f"interactions[{index}]"
    if not isinstance(it, dict):
        found.shape(place, it, "an interaction is an object")
        return
    if not isinstance(it.get("description"), str):
        found.shape(f"{place}.description", it.get("description"), "write a text")
    if states_of(it) is None:
        found.shape(f"{place}.providerStates", it.get("providerStates") or it.get("providerState"), STATES)
    for part in "request", "response":
        if not isinstance(it.get(part), dict):
            found.shape(f"{place}.{part}", it.get(part), "write an object")
    if isinstance(it.get("response"), dict):
        read_response(found, index, it["response"])


STATES = 'write a list of objects with a name, as [{"name":"a user exists"}]; the older providerState is a text'


def states_of(it: Json) -> Optional[List[Json]]:
    """The provider states in their normal form, if they are such."""
    states, older = it.get("providerStates"), it.get("providerState")
    if states is None:
        states = [] if older is None else [{"name": older}]
    if not isinstance(states, list) or not all(isinstance(member(state, "name"), str) for state in states):
        return None
    return [{key: state[key] for key in ("name", "params") if state.get(key) is not None} for state in states]


def read_response(found: Findings, index: int, response: Json) -> None:
    path, place = f"$.interactions[{index}].response", f"interactions[{index}]"
    status = response.get("status")
    if status is not None and not (is_whole(status) and 100 <= status <= 999):
        found.shape(f"{place}.status", status, "write a number from 100 to 999", f"{path}.status")
    wrong = wrong_header(response.get("headers"))
    if wrong is not None:
        found.fault(f"3 {place}.headers", f"{path}.headers", wrong, "write each name once, with a text or a list")
    if response.get("matchingRules") is not None:
        read_rules(found, index, f"{path}.matchingRules", response["matchingRules"])
        read_idle_rules(found, path, response)


def is_header_value(value: Json) -> bool:
    return all(isinstance(it, str) for it in (value if isinstance(value, list) else [value]))


def wrong_header(headers: Json) -> Optional[str]:
    if not isinstance(headers, dict):
        return None if headers is None else f"it is {kind(headers)}"
    names: Dict[str, str] = {}
    for name, value in sorted(headers.items()):
        if not is_header_value(value):
            return f"the value of {shown(name)} is {kind(value)}"
        if ascii_lower(name) in names:
            return f"{shown(names[ascii_lower(name)])} and {shown(name)} are one name"
        names[ascii_lower(name)] = name
    return None


def normal_interaction(it: Json) -> Json:
    parts = {key: it[key] for key in ("description", "request", "response")}
    return {**parts, "providerStates": states_of(it)}


def key_of(interaction: Json) -> Tuple[str, str]:
    """The description and the states of an interaction in its normal form."""
    return interaction["description"], compact(interaction["providerStates"])


def read_twins(found: Findings, file: Json, interactions: List[Json]) -> None:
    """Interactions of one key that differ; and whether the normal text is too long."""
    first: Dict[Tuple[str, str], int] = {}
    for index, it in enumerate(interactions):
        other = first.setdefault(key_of(it), index)
        if compact(interactions[other]) != compact(it):
            what = f"it differs from interactions[{other}], which has the same description and states"
            found.fault("8", f"$.interactions[{index}]", what, "give each its own description, or another state")
    if not found.faults:
        sides = {side: {"name": file[side]["name"]} for side in ("consumer", "provider")}
        kept = [interactions[index] for index in first.values()]
        length = len(compact({**sides, "interactions": kept}).encode())
        if length > MOST_BYTES:
            found.fault("1", "$", f"its normal text has {length} bytes, and at most {MOST_BYTES} are taken", SHORTER)


def read_idle_rules(found: Findings, path: str, response: Json) -> None:
    """Rules of places in a body that is a text, as XML is: a text has no members."""
    rules = member(response["matchingRules"], "body")
    if isinstance(response.get("body"), str) and isinstance(rules, dict):
        for it in sorted(key for key in rules if key != "$"):
            where = below(f"{path}.matchingRules.body", it)
            found.idle.append((where, "the body is a text, which has no such place; it is no fault"))
