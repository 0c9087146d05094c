"""What an answer other than the wanted one says, in a sentence."""
from typing import Dict, List, Optional

from holzhebo.api.http import Answer
from holzhebo.api.policy import GATEWAY
from holzhebo.faults import Json
from holzhebo.text import shown

Names = Dict[str, List[str]]  # what a request names, by what the broker calls it

RULES = {
    "A1": "the broker doesn't know this token",
    "A2": "only the office may do this",
    "A3": "only the team that owns the consumer may name its versions and publish its contracts",
    "A4": "only the team that owns the provider may send results for it",
    "A5": "only the teams of the two sides, and the office, may read a contract",
    "A6": "only the team that owns the pacticipant, and the office, may ask this",
    "A7": "only the team that owns the pacticipant, with a grant for the environment, may do this",
}
TAKEN = {
    "other content": "this version has another contract with the provider: publish it by a new version",
    "run": "this run sent another result for it before: give a rerun another --run",
    "token": "another team has this token: give each its own",
}
OTHER_VALUES = {
    "team": "the team has another token",
    "pacticipant": "another team owns it",
    "environment": "it was made with other marks, which can't be changed",
}
UNKNOWN = {
    "deployed": "this version isn't deployed there in this instance",
    "released": "this version isn't released there",
    "contract": "there is no such contract",
}


NOT_KNOWN = "; whether it took the request is not known"
# Of replies that weren't judged: a pattern of the contract, or what it is looked for in, is too large.
PATTERN = "too much work for patterns"


def member(value: Json, key: str) -> Json:
    return value.get(key) if isinstance(value, dict) else None


def unknown_of(what: object, names: Names) -> str:
    """What the broker doesn't know, by its name as far as that is clear."""
    if isinstance(what, str) and what in UNKNOWN:
        return UNKNOWN[what]
    found = list(dict.fromkeys(names.get(str(what), [])))
    if not found:
        return f"the broker doesn't know this {shown(what)}"
    return f"the broker doesn't know the {shown(what)} {' or '.join(shown(it) for it in found)}"


def taken_of(what: object, names: Names) -> str:
    if isinstance(what, str) and what in TAKEN:
        return TAKEN[what]
    for key, why in OTHER_VALUES.items():
        if what == "name" and names.get("made") == [key]:
            return f"the name {shown(names[key][0])} is taken: {why}"
    return f"the {shown(what)} is taken"


def sentence_of(answer: Answer, names: Optional[Names] = None) -> str:
    said = answer.json()
    word = member(said, "answer")
    if word == "denied":
        rule = said.get("rule")
        return RULES.get(rule, "") if isinstance(rule, str) and rule in RULES else f"denied by rule {shown(rule)}"
    if word == "unknown":
        return unknown_of(said.get("what"), names or {})
    if word == "taken":
        return taken_of(said.get("what"), names or {})
    if word == "pattern":
        return PATTERN
    if word == "bad form":
        return f"the broker refuses the form: {shown(said.get('fault'))}"
    if 300 <= answer.status < 400:
        return f"the address redirects to {shown(answer.headers.get('location'))}: give that one"
    if answer.status == 429:
        return f"the proxy before the broker gets too many requests from here{NOT_KNOWN if answer.is_open else ''}"
    if isinstance(word, str):
        return f"the broker answers {answer.status}: {shown(word)}"
    return f"the broker answers {answer.status}{NOT_KNOWN if answer.is_open and answer.status in GATEWAY else ''}"
