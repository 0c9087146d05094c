"""The matching rules of a response, as the broker takes them."""
import re
from typing import Dict, Optional

from holzhebo.faults import Json
from holzhebo.pact.dates import DATES, instead_of_date
from holzhebo.pact.findings import VERSION_3, Findings
from holzhebo.pact.json import ascii_lower, below, is_whole, kind, member
from holzhebo.text import short, shown


def read_rules(found: Findings, index: int, path: str, rules: Json) -> None:
    rule = Rule(found, index)
    if not isinstance(rules, dict):
        rule.fault("1", path, f"it is {kind(rules)}", 'write {"body":{},"header":{}}')
        return
    old = [key for key in sorted(rules) if key.startswith("$")]
    if old:
        rule.fault("2", below(path, old[0]), "the rules are written as in version 2 of the specification", VERSION_3)
    for category in sorted(set(rules) - set(old)):
        where, entries = below(path, category), rules[category]
        if category in ("path", "query"):
            continue
        if category not in ("body", "header"):
            rule.unsupported(category, where, "this has no effect: take it out" if not entries else CATEGORIES)
        elif entries is not None and not isinstance(entries, dict):
            rule.fault("1", where, f"it is {kind(entries)}", "write an object of rules")
        else:
            read_entries(rule, where, entries or {}, category == "header")


CATEGORIES = "write rules for body and header; what else the response has is compared as it is in the example"


class Rule:
    """Where the faults of an interaction's rules are told."""

    def __init__(self, found: Findings, index: int) -> None:
        self.found, self.index = found, index

    def fault(self, number: str, path: str, what: str, remedy: str, name: str = "") -> None:
        self.found.fault(f"7.{number} interactions[{self.index}]{name}", path, what, remedy)

    def unsupported(self, name: str, path: str, remedy: str) -> None:
        self.fault("5", path, f"{shown(name) or 'the empty name'} isn't supported here", remedy, f" {name}")


TOKEN = re.compile(r"\.\*|\.([^.\[\]'*]+)|\[\*\]|\['([^']*)'\]|\[([0-9]{1,9})\]")
PATHS = "write $ and at most 60 of .name, ['name'], [0], .* and [*], an index with 1 to 9 digits"


def canonical(token: "re.Match[str]") -> str:
    name = token[1] if token[1] is not None else token[2]
    if name is not None:
        return f".{name}" if re.fullmatch(r"[^.\[\]'*]+", name) else f"['{name}']"
    return f"[{int(token[3])}]" if token[3] is not None else "[*]"


def path_text(text: str) -> Optional[str]:
    """The one text of a rule's path, None if it can't be read."""
    tokens, at = ["$"], 1
    while at < len(text):
        token = TOKEN.match(text, at)
        if token is None or len(tokens) > 60:
            return None
        tokens.append(canonical(token))
        at = token.end()
    return "".join(tokens) if text.startswith("$") else None


def read_entries(rule: Rule, path: str, entries: Json, in_header: bool) -> None:
    seen: Dict[str, str] = {}
    for key in sorted(entries):
        where = below(path, key)
        text = ascii_lower(key) if in_header else path_text(key)
        if text is None:
            rule.fault("3", where, f"the path {short(key)} can't be read", PATHS)
        elif text in seen:
            rule.fault("4", where, f"{short(seen[text])} is the same", "write one entry with all matchers")
        else:
            seen[text] = key
        read_entry(rule, where, entries[key], in_header)


ENTRY = 'write {"combine":"AND","matchers":[{"match":"type"}]}'


def read_entry(rule: Rule, path: str, entry: Json, in_header: bool) -> None:
    matchers = member(entry, "matchers")
    if not isinstance(matchers, list):
        what = f"it is {kind(entry)}" if not isinstance(entry, dict) else f"its matchers are {kind(matchers)}"
        rule.fault("1", path, what, ENTRY)
        matchers = []
    elif not matchers:
        rule.found.idle.append((path, "the rule has no matchers; it is no fault"))
    combine = member(entry, "combine")
    if combine not in (None, "AND", "OR"):
        rule.fault("8", f"{path}.combine", f"it is {kind(combine)}", "write AND or OR")
    for number, it in enumerate(matchers):
        read_matcher(rule, f"{path}.matchers[{number}]", it, in_header)


INSTEAD = {
    "decimal": "write `type`, with a whole example; or a text with a regex",
    "boolean": "write `type`",
    "semver": "write a regex",
    "contentType": "write a regex for the header content-type",
    "statusCode": "take it out: the status is compared as it is in the example",
}
SUPPORTED = "write equality, type, regex, include, or for bodies integer, number or null"


def read_matcher(rule: Rule, path: str, it: Json, in_header: bool) -> None:
    name = member(it, "match")
    if not isinstance(it, dict) or not (name is None or isinstance(name, str)):
        rule.fault("1", path, f"it is {kind(it)}" if not isinstance(it, dict) else f"match is {kind(name)}", ENTRY)
    elif name == "regex" or name is None and it.get("regex") is not None:
        read_pattern(rule, f"{path}.regex", it.get("regex"))
    elif name == "type" or name is None and (it.get("min") is not None or it.get("max") is not None):
        read_bounds(rule, path, it)
    elif name == "include":
        if not isinstance(it.get("value"), str):
            rule.fault("1", f"{path}.value", f"it is {kind(it.get('value'))}", "write the text that has to be there")
    elif name is None:
        rule.unsupported("?", path, SUPPORTED)
    elif name in ("integer", "number", "null") and in_header:
        rule.unsupported(name, path, "a header is a text: write a regex")
    elif name not in ("equality", "integer", "number", "null"):
        rule.unsupported(name, path, INSTEAD.get(name, SUPPORTED) if name not in DATES else instead_of_date(it))


def read_bounds(rule: Rule, path: str, it: Json) -> None:
    bounds = {key: it[key] for key in ("min", "max") if it.get(key) is not None}
    wrong = [key for key, bound in bounds.items() if not is_whole(bound) or bound < 0]
    if wrong:
        what = f"it is {kind(bounds[wrong[0]])}"
        rule.fault("6", f"{path}.{wrong[0]}", what, "write a whole number of at least 0")
    elif len(bounds) == 2 and bounds["min"] > bounds["max"]:
        rule.fault("6", path, f"min is {bounds['min']} and max is {bounds['max']}", "write a min of at most max")


PATTERNS = (
    "write a pattern without look-ahead, look-behind and back references, and with small repetitions"
    " (the syntax is that of Rust's crate regex)"
)


def read_pattern(rule: Rule, path: str, pattern: Json) -> None:
    if not isinstance(pattern, str):
        rule.fault("7", path, f"it is {kind(pattern)}", "write the pattern")
        return
    taken = rule.found.judge(pattern)
    if taken is None:
        rule.found.unjudged.append((path, pattern))
    elif not taken:
        rule.fault("7", path, f"the pattern {short(pattern)} can't be used", PATTERNS)


PIECE = re.compile(r"\\(.)|\[\^?\]?[^\[\]\\]*(?:\\.[^\[\]\\]*)*\]|\(\?([=!]|<[=!])|(\[|\(\?[a-zA-Z]*x)", re.DOTALL)


def is_surely_refused(pattern: str) -> Optional[bool]:
    """False if the pattern has look-around or a back reference, else None: only the program knows what it takes."""
    for it in PIECE.finditer(pattern):
        if it[3]:
            return None  # a class in a class, or a pattern with comments
        if it[2] or it[1] and it[1] in "123456789":
            return False
    return None
