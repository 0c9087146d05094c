"""What differs if a recorded reply doesn't meet an interaction of a contract, and what in a reply nobody asks for.

The broker judges, and this explains: it follows the broker's rules for responses, but doesn't have its engine for
patterns, so what depends on a pattern is marked. Python 3.9 or later, standard library only."""
import contextlib, json, os.path, re, signal, threading, warnings
from typing import Dict, Iterator, List, NamedTuple, Optional, Tuple, Union

from holzhebo.faults import Json
from holzhebo.pact.json import ascii_lower
from holzhebo.text import short

NO_BODY: Json = object()  # stands for a body that isn't there
Step = Union[str, int]  # the key of a member, or the index of an item
SEEMS_NOT, SEEMS = 0.3, 0.7  # whether a value fits: between no (0) and yes (1) if that depends on a pattern
DOUBT = {SEEMS_NOT: ", as Python reads the pattern", SEEMS: ", which isn't judged here"}
MISSING, EXAMPLE, UNSUPPORTED = "missing", "by the example", "an unsupported number"
PATH_TOKEN, ANY = re.compile(r"\.\*|\[\*\]|\[([0-9]{1,9})\]|\.([^.\[\]'*]+)|\['([^']*)'\]"), "[*]"  # of a rule's path
UNLIKE = re.compile(r"\\[<>]|[*+?}]\+|\(\?(?!i?:|i\)|P?<[A-Za-z_])")  # what Python reads otherwise than the broker
PATTERN_PIECE = re.compile(r"\\.|\[\^?\]?(?:\\.|[^\]\\])*\]|\(\?<|\$", re.DOTALL)
SPELLINGS, NOT_READ = {"$": r"\Z", r"\z": r"\Z", "(?<": "(?P<"}, set[str]()


class Difference(NamedTuple):
    """A place of a reply that doesn't meet the contract."""

    path: str  # a JSON path, `status`, `header content-type` or `body`
    actual: str
    expected: str
    by: str = EXAMPLE
    fits: float = 0

    def sentence(self) -> str:
        rest = re.sub("^: a list of", " has", f": {self.actual}; expected {self.expected} ({self.by})")
        return short(self.path, 999) + (" is missing" if self.actual == MISSING else rest)


def kind_of(value: Json) -> str:
    names = {type(None): "null", bool: "a truth value", str: "a text", list: "a list", dict: "an object"}
    is_whole = type(value) is int and -(2**63) <= value < 2**64
    return "a whole number" if is_whole else names.get(type(value), UNSUPPORTED)


def described(value: Json, other: Json = None) -> str:
    """The value in a sentence, by what it has that the other one hasn't: keys, or the end of a long text."""
    if isinstance(value, str):
        same = len(os.path.commonprefix([value, other])) if isinstance(other, str) else 0
        start, dots = (same - 20, "...") if same > 40 else (0, "")
        return f"the text {dots}{short(json.dumps(value[start : start + 60], ensure_ascii=False))}"
    if isinstance(value, list):
        return f"a list of {len(value)} item{'' if len(value) == 1 else 's'}"
    if isinstance(value, dict):
        keys = [key for key in value if key not in other] if isinstance(other, dict) else []
        return f"an object that also has {short(', '.join(keys))}" if keys else "an object"
    it = short(str(getattr(value, "text", value)))
    return {"null": "null", "a truth value": f"the truth value {it.lower()}"}.get(kind_of(value), f"the number {it}")


class Entry(NamedTuple):
    """An entry of matching rules: its name, the tokens of its path, its matchers, and whether one of them is enough."""

    name: str
    tokens: List[str]
    matchers: List[Dict[str, Json]]
    is_or: bool


def spelled(step: Step) -> str:
    """A step as a path has it."""
    if isinstance(step, int):
        return f"[{step}]"
    return f".{step}" if re.fullmatch(r"[^.\[\]'*]+", step) else f"['{step}']"


def rules_of(response: Json, category: str) -> List[Entry]:
    """The entries of a category, the heaviest first: each token but a wildcard doubles the weight. Then the longest."""
    rules = []
    for name, entry in ((response.get("matchingRules") or {}).get(category) or {}).items():
        found = PATH_TOKEN.finditer(name)
        tokens = [ANY if it[0] in (".*", ANY) else spelled(int(it[1]) if it[1] else it[2] or it[3]) for it in found]
        rules.append(Entry(name, tokens, entry["matchers"], entry.get("combine") == "OR"))
    rules.sort(key=lambda it: (it.tokens.count(ANY) - len(it.tokens), -len(it.tokens), "".join(it.tokens)))
    return [it for it in rules if it.matchers]


def leading_to(rules: List[Entry], depth: int, token: str) -> List[Entry]:
    """Those of the rules at a place that also lead to its member or item, or end above it."""
    return [it for it in rules if len(it.tokens) <= depth or it.tokens[depth] in (ANY, token)]


def matched(it: Dict[str, Json], expected: Json, actual: Json, own_place: bool) -> Tuple[float, str, str]:
    """Whether a matcher holds, its name, and what it asks for. A missing key is reported at the key's place."""
    name = it.get("match") or ("regex" if it.get("regex") is not None else "type")
    text = actual if isinstance(actual, str) else json.dumps(actual) if isinstance(actual, int) else None
    is_same, low, high = kind_of(expected) == kind_of(actual), it.get("min"), it.get("max")
    if name == "type" and own_place and isinstance(expected, list) and (low, high) != (None, None):
        fits = is_same and (low is None or low <= len(actual)) and (high is None or len(actual) <= high)
        bounds = [f"at least {low}"] * (low is not None) + [f"at most {high}"] * (high is not None)
        label = "type" + f", min {low}" * (low is not None) + f", max {high}" * (high is not None)
        return fits, label, " and ".join(bounds) if is_same else "a list"
    if name == "equality" and isinstance(expected, dict):
        return is_same and set(actual) <= set(expected), name, "no other keys" if is_same else "an object"
    if name == "equality" and isinstance(expected, list):
        return is_same and len(expected) == len(actual), name, str(len(expected)) if is_same else described(expected)
    if name in ("equality", "type"):
        fits = is_same and bool(name == "type" or expected == actual)
        return fits, name, kind_of(expected) if name == "type" else described(expected, actual)
    if name == "include":
        return text is not None and it["value"] in text, name, f"a text that contains {described(it['value'])[9:]}"
    if name == "regex":
        seems = SEEMS_NOT if text is not None and seems_to_match(it["regex"], text) is False else SEEMS
        return seems if text is not None else 0, name, f"a text that matches {short(it['regex'])}"
    wanted = "null" if name == "null" else "a whole number"
    return kind_of(actual) == wanted, name, wanted


def seems_to_match(pattern: str, text: str) -> Optional[bool]:
    """Whether Python finds the pattern in the text; None if it can't say so within a second."""

    def stop(*_: object) -> None:
        raise TimeoutError

    is_able = hasattr(signal, "setitimer") and threading.current_thread() is threading.main_thread()
    if not is_able or pattern in NOT_READ or UNLIKE.search(pattern):
        return None
    before = signal.signal(signal.SIGALRM, stop)
    try:
        signal.setitimer(signal.ITIMER_REAL, 1)
        with contextlib.suppress(Exception), warnings.catch_warnings():  # any: then it's no pattern for Python
            warnings.simplefilter("error")
            return re.search(PATTERN_PIECE.sub(lambda it: SPELLINGS.get(it[0], it[0]), pattern), text) is not None
    finally:
        signal.setitimer(signal.ITIMER_REAL, 0)
        signal.signal(signal.SIGALRM, before)
    NOT_READ.add(pattern)
    return None


def by_rule(rule: Optional[Entry], expected: Json, actual: Json, path: str, is_own: bool = False) -> List[Difference]:
    """The difference at a place, by its rule or else by the example; none if it surely fits."""
    example = {"match": "type" if isinstance(expected, dict) else "equality"}
    is_or, matchers = (rule.is_or, rule.matchers) if rule else (False, [example])
    rows = [matched(it, expected, actual, is_own) for it in matchers]
    fits = float((max if is_or else min)(it[0] for it in rows))
    told = [it for it in rows if is_or or it[0] <= max(fits, SEEMS_NOT)]
    word = " or " if is_or else " and "
    names, wanted = word.join(dict.fromkeys(it[1] for it in told)), word.join(dict.fromkeys(it[2] for it in told))
    by = f"by the rule {short(rule.name)}: {names}{DOUBT.get(fits, '')}" if rule else EXAMPLE
    return [Difference(path, described(actual, expected), wanted, by, fits)] if fits < 1 else []


def compared(expected: Json, actual: Json, has_rule: bool) -> Dict[Step, Json]:
    """What members or items are compared with: with a rule, further items with the example's first item."""
    if isinstance(expected, list) and isinstance(actual, list):
        filled = expected + expected[:1] * (len(actual) - len(expected)) if has_rule else expected
        return dict(enumerate(filled[: len(actual)]))
    return expected if isinstance(expected, dict) and isinstance(actual, dict) else {}


def in_body(expected: Json, actual: Json, rules: List[Entry], path: str = "$", depth: int = 0) -> Iterator[Difference]:
    rule = next((it for it in rules if len(it.tokens) <= depth), None)
    yield from by_rule(rule, expected, actual, path, rule is not None and len(rule.tokens) == depth)
    for step, it in compared(expected, actual, rule is not None).items():
        token = spelled(step)
        if isinstance(step, str) and step not in actual:
            yield Difference(path + token, MISSING, described(it))
        else:
            yield from in_body(it, actual[step], leading_to(rules, depth, token), path + token, depth + 1)


def header_texts(response: Json) -> Dict[str, str]:
    headers = response.get("headers") or {}
    return {ascii_lower(key): ", ".join(it) if isinstance(it, list) else str(it) for key, it in headers.items()}


def plain(name: str, text: str, is_loose: bool) -> str:
    """A header's text as it is compared, a content type loosely if the expected one has no parameters."""
    text = ascii_lower(text.split(";")[0]) if is_loose and name == "content-type" else text
    return re.sub(",[ \t]+", ",", text.strip(" \t"))


def differences(interaction: Json, reply: Json, with_doubts: bool = False) -> List[Difference]:
    """Where a recorded response differs from the interaction's; with doubts also where it fits if a pattern matches."""
    response, actual, found = interaction["response"], header_texts(reply), []
    rules, status = {ascii_lower(it.name): it for it in rules_of(response, "header")}, response.get("status") or 200
    if reply.get("status") != status:
        found += [Difference("status", short(str(reply.get("status"))), str(status))]
    for name, text in header_texts(response).items():
        if name not in actual:
            found += [Difference(f"header {name}", MISSING, described(text))]
        elif name in rules:
            found += by_rule(rules[name], text, actual[name], f"header {name}")
        elif plain(name, text, ";" not in text) != plain(name, actual[name], ";" not in text):
            found += [Difference(f"header {name}", described(actual[name], text), described(text, actual[name]))]
    expected, body = response.get("body", NO_BODY), reply.get("body", NO_BODY)
    if expected in (None, "") and body not in (expected, NO_BODY):
        found += [Difference("body", described(body), f"no body or {'null' if expected is None else 'an empty text'}")]
    elif expected not in (None, "", NO_BODY):
        rest = in_body(expected, body, rules_of(response, "body"))
        found += rest if body is not NO_BODY else [Difference("body", MISSING, described(expected))]
    return [it for it in found if with_doubts or it.fits < SEEMS]


class Explained(NamedTuple):
    """What differs, in lines; and whether this surely disagrees with the broker's verdict."""

    lines: List[str]
    disagrees: bool


def explained(interaction: Json, reply: Json, failing: bool, most: int = 20) -> Explained:
    """What differs if the broker says that the interaction fails. Nothing is said if it passes, unless there is a
    difference that rests on no pattern."""
    found = differences(interaction, reply, failing)
    known = [it for it in found if it.fits < SEEMS] if failing else [it for it in found if not it.fits]
    lines = [it.sentence() for it in known or (found if failing else [])]
    if failing and not known:
        lines.insert(0, "the broker says it fails; this client finds no difference")
    elif not failing and known:
        lines.insert(0, "the broker says it passes; this client finds differences")
    disagrees = failing and not found or not failing and bool(known)
    return Explained(lines if len(lines) <= most else [*lines[:most], f"and {len(lines) - most} more"], disagrees)
