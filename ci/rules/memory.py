"""The rule of memory: a function that first says that memory ran out makes that fault of the `Err` of a call that fails
for nothing else. Hardly a clause says why a call may fail so, and anybody can write the fault. So each place where one
is made has its cause in the text, in one of these forms:

    match CALL { .., Err(_) => FAULT }      let Ok(..) = CALL else { return FAULT }      CALL.map_err(|_| FAULT)
    match CALL { .., Err(e) => if e.is_memory() { FAULT } .. }      impl From<AllocError> for .. { FAULT }

CALL is a call of the sources whose error is an AllocError, or one of the kit's in GROWTH. A fault of another crate that
is handed on under another name has its own cause there. EXCEPT has the rest, each with its reason."""
import re

from sources import place

# What a fault is called by which a call says that memory ran out.
MEMORY = re.compile(r"\b\w+::Memory\b|\bAllocError\b")
# The calls of the kit whose error is an AllocError.
GROWTH = {
    *("Connection::open_in_memory", "String::from_str", "Vec::with_capacity", "append", "clone", "extend_from_slice"),
    *("format!", "push"),
}
# How another fault is asked whether memory was its reason.
ASKED = re.compile(
    r"\bif (?:\w+\.is_memory\(\)|\w+\.kind\(\) == (?:\w+::)*OutOfMemory|matches!\(\w+, \w+::Memory\))(?: =>)?\s*$"
)
EXCEPT = {
    "command_line::read_command": "there is a line in words that were read",
    "http_routes::add": "the router takes each of our constant routes",
}


def is_pattern(body, made):
    """Whether a fault is compared with here, and none is made."""
    before = body[body.rfind(";", 0, made.start()) + 1 : made.start()]
    return bool(re.match(r"[\s)]*(?:=>|\||if\b)", body[made.end() :])) or "matches!(" in before.split("{")[-1]


def firsts(function):
    """The places in the body of a function where it says first that memory ran out: it makes such a fault of anything
    but another one."""
    for made in MEMORY.finditer(function.body):
        arm = function.body[function.body.rfind("\n", 0, made.start()) : made.start()].rpartition("=>")[0]
        if not is_pattern(function.body, made) and not re.search(r"Memory\b", arm):
            yield made


def opened_before(code, at):
    """The places of the braces that are open here, the innermost first."""
    depth = 0
    for it in range(at - 1, -1, -1):
        depth += {"}": 1, "{": -1}.get(code[it], 0)
        if depth < 0:
            depth = 0
            yield it


def head_of(body, brace):
    """What stands before a brace: from the last semicolon or brace that is in no parentheses."""
    depth = 0
    for it in range(brace - 1, -1, -1):
        depth += {")": 1, "(": -1}.get(body[it], 0)
        if depth <= 0 and body[it] in ";{}":
            return body[it + 1 : brace]
    return body[:brace]


def called(expression):
    """The name of the call that an expression ends with: `Type::name`, or `name` alone."""
    text = expression.rstrip().removesuffix("?")
    if not text.endswith(")"):
        return None
    depth, at = 0, len(text)
    while at and (depth or at == len(text)):
        at -= 1
        depth += {")": 1, "(": -1}.get(text[at], 0)
    found = re.search(r"(?:\b([A-Z]\w*)::)?(\w+!?)(?:::<[^()]*>)?$", text[:at])
    return found and "::".join(filter(None, found.groups()))


def cause(body, at):
    """The call of whose `Err` the fault is made that is there; True if the reason was asked for; None if there is no
    such thing."""
    if mapped := re.search(r"\.map_err\(\|_\|\s*$", body[:at]):
        return called(body[: mapped.start()])
    arm = body[body.rfind("\n", 0, at) : at]
    for brace in opened_before(body, at):
        head = head_of(body, brace)
        if ASKED.search(head):
            return True
        if waited := re.search(r"\blet Ok\((?:mut )?\w+\) = (.*)\belse\s*$", head, re.S):
            return called(waited[1])
        if matched := re.search(r"\bmatch (.*)$", head, re.S):
            return called(matched[1]) if re.search(r"\bErr\(_\) => ", arm) else None
    return None


def fails_so_only(name, crate, code, product):
    """Whether a call of this name, in this file of the crate, is of functions whose error is that memory ran out: those
    of the crate itself; or, if it has none, of the crates that the file names; or else of any."""
    named = set(re.findall(r"(?m)^use (\w+)", code))
    for seen in ([crate], [it for it in product if it.name in named], product):
        functions = [it for each in seen for it in each.functions if name in (it.name, it.title)]
        if functions:
            return all(re.search(r"->.*, AllocError>", it.code[it.at : it.begin], re.S) for it in functions)
    return False


def without_cause(function, crate, product):
    """The places of the function where it says that memory ran out, and shows no cause."""
    if re.search(r"\(_\w*: Alloc(?:Error|Failed)\b", function.code[function.at : function.begin]):
        return
    for made in firsts(function):
        by = cause(function.body, made.start())
        if by is not True and by not in GROWTH and not (by and fails_so_only(by, crate, function.code, product)):
            at = place(function.path, function.code, function.begin + made.start())
            yield f"{at}: {function.title} says that memory ran out, and no call that fails for this only is the cause"


def faults(product, checks):
    excepted = set()
    for crate in product:
        for it in crate.functions:
            name = f"{crate.name}::{it.name}"
            found = list(without_cause(it, crate, product))
            excepted |= {name} if found else set()
            yield from found if name not in EXCEPT else ()
    yield from (f"ci/rules/memory.py: {it} is no exception any more" for it in EXCEPT if it not in excepted)
