"""The rules of mutants and of callers.

- Each public function has a mutant: an edit changes its own body, or that of a private function that nothing but it
  reaches. wrong-bodies/WITHOUT has the others. A law, which gives nothing back and changes nothing, needs none.
- An edit that makes a mutant changes files of src/ alone, so that a contract refuses it. One of a definition is in
  wrong-definitions/, and changes files of specs/ alone.
- Only the crates of KIT have edits in must-fail/, which `rt ci` proves once more for them; all others are in
  wrong-bodies/.
- Each public function is called by another crate of the product, by `worked_examples` or a test of `calls`, or by a
  law. ci/UNCALLED has the others.

A line of either list is `CRATE::NAME: why`."""
import os, re

from definitions import TOP, text_of
from edits import in_folder, in_gate, pairs_of
from sources import place

KIT = ("broker_core",)


def in_wrong_files():
    homes = {f"crates/{it}/must-fail": "src/" for it in os.listdir(f"{TOP}/crates")}
    homes |= {f"wrong-bodies/{it}": "src/" for it in os.listdir(f"{TOP}/wrong-bodies")}
    homes |= {f"wrong-definitions/{it}": "specs/" for it in os.listdir(f"{TOP}/wrong-definitions")}
    for home, part in sorted(homes.items()):
        for edit in in_folder(f"{TOP}/{home}"):
            for path in sorted({it for it, _, _ in pairs_of(edit) if not it.startswith(part)}):
                yield f"{os.path.relpath(edit, TOP)}: it changes {path}, and is to change files of {part}"


def in_must_fail(crates):
    for it in crates:
        has = bool(in_gate(it.name))
        if has != (it.name in KIT):
            yield f"crates/{it.name}/must-fail: it has {'an' if has else 'no'} edit, against ci/rules/mutants.py"


def turned(crate):
    """The functions whose bodies an edit changes."""
    found, texts = set(), {it: text_of(it) for it in crate.files}
    for file, old, _ in (pair for edit in all_edits(crate) for pair in pairs_of(edit)):
        path = f"{TOP}/crates/{crate.name}/{file}"
        begin = texts.get(path, "").find(old)
        end = begin + len(old)
        found |= {it for it in crate.functions if it.path == path and begin >= 0 and begin < it.end and end > it.begin}
    return found


def all_edits(crate):
    """Those of must-fail/ and of wrong-bodies/, with those that only a check of the program sees."""
    return in_gate(crate.name) + in_folder(f"{TOP}/wrong-bodies/{crate.name}")


def calls(caller, callee):
    """Whether the one may call the other, by its names."""
    body, name = caller.body, callee.name
    if callee.is_of_trait:
        return bool(re.search(rf"\b{callee.type}\b", caller.code[caller.at : caller.end]))
    if callee.type:
        of_type = re.search(rf"\b{callee.type}(?:::<[^>]*>)?::{name}\b", body)
        of_self = caller.type == callee.type and re.search(rf"\bSelf::{name}\b", body)
        return bool(of_type or of_self or re.search(rf"\.{name}\s*\(", body))
    if re.search(rf"(?<![.\w]){name}\s*(?:\(|::<)", body):
        return True
    code = caller.code[caller.at : caller.end]
    is_bound = re.search(rf"\blet\s[^=;]*\b{name}\b|\|[^|]*\b{name}\b[^|]*\||\b{name}\s*:", code)
    return not is_bound and bool(re.search(rf"[(,]\s*(?:\w+::)*{name}\s*[,)]", body))


def called_by(caller, functions):
    words = caller.words
    return [it for it in functions if it is not caller and {it.name, it.type} & words and calls(caller, it)]


def reached(begun, called, without=None):
    """These functions, what they call (`called` of each), and what that calls."""
    found, left = set(), [it for it in begun if it is not without]
    while left:
        it = left.pop()
        if it not in found:
            found.add(it)
            left += [other for other in called(it) if other is not without]
    return found


def without_mutant(crate):
    """The public functions for which no edit changes their own body or one that nothing else reaches."""
    called = {it: called_by(it, crate.functions) for it in crate.functions}
    public = [it for it in crate.functions if crate.is_public(it) and not it.is_law]
    entries = public + [it for it in crate.functions if it.is_of_trait and crate.is_public_type(it.type)]
    has_edit = turned(crate)
    for it in public:
        if it not in has_edit:
            own = reached([it], called.get) - reached(entries, called.get, without=it)
            if not own & has_edit:
                yield it


def excepted(list):
    """The functions of a list, and what is wrong with its lines."""
    found, wrong = set(), []
    for number, row in enumerate(text_of(f"{TOP}/{list}").split("\n"), 1):
        name = re.match(r"(\w+(?:::\w+)+): \S", row)
        if name:
            found.add(name[1])
        elif row.strip() and not row.startswith("#"):
            wrong.append(f"{list}:{number}: a line is `CRATE::NAME: why`")
    return found, wrong


def against(list, lacking, what, has):
    """What lacks something and isn't in the list, and what is in the list and lacks nothing."""
    left, wrong = excepted(list)
    yield from wrong
    for crate, it in lacking:
        name = f"{crate.name}::{it.title}"
        if name not in left:
            yield f"{place(it.path, it.code, it.at)}: {name} {what}"
        left.discard(name)
    yield from (f"{list}: {it} {has}, or isn't there" for it in sorted(left))


def uncalled(product, checks):
    """The public functions that nothing of another crate calls, and no law."""
    callers = [*product, *(it for it in checks if it.name in ("worked_examples", "calls"))]
    for crate in product:
        among = [it for other in callers for it in other.functions if other is not crate or it.is_law]
        for callee in (it for it in crate.functions if crate.is_public(it) and not it.is_law and it.name != "main"):
            if not any({callee.name, callee.type} & it.words and calls(it, callee) for it in among):
                yield crate, callee


def faults(product, checks):
    yield from in_wrong_files()
    yield from in_must_fail(product + checks)
    lacking = ((crate, it) for crate in product for it in without_mutant(crate))
    yield from against("wrong-bodies/WITHOUT", lacking, "has no mutant", "has one")
    lacking = uncalled(product, checks)
    yield from against("ci/UNCALLED", lacking, "is called by no other crate of the product", "is called")
