"""The wrong bodies: where they are, what each changes, and which of them one check can try."""
import os, re

from definitions import TOP, files_of, text_of
from judge import named_by
from sources import Function, functions_in

BODIES, DEFINITIONS = f"{TOP}/wrong-bodies", f"{TOP}/wrong-definitions"
PRELUDE = {"Err", "None", "Ok", "Option", "Result", "Self", "Some", "String", "Vec"}


def in_folder(folder):
    names = sorted(os.listdir(folder)) if os.path.isdir(folder) else []
    return [f"{folder}/{it}" for it in names if it.endswith(".edit")]


def in_gate(crate):
    """Those that `rt ci` tries."""
    return in_folder(f"{TOP}/crates/{crate}/must-fail")


def is_seen(edit):
    """Whether the edit names the check of the program that sees it: no contract can refuse it."""
    return any(line.startswith("seen: ") for line in text_of(edit).split("\n"))


def edits_of(crate, home=BODIES):
    """Those that a contract has to refuse, and that `rt ci` doesn't try."""
    return [it for it in in_folder(f"{home}/{crate}") if not is_seen(it)]


def kept(home=BODIES):
    """The crates that have edits there."""
    return sorted(it for it in os.listdir(home) if os.path.isdir(f"{home}/{it}"))


def pairs_of(edit):
    """The old and new texts of an edit, each with the path of its file in the crate."""
    path, old, pairs = None, None, []
    for line in text_of(edit).split("\n"):
        word, _, text = line.partition(": ") if not line.startswith("new:") else ("new", "", line[4:].removeprefix(" "))
        if word == "file":
            path = text.strip()
        elif word == "old":
            old = text
        elif word == "new":
            pairs.append((path, old, text))
            old = None
    return pairs


def texts_with(crate, edits):
    """The texts of the crate's files, by path, with these edits made, or why one of them can't be made."""
    texts = {}
    for path, old, new in (pair for edit in edits for pair in pairs_of(edit)):
        file = f"{TOP}/crates/{crate}/{path}"
        if path and path not in texts:
            if not os.path.isfile(file):
                return {}, f"there is no {path}"
            texts[path] = text_of(file)
        if not path or not old or texts[path].count(old) != 1:
            return {}, f"an old text isn't there exactly once: {old}"
        texts[path] = texts[path].replace(old, new)
    return (texts, None) if texts else ({}, "it names no file")


def not_read(edit):
    """The lines of an edit behind its first `file:` that aren't read: a text is one line."""
    lines = text_of(edit).split("\n")
    first = next((place for place, line in enumerate(lines) if line.startswith("file: ")), len(lines))
    return [line for line in lines[first:] if line and not line.startswith(("file: ", "old: ", "new:", "seen: "))]


def unknown_types(crate, edit):
    """The types by which a path or a value of its new texts begins, and that neither the file nor the edit names: such
    an edit is refused by the compiler, and says nothing of a contract."""
    found = set()
    for path, _, new in pairs_of(edit):
        code = re.sub(r'"(?:\\.|[^"\\])*"|//.*', "", new)
        used = set(re.findall(r"(?<![\w:])([A-Z]\w*)(?=::|\(| *\{)", code))
        found |= used - PRELUDE - set(re.findall(r"\w+", text_of(f"{TOP}/crates/{crate}/{path}")))
    return found - set(re.findall(r"\b(?:struct|enum) (\w+)", text_of(edit)))


def why_not(crate, edit, home):
    """Why the edit can't be made, if it can't."""
    if unread := not_read(edit):
        return f"a line isn't read, as a text is one line: {unread[0]}"
    if any(old == new for _, old, new in pairs_of(edit)):
        return "an old text is the new one"
    if home == BODIES and f"{TOP}/crates/{crate}/must-fail/{os.path.basename(edit)}" in in_gate(crate):
        return "the crate's must-fail/ has one of this name"
    why = texts_with(crate, [edit])[1]
    if not why and home == BODIES and (unknown := unknown_types(crate, edit)):
        why = f"its file doesn't know the type {min(unknown)}"
    return why


def faults_in(home, crates):
    """The edits there that can't be made, each with the reason."""
    tried = ((crate, it) for crate in crates for it in in_folder(f"{home}/{crate}"))
    return [f"{os.path.relpath(it, TOP)}: {why}" for crate, it in tried if (why := why_not(crate, it, home))]


def functions_of(crate, edit):
    """The functions that the edit changes, and those that name a constant that it changes; beside them a text for each
    `use` line that it changes, and None if it changes anything else that is in no function."""
    found = set()
    for path, old, _ in pairs_of(edit):
        file = f"{TOP}/crates/{crate}/{path}"
        place = text_of(file).find(old)
        own = next((it for it in functions_in(file) if it.at <= place < it.end), None)
        if not own and old.startswith("use "):
            found.add(f"{path}: {old}")
        elif not own:
            found |= {None, *users_of(crate, text_of(file)[: place + len(old)])}
        else:
            found.add(own)
    return found


def users_of(crate, text):
    """The functions of the crate that name the last constant that this text declares."""
    constant = re.findall(r"(?m)^\s*(?:pub(?:\([a-z]+\))? )?(?:const|static) (\w+)", text)[-1:]
    files = files_of(crate, "src", ".rt") if constant else []
    return {it for file in files for it in functions_in(file) if constant[0] in it.words}


def only_functions(changed):
    return {it for it in changed if isinstance(it, Function)}


def taken_as_proved(crate, changed):
    """Proofs with a hole of the crate's functions that aren't changed, by path: what calls one is then checked by its
    contract, and its own proof, which `rt ci` does, isn't done again. Methods and functions of a cycle keep theirs."""
    found = {}
    for it in (it for file in files_of(crate, "src", ".rt") for it in functions_in(file)):
        path = named_by(it).replace("::", "/")
        is_cycle = "#[cycle(" in it.code[: it.at].rpartition("\n\n")[2] or re.search(rf"\b{it.name}\(", it.body)
        if it not in changed and not it.type and it.end > it.begin and not is_cycle:
            use = f"use Rattle.{crate}.proofs.{path.replace('/', '.')}.Statement.{{statement}}"
            proof = f"pub {it.name}_spec : {{M : Type 1}} → statement M\n{it.name}_spec = ?"
            found[f"proofs/{path}/Proof.antt"] = f"{use}\n\n{proof}\n"
    return found


def rounds_of(crate, edits):
    """The edits in rounds: in one round no two change one function, and none writes an old text of another's once more.
    One that changes what is in no function is alone."""
    rounds = []
    for edit in edits:
        changed = functions_of(crate, edit)
        free = [it for it in rounds if None not in changed | it[1] and not changed & it[1]]
        free = [it for it in free if not texts_with(crate, [*it[0], edit])[1]]
        if free:
            free[0][0].append(edit)
            free[0][1].update(changed)
        else:
            rounds.append(([edit], set(changed)))
    return [edits for edits, _ in rounds]
