"""The definitions of the crates' specs/: where each is, what it names, and what rests on what."""
import os, re
from collections import defaultdict
from functools import lru_cache

TOP = os.path.dirname(os.path.dirname(os.path.abspath(__file__)))
DEFINED = re.compile(r"(?:(?:pub|abbrev|unfoldable|opaque)\s+)*(?:(?:record|data)\s+([^\s:]+)|([^\s:]+)\s*:(?=\s))")
NAMED = re.compile(r"(?m)^\s*(?:ghost |pub |unfoldable )*use Rattle\.(\w+)\.specs\.([\w.]+?)\.\{([^}]*)\}")
WHOLE = re.compile(r"(?m)^\s*(?:ghost |pub )*use Rattle\.(\w+)\.specs\.([\w.]+?) as (\w+)")
PASSED_ON = re.compile(r"(?m)^(?!pub use ).*$")
PRIVATE = re.compile(r"(?im)^\s*-- (?:---- )?for private clauses|no public\s+(?:-- )?clause")
WORD = re.compile(r"[^\s(){},;:λ.→]+")


@lru_cache(None)
def text_of(path):
    with open(path, encoding="utf-8") as it:
        return it.read()


def crates_in(text):
    """The crates that a part of crates.txt lists, each with the libraries that it uses."""
    return {name: below.split() for name, below in re.findall(r"(?m)^(\w+)[^#:\n]*:(.*)$", text)}


def files_of(crate, part, ending):
    home = f"{TOP}/crates/{crate}/{part}"
    return sorted(f"{at}/{name}" for at, _, names in os.walk(home) for name in names if name.endswith(ending))


def parts_of(text):
    """The items of a list, parted by the commas that stand in no braces."""
    found, depth, item = [], 0, ""
    for letter in text + ",":
        depth += (letter == "{") - (letter == "}")
        if letter == "," and depth == 0:
            found.append(item.strip())
            item = ""
        else:
            item += letter
    return [it for it in found if it]


def names_in(path, text):
    """Each module that a `use` line names names of, as its path, with these; of a module that it takes whole, the path."""
    names = []
    for part in parts_of(text):
        inner = re.fullmatch(r"([\w.+]+)\.\{(.*)\}", part)
        if inner:
            yield from names_in(f"{path}.{inner[1]}", inner[2])
        elif re.match(r"[\w.]+\.\w+ as \w+$", part):
            yield f"{path}.{part}", None
        else:
            names.append(part)
    if names:
        yield path, names


def definitions_in(text):
    """The names that a file of specs/ defines, with their lines: those of the file itself, and of its modules."""
    is_inside = False
    for number, row in enumerate(text.split("\n"), 1):
        if re.match(r"\S", row) and not row.startswith("--"):
            is_inside = bool(re.match(r"(?:abbrev )?mutual\b|module\b", row))
        indent = len(row) - len(row.lstrip(" "))
        found = DEFINED.match(row, indent) if indent == 0 or indent == 2 and is_inside else None
        name = found and (found[1] or found[2])
        if name:
            yield name, number


def named_in(text):
    """What a file of src/ or specs/ names of specs/, by the names that it has there."""
    found = {}
    for crate, module, names in NAMED.findall(text):
        for it in filter(None, (it.strip() for it in names.split(","))):
            found[it.split(" as ")[-1]] = (crate, module, it.split(" as ")[0])
    return found


def operators_in(text, named):
    """What of these operators the text uses: between their operands, or in a `do`."""
    for name in named:
        if "◌" in name and all(it in text for it in name.split("◌") if it) or name == "◌>>=◌" and re.search(r"\bdo\b", text):
            yield named[name]


def named_through(text, words):
    """What a text names through a module that the file takes whole, as in `schema.tables`."""
    modules = {alias: (crate, module) for crate, module, alias in WHOLE.findall(text)}
    for alias, name in re.findall(r"(?<![\w.])(\w+)\.([^\s(){},;:λ.→]+)", words):
        if alias in modules:
            yield (*modules[alias], name)


def cited_in(text, own, named):
    """What a part of a file names of specs/, where the file names these."""
    words = {named[it] for it in WORD.findall(own) if it in named}
    return words | set(operators_in(own, named)) | set(named_through(text, own))


def types_in(path):
    """The types that a file of src/ declares, each with the words of its declaration."""
    for it in re.finditer(r"(?m)^(?:pub(?:\([a-z]+\))? )?(?:struct|enum) (\w+)[^{;]*(?:\{((?:[^}\n].*\n|\n)*)\}|[^;]*;)", text_of(path)):
        yield it[1], set(re.findall(r"[A-Z]\w+", re.sub(r"//.*|ghost .*", "", it[0])))


def used_types(crate):
    """The types of crates that the files of this one name, by their names there: each as crate and name."""
    for path in files_of(crate, "src", ".rt"):
        for of, names in re.findall(r"(?m)^\s*(?:pub )?use (\w+)::([^;]*);", text_of(path)):
            for it in re.findall(r"[A-Z]\w+", names):
                yield it, (crate if of in ("crate", "super") else of, it)


def views_of(crate):
    """What contracts see of the types of src/: of each a key, a place and its lines, if it has an `impl Model`, and what
    that names; and the types of which it consists. How the logic stores them (`ghost coded`) isn't among it: a code
    comes with the proof that each value can be read back, and no clause depends on which one it is."""
    others = dict(used_types(crate))
    for path in files_of(crate, "src", ".rt"):
        text, module = text_of(path), os.path.relpath(path, f"{TOP}/crates/{crate}/src")[:-3].replace("/", ".")
        named = named_in(text)
        for it in re.finditer(r"(?m)^impl(?:<[^>]*>)? Model for (\w+).*\n((?:[^}\n].*\n|\n)*)\}", text):
            own = re.sub(r"(?m)^ *ghost (?:use|coded)\b[^;]*;\n|^\s*\n", "", it[2]).rstrip("\n")
            line = text.count("\n", 0, it.start()) + 1
            place = f"{os.path.relpath(path, TOP)}:{line}", len(own.split("\n"))
            yield (crate, f"declared.{module}.{it[1]}", it[1]), place, cited_in(text, own, named)
        for name, words in types_in(path):
            parts = {("types", *others.get(it, (crate, it))) for it in words - {name}}
            yield (crate, f"declared.{module}.{name}", name), None, parts
            yield ("types", crate, name), None, {(crate, f"declared.{module}.{name}", name)}


def definitions_of(crate):
    """Each definition with its place, how many lines it has with the comment above it, what it names, and whether it is
    marked as for private clauses."""
    for path in files_of(crate, "specs", ".antt"):
        text, module = text_of(path), os.path.relpath(path, f"{TOP}/crates/{crate}/specs")[:-5].replace("/", ".")
        rows, found, named = text.split("\n"), list(definitions_in(text)), named_in(text)
        named.update({name: (crate, module, name) for name, _ in found})
        whole = PRIVATE.search(text[: text.find("\nuse ") + 1])
        for (name, line), end in zip(found, [line - 1 for _, line in found[1:]] + [len(rows)]):
            sections = [it for it in rows[:line] if it.startswith("-- ---- ")]
            above = line - 1
            while above and rows[above - 1].lstrip().startswith("--"):
                above -= 1
            marked = whole or sections and PRIVATE.search(sections[-1]) or PRIVATE.search("\n".join(rows[above : line - 1]))
            own = "\n".join(it for it in rows[line - 1 : end] if not it.lstrip().startswith("--"))
            cited = cited_in(text, own, named)
            lines = line - 1 - above + len([it for it in own.split("\n") if it.strip() and not it.startswith("use ")])
            yield (crate, module, name), (f"{os.path.relpath(path, TOP)}:{line}", lines), cited, marked
        yield from (((crate, module, name), None, {of}, None) for name, of in named_in(PASSED_ON.sub("", text)).items())


def graph(crates, with_views=False):
    """Where each definition of these crates is and how many lines it has, what each names, and which are marked as for
    private clauses; also what contracts see of types, if that is asked for."""
    places, names, marked = {}, defaultdict(set), set()
    for crate in crates:
        for key, place, cited, is_marked in definitions_of(crate):
            names[key] |= cited
            if place:
                places.setdefault(key, place)
            if is_marked:
                marked.add(key)
        for key, place, cited in views_of(crate) if with_views else ():
            names[key] |= cited
            if place:
                places.setdefault(key, place)
    return places, names, marked


def closure(roots, names):
    """All that these definitions rest on, themselves among it."""
    found, left = set(), set(roots)
    while left:
        it = left.pop()
        found.add(it)
        left |= names[it] - found
    return found
