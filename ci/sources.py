"""The functions of the crates' sources: where each is, its head with the clauses, and its body."""
import os, re, sys
from functools import cached_property, lru_cache

sys.dont_write_bytecode = True
from definitions import TOP, files_of, text_of

LITERAL = re.compile(r"""//[^\n]*|/\*.*?\*/|r(#*)".*?"\1|"(?:\\.|[^"\\])*"|(?<![\w'])b?'(?:\\[^']+|[^\\'\n])'""", re.S)
CLAUSE = re.compile(r"\b(ensures|requires)\b(?:\s+\w+)?\s*\{")
FUNCTION = re.compile(r"(?m)^[ \t]*(pub(?:\([a-z]+\))?[ \t]+)?(?:const[ \t]+|unsafe[ \t]+)*fn[ \t]+(\w+)")
BLOCK = re.compile(r"(?m)^[ \t]*(?:pub(?:\([a-z]+\))?[ \t]+)?(impl|trait)\b")


def place(path, text, at):
    return f"{os.path.relpath(path, TOP)}:{text.count(chr(10), 0, at) + 1}"


@lru_cache(None)
def bare(text):
    """The text with blanks in the place of its comments and of what stands in quotes."""
    return LITERAL.sub(lambda it: re.sub(r"[^\n]", " ", it[0]), text)


def closing(code, at):
    """Where the block ends that is open behind this place."""
    depth = 1
    while depth and at < len(code):
        depth += {"{": 1, "}": -1}.get(code[at], 0)
        at += 1
    return at


class Function:
    """A function of a crate: its head with the clauses, and its body, as places in a file."""

    def __init__(self, path, code, match, block):
        self.path, self.code, self.name, self.at = path, code, match[2], match.start()
        self.is_pub = (match[1] or "").strip() == "pub"
        self.type, self.trait = block or (None, None)
        self.is_of_trait = self.trait is not None
        self.ensures = 0
        self.begin = self.end = self.read_head(match.end())
        if code[self.begin] == "{":
            self.end = closing(code, self.begin + 1)

    def read_head(self, at):
        """Where the body begins, or the semicolon in its place; counts the clauses."""
        while True:
            clause = CLAUSE.search(self.code, at)
            ahead = re.compile(r"[{;]").search(self.code, at)
            depth = self.code[at : ahead.start()].count("[") - self.code[at : ahead.start()].count("]")
            if self.code[ahead.start()] == ";" and depth > 0:
                at = ahead.end()
            elif clause and clause.end() == ahead.end():
                self.ensures += clause[1] == "ensures"
                at = closing(self.code, ahead.end())
            else:
                return ahead.start()

    @cached_property
    def body(self):
        return self.code[self.begin : self.end]

    @cached_property
    def words(self):
        return set(re.findall(r"\w+", self.code[self.at : self.end]))

    @cached_property
    def is_law(self):
        head = CLAUSE.split(self.code[self.at : self.begin])[0]
        return "->" not in head and "&mut" not in head

    @property
    def title(self):
        return f"{self.type}::{self.name}" if self.type else self.name


def bald(header):
    """The header without what stands in angle brackets."""
    while re.search(r"<[^<>]*>", header):
        header = re.sub(r"<[^<>]*>", " ", header.replace("->", "  "))
    return header


def subject(header):
    """The type that an `impl` or a `trait` is of, and of which trait its functions are, by the name that a check
    prints: `FromError` for an `impl From<Error>`, None for those of the type itself."""
    names = re.split(r"\sfor\s", bald(header))
    of = re.search(r"(\w+)\s*(?:where\b.*)?$", names[-1].strip(), re.S)[1]
    if len(names) == 1:
        return of, "" if "trait" in names[0].split() else None
    trait = re.search(r"(\w+)\s*$", names[0])[1]
    given = re.search(rf"\b{trait}\s*<(?:&|\w+::)*(\w+)", header)
    return of, trait + (given[1] if given else "")


@lru_cache(None)
def functions_in(path):
    code = bare(text_of(path))
    blocks, found = [], []
    for it in BLOCK.finditer(code):
        opened = code.index("{", it.end())
        blocks.append((it.start(), closing(code, opened + 1), subject(code[it.start() : opened])))
    for it in FUNCTION.finditer(code):
        block = next((what for begin, end, what in blocks if begin < it.start() < end), None)
        found.append(Function(path, code, it, block))
    return found


class Crate:
    """A crate: its functions, and what of it others may call."""

    def __init__(self, name):
        self.name = name
        self.files = files_of(name, "src", ".rt")
        self.functions = [it for path in self.files for it in functions_in(path)]
        self.root = bare("\n".join(text_of(it) for it in self.files if it.endswith(("/lib.rt", "/main.rt"))))
        self.public_modules = set(re.findall(r"(?m)^pub mod (\w+)", self.root)) | {"lib"}
        self.lent = set()
        for names in re.findall(r"(?m)^pub use (?:crate::)?\w+::(\{[^}]*\}|\w+)", self.root):
            self.lent |= set(re.findall(r"\w+", names))

    def is_lent(self, name, path):
        """Whether others may name what a file declares as `pub`."""
        return name in self.lent or os.path.basename(path)[:-3] in self.public_modules

    def is_public_type(self, name):
        declares = re.compile(rf"(?m)^pub (?:struct|enum|trait|type) {name}\b")
        return any(self.is_lent(name, it) for it in self.files if declares.search(bare(text_of(it))))

    def is_public(self, function):
        if not function.is_pub or function.is_of_trait:
            return False
        return self.is_public_type(function.type) if function.type else self.is_lent(function.name, function.path)
