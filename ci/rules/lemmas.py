"""The rules of lemmas, tables and columns.

- A lemma that proofs of another crate cite is in a file of proofs/ that the README of its own crate names. The crate
  `worked_examples` cites none: its callers are proved from public contracts.
- A lemma is named by its subject and its law, as `take-append`: each that another crate cites, but for those of NAMED,
  and seven of ten of all.
- Each lemma is cited: by a proof, by a tactic of the code, or, as a worked example is, by a document. In a file whose
  name ends with Example or Examples none has to be.
- No proof names a part of another function's: so each function can be checked with all others taken as proved.
- In specs/ and proofs/ of the crates over broker_tables no tree and no column of a table is a bare number: it has a
  name in broker_tables/specs/Schema.antt. Place 0, a row's number in any table, may be one, and so may a place in the
  answer of a SELECT: a row of an answer is called `row`. UNNAMED has the files that are left out."""
import os, re
from collections import Counter, defaultdict

from definitions import TOP, crates_in, files_of, names_in, text_of
from sources import place

UNNAMED = ("broker_tables/specs/Schema.antt",)
PLACE = re.compile(
    r"(?<![\w'-])trees \d+\b|(?<![\w.'-])(?:(?:tree =|from_table|ChangesOnly|PutsRow|IsLowAt|frame_of \([^()]*\)) \d+"
    r"|(?:from_both|by_two) (?:[\w.]+ )?\d+|col [1-9] [1-9]\d*|(?:whole_at|text|truth|maybe_text) [1-9]\d*(?! row\b)"
    r"|column (?!row\b)[\w.]+ [1-9]\d*)\b(?!\.)"
)
# Lemmas that other crates cite by a name without a law: a file has a field of that name too, or a tactic of the code
# names the lemma, which takes names of Rust alone.
NAMED = "begins commits contents listed names number_found pair_shown programs_lead reads sessions teams_differ unmarked"
NAMED = {*NAMED.split(), "version_number"}
LAWS = 0.7
FACT = re.compile(
    r"(?m)^ {0,2}(?:pub )?(?!(?:use|module|let|where|mutual|record|data|abbrev)\b)([^\s:(){},;.=|λ]+) : "
)
CITED = re.compile(r"(?m)^\s*use Rattle\.(?:([\w.+]+)\.\{(.*)\}|([\w.]+)(?: as \w+)?)$")
LEMMA = re.compile(
    r"(?m)^( *)(?:(?:pub|abbrev|unfoldable|opaque)\s+)*(?!use\b|module\b|let\b|where\b)([^\s:(){},;.=|λ]+)\s*:\s"
)
PART = re.compile(r"Rattle\.(\w+)\.proofs\.([^\s{}]+?)\.(?:Goals|Given|Answers|Invariants|Lts|View|Proof)\b")
TERM = re.compile(r"[^\s(){}\[\],;.:]+")


def files(crate):
    return files_of(crate.name, "proofs", ".antt") + files_of(crate.name, "specs", ".antt")


def cited_in(text):
    """What a file takes of proofs/: the crate, the module and the lemmas."""
    for head, names, whole in CITED.findall(text):
        for path, lemmas in names_in(head, names) if head else [(whole, None)]:
            crate, part, *module = re.sub(r" as \w+$", "", path).split(".")
            if part == "proofs":
                yield crate, ".".join(module), [it.split(" as ")[0] for it in lemmas or ["all of it"]]


def not_offered(crates):
    """Lemmas that another crate cites stand in files that the crate's README offers."""
    names, cited = {it.name for it in crates}, defaultdict(set)
    for crate in crates:
        for path in files(crate):
            for other, module, lemmas in cited_in(text_of(path)):
                if other in names and other != crate.name and crate.name == "worked_examples":
                    yield f"{os.path.relpath(path, TOP)}: it cites lemmas of {other}"
                elif other in names and other != crate.name:
                    cited[other, module.replace(".", "/")] |= set(lemmas)
    for (crate, module), lemmas in sorted(cited.items()):
        readme = f"{TOP}/crates/{crate}/README.md"
        if not os.path.isfile(readme) or f"`proofs/{module}.antt`" not in text_of(readme):
            yield f"crates/{crate}/README.md doesn't offer proofs/{module}.antt: {', '.join(sorted(lemmas))}"


def without_law(crates):
    """Lemmas that aren't named by subject and law, of those that another crate cites; and whether too many are."""
    facts = {}
    for crate in crates:
        for path in files_of(crate.name, "proofs", ".antt"):
            module = os.path.relpath(path, f"{TOP}/crates/{crate.name}/proofs").removesuffix(".antt").replace("/", ".")
            if not re.search(r"(?:^|\.)(?:Answers|Invariants|Proof|Lib)$", module):
                facts |= {(crate.name, module, it): path for it in FACT.findall(text_of(path))}
    for crate in crates:
        for path in files(crate):
            for other, module, lemmas in cited_in(text_of(path)):
                for it in lemmas if other != crate.name else ():
                    if (other, module, it) in facts and "-" not in it and it not in NAMED:
                        yield f"{os.path.relpath(path, TOP)}: {other} names {it} by no law, as take-append is named"
    lawful = sum("-" in it for _, _, it in facts)
    if lawful < LAWS * len(facts):
        yield f"only {lawful} of {len(facts)} lemmas are named by subject and law"


def lemmas_in(text):
    """Each lemma of a file of proofs/ with its line, and how often it stands in its own signature and proof."""
    for it in LEMMA.finditer(text):
        end = re.compile(rf"\n {{0,{len(it[1])}}}(?! |unfolding\b|{re.escape(it[2])}[\s:])").search(text, it.end())
        own = text[it.start() : end.start() if end else len(text)]
        yield it[2], text.count("\n", 0, it.start()) + 1, TERM.findall(own).count(it[2])


def idle(crates):
    """Lemmas that nothing cites but their own proofs."""
    bare_of = {path: re.sub(r"--[^\n]*", "", text_of(path)) for it in crates for path in files(it)}
    bare_of |= {path: text_of(path) for it in crates for path in it.files}
    documents = [f"{TOP}/docs/{it}" for it in os.listdir(f"{TOP}/docs") if it.endswith(".md")]
    told = set(re.findall(r"`([^`\s]+)`", "".join(map(text_of, documents))))
    count = Counter(word for text in bare_of.values() for word in TERM.findall(text))
    for path, text in sorted(bare_of.items()):
        if "/proofs/" in path and not re.search(r"(Answers|Invariants|Proof|Lib|Examples?)\.antt$", path):
            for lemma, line, own in lemmas_in(text):
                if count[lemma] <= own and lemma not in told:
                    yield f"{os.path.relpath(path, TOP)}:{line}: nothing cites {lemma}"


def of_others(crates):
    """Parts of another function's proof that a proof names."""
    for path in (path for it in crates for path in files_of(it.name, "proofs", ".antt")):
        crate, own = re.search(r"crates/(\w+)/proofs/?(.*)/[^/]+$", path).groups()
        for it in PART.finditer(text_of(path)):
            if it.groups() != (crate, own.replace("/", ".")):
                yield f"{place(path, text_of(path), it.start())}: it names {it[0]}"


def unnamed(crates):
    """Trees and columns of the broker's tables that are bare numbers."""
    below = crates_in(text_of(f"{TOP}/crates.txt"))
    over_tables = [it for it in crates if "broker_tables" in (it.name, *below[it.name])]
    for path in (path for it in over_tables for path in files(it)):
        if not os.path.relpath(path, f"{TOP}/crates").startswith(UNNAMED):
            text = re.sub(r"--[^\n]*", "", text_of(path))
            for it in PLACE.finditer(text):
                yield f"{place(path, text, it.start())}: `{it[0]}` has a name in broker_tables/specs/Schema.antt"


def faults(product, checks):
    yield from not_offered(product + checks)
    yield from without_law(product + checks)
    yield from idle(product + checks)
    yield from of_others(product + checks)
    yield from unnamed(product + checks)
