"""The rules of clauses.

- A clause has at most 240 characters, blanks squeezed, and at most one in twenty has over 160.
- A public function has at most four `ensures`.
- No public clause rests on a definition that is marked "for private clauses": by the comment before it, by that of its
  section (`-- ----`), or by the first of its file."""
from definitions import WORD, closure, graph, named_in, text_of
from sources import CLAUSE, bare, closing, place

WIDEST, WIDE, SHARE, MOST = 240, 160, 20, 4


def widths(crates):
    """How many characters each clause has, and its place."""
    for path in (it for crate in crates for it in crate.files):
        text = text_of(path)
        code = bare(text)
        for it in CLAUSE.finditer(code):
            clause = " ".join(text[it.end() : closing(code, it.end()) - 1].split())
            yield len(clause), place(path, text, it.start())


def too_wide(crates):
    found = sorted(widths(crates), reverse=True)
    yield from (f"{at}: a clause of {width} characters, more than {WIDEST}" for width, at in found if width > WIDEST)
    wide = sum(width > WIDE for width, _ in found)
    if wide * SHARE > len(found):
        share = f"{100 * wide / len(found):.1f} %, more than {100 // SHARE} %"
        yield f"{wide} of {len(found)} clauses have more than {WIDE} characters: {share}"


def too_many(crates):
    for it in (it for crate in crates for it in crate.functions):
        if it.is_pub and it.ensures > MOST:
            yield f"{place(it.path, it.code, it.at)}: {it.title} has {it.ensures} ensures, more than {MOST}"


def on_private(crates):
    """The public clauses that rest on what is marked as for private ones."""
    (places, names, marked), begun = graph([it.name for it in crates]), set()
    for it in (it for crate in crates for it in crate.functions if crate.is_public(it)):
        named = named_in(text_of(it.path))
        begun |= {named[word] for word in WORD.findall(text_of(it.path)[it.at : it.begin]) if word in named}
    for it in sorted(marked & closure(begun, names)):
        yield f"{places[it][0]}: a public clause rests on {it[2]}, which is marked as for private ones"


def faults(product, checks):
    yield from too_wide(product + checks)
    yield from too_many(product)
    yield from on_private(product)
