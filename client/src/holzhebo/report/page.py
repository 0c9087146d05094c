"""The page, and what a machine reads of it."""
import collections, tempfile, time
from typing import List, Optional

from holzhebo.desk.names import named_in
from holzhebo.faults import Json
from holzhebo.pact.json import compact
from holzhebo.report.board import board, outdated, refusals
from holzhebo.report.copy import Copy, Refused
from holzhebo.report.gate import needs, outcome
from holzhebo.report.markup import element, joined
from holzhebo.report.names import KINDS, TABLES, attach, changes, evidence, registry, sizes, unused
from holzhebo.report.picture import picture
from holzhebo.report.work import work_json, work_list


STYLE = """
:root { color-scheme: light dark; --sheet: #fff; --ink: #1c2128; --soft: #5b6570; --line: #d5dae0; --no: #a51d14 }
@media (prefers-color-scheme: dark) {
  :root { --sheet: #1b2027; --ink: #e6eaef; --soft: #a1abb7; --line: #363e49; --no: #ff9a92 } }
body { margin: 0 auto; max-width: 76rem; padding: 1rem; background: var(--sheet); color: var(--ink);
  font: 16px/1.5 system-ui, "DejaVu Sans", sans-serif; overflow-wrap: anywhere }
h2 { margin: 2.5rem 0 .5rem; border-bottom: 2px solid var(--line) }
h3 { margin: 1rem 0 0; font-size: 1rem }
ul { margin: .2rem 0 }
nav ol { columns: 20rem; padding-left: 1.5rem }
a { color: inherit }
caption { text-align: left; color: var(--soft) }
bdi { white-space: pre-wrap }
small, p.about { color: var(--soft) }
.wide { overflow-x: auto; margin: 0 0 1.5rem }
.no { color: var(--no) }
table { border-collapse: collapse }
th, td { border-bottom: 1px solid var(--line); padding: .4rem .8rem .4rem 0; text-align: left; vertical-align: top;
  min-width: 6rem }
text { fill: var(--ink); font: 13px "DejaVu Sans Mono", monospace; white-space: pre }
rect { fill: var(--sheet); stroke: var(--ink) }
path { fill: none; stroke: var(--soft); stroke-width: 1.5 }
.gone { stroke-dasharray: 3 3 }
.once { stroke-dasharray: 2 4 }
.tip { fill: var(--soft); stroke: none }
"""
POLICY = "default-src 'none'; style-src 'unsafe-inline'"
ABOUT = (
    "A second reading of the tables of one broker, from a copy of its file: made by other statements than the broker's,"
    " tested against its answers, not proved. It says what was so when the copy was made. Whether a version may be"
    " deployed is decided by the broker, as the deployment is recorded, and only then."
)


def moment(seconds: float) -> str:
    return time.strftime("%Y-%m-%d %H:%M:%S UTC", time.gmtime(seconds))


def dated(copy: Copy) -> str:
    return f"copy of {moment(copy.made)}" if copy.is_dated else f"copy, whose file is of {moment(copy.made)}"


def page(copy: Copy, earlier: Optional[Copy]) -> str:
    sections = {
        "What is where": board(copy),
        "Who consumes whom": picture(copy),
        "Consumers with another contract than their newest": outdated(copy),
        "What providers have to verify": work_list(copy),
        "Owners and grants": registry(copy),
        "Names that nothing uses": unused(copy),
        "Claimed and checked": evidence(copy),
        **({f"Since the {dated(earlier)}": changes(copy)} if earlier else {}),
        "Rows and bytes": sizes(copy, earlier),
    }
    body = [element("h1", "A broker's report"), element("p", f"The {dated(copy)}.")]
    body.append(element("p", ABOUT, class_="about"))
    links = [element("li", element("a", title, href=f"#part-{at}")) for at, title in enumerate(sections, 1)]
    body.append(element("nav", element("ol", *links), aria_label="Contents"))
    for at, (title, part) in enumerate(sections.items(), 1):
        body.append(element("section", element("h2", title, id=f"part-{at}"), part))
    head = '<meta charset="utf-8"><meta name="viewport" content="width=device-width">'
    head += f'<meta http-equiv="Content-Security-Policy" content="{POLICY}">'
    head += f"<title>A broker's report</title><style>{STYLE}</style>"
    return f'<!doctype html>\n<html lang="en"><head>{head}</head>\n<body>{joined(body)}</body></html>\n'


def numbers(copy: Copy) -> Json:
    """What a machine reads: of each environment what the gate would have refused and how needs are met; what is to be
    verified; rows and bytes."""
    environments = {}
    for there in copy.environments:
        present = set().union(*there.there.values())
        count = collections.Counter(
            outcome(copy, it) for it in set().union(*(needs(copy, there, one) for one in present))
        )
        refused = [copy.version(number) for number, _ in refusals(copy, there)]
        environments[there.name] = {
            "gated": there.gated,
            "strict": there.strict,
            "versions": len(present),
            "refused": [it._asdict() for it in refused],
            "needs": {it: count[it] for it in KINDS},
        }
    rows = {it: copy.number(f"SELECT count(*) FROM {it}") for it in TABLES}
    found = {"made": moment(copy.made), "bytes": copy.size, "environments": environments, "rows": rows}
    return {**found, "toVerify": work_json(copy)}


def order_in(path: Optional[str]) -> List[str]:
    """The environments in the order of the page's desk.json."""
    if path is None:
        return []
    names = named_in(path, "environments")
    if not isinstance(names, list):
        raise Refused(f"{path} can't be read, or names no environments")
    return [it for it in names if isinstance(it, str)]


def report(paths: List[str], as_json: bool, names: Optional[str] = None) -> str:
    """The page, or its numbers as JSON, of a copy and of an earlier one if there is a second path."""
    order = order_in(names)
    with tempfile.TemporaryDirectory() as room:
        copy, *others = [Copy(it, room) for it in paths]
        copy.environments.sort(key=lambda it: order.index(it.name) if it.name in order else len(order))
        for it in others:
            attach(copy, it, room)
        return compact(numbers(copy)) + "\n" if as_json else page(copy, others[0] if others else None)
