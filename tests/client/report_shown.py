"""What `holzhebo report` makes: the page, its lines; and what Chromium shows of it, which asks for nothing and runs
nothing."""
import html.parser, json, re, sys
from typing import Any, NamedTuple
from urllib.parse import quote
from tests.desk.browser import Answer, Browser
from tests.players import scenario_plays
from tests.process import TOP, Server, run
from tests.wire import OFFICE, Wrong, same

TOOL = [f"{TOP}/client/holzhebo", "report"]


def copied(file: str, to: str) -> str:
    """The copy of a stopped broker's file, with its log."""
    scenario_plays.place_copy(file, to)
    return to


def page_of(*copies: str) -> str:
    return run([sys.executable, "-W", "error", *TOOL, *copies])


def name_everything(server: Server, name: str, token: str) -> None:
    place = quote(name, safe="")
    server.do("PUT", f"/teams/{place}", OFFICE, json.dumps({"token": token}))
    server.do("PUT", f"/pacticipants/{place}", OFFICE, json.dumps({"team": name}))
    server.do("PUT", f"/environments/{place}", OFFICE, '{"gated":false}')
    server.do("PUT", f"/grants/team/{place}/environment/{place}", OFFICE)


def use_everywhere(server: Server, name: str, provider: str, token: str) -> None:
    place, other = quote(name, safe=""), quote(provider, safe="")
    body = {"consumer": {"name": name}, "provider": {"name": provider}, "interactions": []}
    server.do("PUT", f"/pacts/provider/{other}/consumer/{place}/version/{place}", token, json.dumps(body))
    server.do("PUT", f"/pacticipants/{place}/versions/{place}", token, json.dumps({"branch": name}))
    there = {"pacticipant": name, "version": name, "instance": name}
    server.do("POST", f"/environments/{place}/deployments", token, json.dumps(there))


class Page(html.parser.HTMLParser):
    """What a page has: its elements with their fields, and under each heading the text of its lines."""

    def __init__(self, text: str) -> None:
        super().__init__()
        self.elements: set[str] = set()
        self.fields: list[tuple[str, str, str | None]] = []
        self.sections: dict[str, list[str]] = {}
        self.lines: list[str] = []
        self.text: list[str] = []
        self.feed(text)

    def handle_starttag(self, tag: str, attrs: list[tuple[str, str | None]]) -> None:
        self.elements.add(tag)
        self.fields += [(tag, *it) for it in attrs]
        if tag in ("tr", "li", "p", "h2", "h3"):
            self.text = []

    def handle_data(self, data: str) -> None:
        self.text.append(data)

    def handle_endtag(self, tag: str) -> None:
        if tag in ("td", "th"):
            self.text.append("|")
        if tag == "div":
            self.text.append("\u00b6")
        if tag == "h2":
            self.lines = self.sections.setdefault("".join(self.text), [])
        elif tag in ("tr", "li", "p", "h3"):
            line = "".join(self.text).replace("\u00b6|", "|").replace("\u00b6", ";").removesuffix("|")
            self.lines.append(" ".join(line.split()))


# What a browser reports if a page does what it may not, or asks for something.
REPORTS = "Runtime.consoleAPICalled", "Runtime.exceptionThrown", "Log.entryAdded", "Audits.issueAdded"
DIALOG, ASKS = "Page.javascriptDialogOpening", "Network.requestWillBeSent"

# Of each box: its name, where it is, where its text ends, and how it is drawn.
BOXES = """[...document.querySelectorAll('svg g')].map(it => {
  const [frame, label] = ['rect', 'text'].map(name => it.querySelector(name));
  const box = frame.getBBox(), text = label.getBBox();
  return { name: it.querySelector('title').textContent, x: box.x, y: box.y, right: box.x + box.width,
    middle: box.y + box.height / 2, ends: text.x + text.width, stroke: getComputedStyle(frame).stroke };
})"""
# Of each arrow: where it begins and ends, and how it is drawn.
ARROWS = """[...document.querySelectorAll('svg path[marker-end]')].map(it => {
  const [begin, end] = [0, it.getTotalLength()].map(at => it.getPointAtLength(at));
  return { begin: [begin.x, begin.y], end: [end.x, end.y], is_now: it.matches('.now'),
    stroke: getComputedStyle(it).stroke };
})"""
SIZE = "(() => { const it = document.querySelector('svg').getBoundingClientRect(); return [it.width, it.height]; })()"
COLOURS = """['body', 'h1', 'td', 'text', 'small', '.no']
  .flatMap(name => [...document.querySelectorAll(name)].slice(0, 1))
  .map(it => { const { color, fill, backgroundColor } = getComputedStyle(it);
    return it.matches('text') ? fill : it.matches('body') ? backgroundColor : color; })"""
WIDER = "document.documentElement.scrollWidth - document.documentElement.clientWidth"
# How many tables the keyboard, or who hears the page, can't come to.
UNREACHED = """[...document.querySelectorAll('.wide')].filter(it => it.getAttribute('tabindex') !== '0'
  || it.getAttribute('role') !== 'region' || !it.getAttribute('aria-label')).length"""
# Whether a table is wider than the window; it has the keyboard then.
TOO_WIDE = """(() => {
  const it = [...document.querySelectorAll('.wide')].find(it => it.scrollWidth > it.clientWidth);
  it?.focus();
  return !!it;
})()"""
RUNS = """(() => {
  const it = document.createElement('script');
  it.textContent = 'window.ran = 1';
  document.body.append(it);
  return window.ran === 1;
})()"""


class Picture(NamedTuple):
    """What the picture has to show: how many boxes and arrows, and between whom these go, if that is given."""

    boxes: int
    arrows: int
    pairs: set[tuple[str, str]] | None


def brightness(colour: str) -> float:
    """The relative luminance of a colour (WCAG 2)."""
    parts = [int(it) / 255 for it in re.findall(r"\d+", colour)[:3]]
    linear: list[float] = [it / 12.92 if it <= 0.04045 else ((it + 0.055) / 1.055) ** 2.4 for it in parts]
    return sum(it * share for it, share in zip(linear, (0.2126, 0.7152, 0.0722)))


def can_be_read(page: Browser, scheme: str) -> None:
    """Each kind of text has a contrast of at least 4.5 with the sheet."""
    page.look(1000, scheme)
    sheet, *texts = map(brightness, page.js(COLOURS))
    least = min((max(it, sheet) + 0.05) / (min(it, sheet) + 0.05) for it in texts)
    if least < 4.5:
        raise Wrong(f"in the {scheme} scheme a text has a contrast of {least:.1f}")


def scrolls(page: Browser) -> bool:
    """Whether the element that has the keyboard is scrolled once the arrow was pressed: on a busy machine one press may
    come before the page is laid out."""
    page.press("ArrowRight")
    return bool(page.js("document.activeElement.scrollLeft > 0"))


def drawn(page: Browser, wanted: Picture) -> None:
    """Each arrow goes from the edge of its consumer's box to that of its provider's, and each name fits into its
    box."""
    if not page.js("!!document.querySelector('svg')"):
        raise Wrong("there is no picture")
    if min(page.js(SIZE)) < 20:
        raise Wrong(f"the picture has the size {page.js(SIZE)}")
    boxes, arrows = page.js(BOXES), page.js(ARROWS)
    same("boxes and arrows", (len(boxes), len(arrows)), wanted[:2])
    same("boxes and arrows that aren't drawn", [it for it in [*boxes, *arrows] if it["stroke"] == "none"], [])
    same("names that don't fit", [it["name"] for it in boxes if it["ends"] > it["right"]], [])
    lefts = {(round(it["x"]), round(it["middle"])): it["name"] for it in boxes}
    rights = {(round(it["right"]), round(it["middle"])): it["name"] for it in boxes}
    same("places of boxes", (len(lefts), len(rights)), (len(boxes), len(boxes)))
    ends = [(rights.get(spot(it["begin"])), lefts.get(spot(it["end"], 2))) for it in arrows]
    same("arrows from nothing or to nothing", [it for it in ends if None in it], [])
    if wanted.pairs is not None:
        same("arrows", set(ends), wanted.pairs)


def spot(point: list[float], more: int = 0) -> tuple[int, int]:
    return round(point[0]) + more, round(point[1])


def is_seen(it: Answer, url: str) -> bool:
    """Whether it is a report, a dialog, or a request for something else than the page."""
    return it["method"] in (*REPORTS, DIALOG) or it["method"] == ASKS and it["params"]["request"]["url"] != url


def looked_at(page: Browser, path: str, titles: list[str], wanted: Picture) -> None:
    """The report in this file: what is seen of it, and that nothing is reported."""
    url = f"file://{path}"
    page.events.clear()
    page.look(1000, "light")
    page.go(url)
    headings: list[Any] = page.js("[...document.querySelectorAll('h2')].map(it => it.innerText)")
    same("headings", [re.sub(r"of \d.*", "of ..", it) for it in headings], titles)
    drawn(page, wanted)
    for scheme in "light", "dark":
        can_be_read(page, scheme)
    for width in 1000, 360:
        page.look(width, "light")
        same(f"how much wider than {width} it is", page.js(WIDER), 0)
    same("tables that the keyboard can't reach", page.js(UNREACHED), 0)
    if page.js(TOO_WIDE):
        page.until(lambda: scrolls(page), "the end of a wide table, by the keyboard,")
    page.js("0")
    same("what the browser reports, or asks for", [it for it in page.events if is_seen(it, url)][:2], [])
    same("whether a script in it is run", page.js(RUNS), False)
