"""Who consumes whom."""
import collections, itertools, statistics, unicodedata
from typing import Dict, List, Set, Tuple

from holzhebo.report.copy import Copy
from holzhebo.report.markup import Markup, element, joined, visible


def levels(pairs: Set[Tuple[str, str]]) -> Dict[str, int]:
    """A column for each name, consumers before providers as far as no circle forbids it."""
    providers: Dict[str, List[str]] = collections.defaultdict(list)
    for consumer, provider in sorted(pairs):
        providers[consumer].append(provider)
    order: List[str] = []
    seen: Set[str] = set()
    for name in sorted({it for pair in pairs for it in pair}):
        stack = [(name, False)]
        while stack:
            it, is_done = stack.pop()
            if is_done:
                order.append(it)
            elif it not in seen:
                seen.add(it)
                stack += [(it, True), *((other, False) for other in reversed(providers[it]))]
    level: Dict[str, int] = dict.fromkeys(order, 0)
    place = {it: at for at, it in enumerate(reversed(order))}
    for it in reversed(order):
        for other in providers[it]:
            if place[other] > place[it]:
                level[other] = max(level[other], level[it] + 1)
    return level


def groups(pairs: Set[Tuple[str, str]]) -> List[Set[Tuple[str, str]]]:
    """The pairs, apart if no name joins them; the larger groups first."""
    parent: Dict[str, str] = {}

    def root(name: str) -> str:
        while parent.setdefault(name, name) != name:
            name = parent[name]
        return name

    for consumer, provider in sorted(pairs):
        parent[root(consumer)] = root(provider)
    found: Dict[str, Set[Tuple[str, str]]] = collections.defaultdict(set)
    for pair in pairs:
        found[root(pair[0])].add(pair)
    return sorted(found.values(), key=lambda it: (-len(it), min(it)))


WIDTH, HEIGHT, STEP_X, STEP_Y = 200, 28, 280, 40
# How many columns of letters a box has.
COLUMNS = 22


def placed(pairs: Set[Tuple[str, str]], top: int) -> Dict[str, Tuple[int, int]]:
    """Where each name of a group is drawn, from this height on."""
    columns: Dict[int, List[str]] = collections.defaultdict(list)
    for name, level in levels(pairs).items():
        columns[level].append(name)
    found: Dict[str, Tuple[int, int]] = {}
    for level in sorted(columns):
        heights: Dict[str, List[int]] = {it: [] for it in columns[level]}
        for consumer, provider in pairs:
            if provider in heights and consumer in found:
                heights[provider].append(found[consumer][1])
        names = sorted(heights, key=lambda it: (statistics.mean(heights[it] or [top]), it))
        found.update({name: (60 + level * STEP_X, top + at * STEP_Y) for at, name in enumerate(names)})
    return found


def fitting(text: str) -> str:
    """The text, or as much of it as a box has columns; letters of East Asia take two."""
    ends = [*itertools.accumulate(2 if unicodedata.east_asian_width(it) in "WF" else 1 for it in text)]
    return text if ends[-1] <= COLUMNS else text[: sum(it < COLUMNS for it in ends)] + "\u2026"


def box(name: str, place: Tuple[int, int], is_there: bool) -> Markup:
    x, y = place
    label = element("text", fitting(visible(name)), x=str(x + 10), y=str(y + 19))
    class_ = "there" if is_there else "gone"
    frame = element("rect", x=str(x), y=str(y), width=str(WIDTH), height=str(HEIGHT), rx="6", class_=class_)
    return element("g", element("title", name), frame, label)


def arrow(start: Tuple[int, int], end: Tuple[int, int], is_now: bool) -> Markup:
    x, y, to_x, to_y = start[0] + WIDTH, start[1] + HEIGHT // 2, end[0] - 2, end[1] + HEIGHT // 2
    # To the next column it is straight on; else it passes below the boxes between.
    bend, sag = (60, 0) if 0 < to_x - x < STEP_X - WIDTH else (90, 28)
    curve = f"M{x} {y}C{x + bend} {y + sag} {to_x - bend} {to_y + sag} {to_x} {to_y}"
    return element("path", d=curve, class_="now" if is_now else "once", marker_end="url(#tip)")


LEGEND = (
    "An arrow goes from a consumer to its provider; it is dotted if only versions that are nowhere have such a"
    " contract. A box is dotted if no version of the service is anywhere."
)


def picture(copy: Copy) -> Markup:
    """Who consumes whom, consumers on the left."""
    text = "SELECT DISTINCT v.pacticipant, c.provider FROM contracts c JOIN versions v ON v.number = c.version_number"
    pairs = {(str(a), str(b)) for a, b in copy.rows(text)}
    numbers = set().union(*(found for it in copy.environments for found in it.there.values()))
    now = {(copy.version(it).pacticipant, provider) for it in numbers for provider, _ in copy.contracts(it)}
    there = {copy.version(it).pacticipant for it in numbers}
    if not pairs:
        return element("p", "There is no contract.")
    places: Dict[str, Tuple[int, int]] = {}
    for group in groups(pairs):
        places.update(placed(group, max([0, *(y for _, y in places.values())]) + (STEP_Y if places else 10)))
    tip = element("path", d="M0 0L8 4L0 8z", class_="tip")
    form = {"viewBox": "0 0 8 8", "refX": "7", "refY": "4", "markerWidth": "7", "markerHeight": "7", "orient": "auto"}
    marker = element("marker", tip, id="tip", **form)
    arrows = [arrow(places[a], places[b], (a, b) in now) for a, b in sorted(pairs)]
    boxes = [box(name, place, name in there) for name, place in sorted(places.items())]
    wide = max(x for x, _ in places.values()) + WIDTH + 90
    high = max(y for _, y in places.values()) + HEIGHT + 20
    size = {"viewBox": f"0 0 {wide} {high}", "width": str(wide), "height": str(high), "role": "img"}
    drawn = element("svg", element("title", "Who consumes whom"), element("defs", marker), *arrows, *boxes, **size)
    fields = {"class_": "wide", "tabindex": "0", "role": "region", "aria_label": "Who consumes whom"}
    return joined([element("p", LEGEND), element("div", drawn, **fields)])
