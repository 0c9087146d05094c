"""Scenes of how the page of desk/ looks, how it is used by keys, and what it keeps."""
from __future__ import annotations

import contextlib, json, time
from collections.abc import Callable, Iterator

from tests.desk.browser import Browser, Unseen
from tests.desk.seen import filters, leaves, settled, shows, signs_in, text, texts
from tests.desk.world import READER, World
from tests.wire import same


# A while in which what still waits would be asked.
SOON = "new Promise(done => setTimeout(done, 300))"


@contextlib.contextmanager
def holding(page: Browser, addresses: str) -> Iterator[Callable[[], list[str]]]:
    """Holds the requests to such addresses; gives those that are held, or were."""
    before = len(page.events)
    page.call("Fetch.enable", patterns=[{"urlPattern": addresses}])
    try:
        yield lambda: [it["params"]["requestId"] for it in page.events[before:] if it["method"] == "Fetch.requestPaused"]
    finally:
        page.call("Fetch.disable")


def overtaken(page: Browser, world: World) -> None:
    """A question that is left is given up, and what still comes of it doesn't take the place of the later's answer."""
    signs_in(page, world, READER)
    with holding(page, "*/can-i-deploy?pacticipant=shop*") as held:
        page.js("location.hash = '#/ask/shop/1.4/live'")
        page.wait("document.querySelector('.waits')", "a question under way")
        page.until(lambda: len(held()) > 0, "a request that is held")
        same("while it is asked", text(page, "main"), "Asking the broker …")
        shows(page, "ask/web/6/live")
        lost = "Network.loadingFailed"
        page.until(lambda: any(it["method"] == lost for it in page.events), "a request that is given up")
        for it in held():
            with contextlib.suppress(Unseen):  # the browser knows none of them any more
                page.call("Fetch.continueRequest", requestId=it)
    page.js("fetch('desk.json').then(it => it.text())")
    time.sleep(0.3)
    same("the later question's verdict", texts(page, ".verdict"), ["✓ web 6 may go to live."])


def given_up(page: Browser, world: World) -> None:
    """Of a view that is left, what waits for its turn isn't asked any more."""
    signs_in(page, world, READER)
    with holding(page, "*/can-i-deploy?*") as held:
        page.js("location.hash = '#/board/today'")
        page.until(lambda: len(held()) == 6, "six requests that are held")
        shows(page, "environment/live")
        page.js(SOON)
        same("requests of the board that is left", len(held()), 6)


def late(page: Browser, world: World) -> None:
    """A mark that comes late is looked at by the box and the filter, as those before it."""
    signs_in(page, world, READER)
    rows = "[...document.querySelectorAll('tbody tr:not([hidden]) th')].map(it => it.innerText)"
    with holding(page, "*/can-i-deploy?pacticipant=stock&version=1.1&*") as held:
        page.js("location.hash = '#/board/today'")
        sofar = "1 of 13 refused today (12 of 13 answers so far)."
        page.wait(f"document.querySelector('.summary')?.innerText === {sofar!r}", "all answers but one")
        page.js("document.getElementById('only').click()")
        filters(page, "✕ refused")
        same("only refused, so far", page.js(rows), ["shop"])
        page.call("Fetch.continueRequest", requestId=held()[0])
        settled(page)
        same("only refused", page.js(rows), ["shop", "stock"])
    same("how much", text(page, ".summary"), "2 of 13 refused today.")


def old(page: Browser, world: World) -> None:
    """Ten minutes after it was asked a view says so, and asks again by a click."""
    signs_in(page, world, READER)
    same("what is said of a new one", texts(page, ".old"), [])
    page.js("window.now = Date.now; Date.now = () => window.now() + 10 * 60000")
    page.wait("document.querySelector('.old')", "that it is old")
    same("what is said of an old one", texts(page, ".old"), ["This was asked 10 minutes ago. Ask again"])
    page.js("document.querySelector('.old button').focus(); Date.now = () => window.now() + 11 * 60000")
    page.wait("document.querySelector('.old').innerText.includes(' 11 minutes ')", "that it is older")
    same("where the keyboard is", page.js("document.activeElement.innerText"), "Ask again")
    leaves(page)
    page.js("Date.now = window.now; document.querySelector('.old button').click()")
    settled(page)
    same("once it is asked again", texts(page, ".old"), [])


def keyboard(page: Browser, world: World) -> None:
    """From the token to a verdict by keys alone; each stop is seen."""
    signs_in(page, world, READER)
    stops = ["Forget the token", "Environments", "Contract", "Matrix", "Can it go?"]
    for stop in stops:
        page.press("Tab", shift=True)
        same("a stop", page.js("document.activeElement.innerText"), stop)
        same(f"the outline of {stop}", page.js("getComputedStyle(document.activeElement).outlineStyle"), "solid")
    leaves(page)
    page.press("Enter")
    settled(page)
    for word in "shop", "1.4":
        page.press("Tab")
        page.type(word)
    page.press("Tab", "ArrowDown", "ArrowDown", "Tab")
    leaves(page)
    page.press("Enter")
    settled(page)
    same("the verdict by keys", texts(page, ".verdict"), ["✕ shop 1.4 may not go to live."])
    same("its address", page.js("location.hash"), "#/ask/shop/1.4/live")
    same("where the keyboard is", page.js("document.activeElement.tagName"), "H2")


def copied(page: Browser, world: World) -> None:
    """Each version that is copied is whole, also if it is there twice; not one after which the copy begins, one that a
    filter hides, or one that is folded."""
    signs_in(page, world, READER)
    one, other = "12345678" * 5, "9abcdef0" * 5
    lines = [[one, " and ", one], [other], [one, " beside ", other], [one], [other, " and ", one]]
    wanted = f" and {one}\n\n{one} beside {other}\n\nmore\n{other} and {one}"
    same("copied", page.js(COPIED % json.dumps(lines)), wanted)


# What is copied of these lines from after the first version, if the second line is hidden and the fourth folded.
COPIED = """import('/desk/nodes.js').then(({ el, numbered }) => {
  const lines = %s.map(line => el('p', {}, line.map(it => (it.startsWith(' ') ? it : numbered(it)))));
  lines[1].hidden = true;
  lines[3] = el('details', {}, el('summary', {}, 'more'), lines[3]);
  const box = el('div', {}, lines), range = document.createRange(), data = new DataTransfer();
  document.getElementById('view').append(box);
  range.selectNodeContents(box);
  range.setStart(box.querySelector('.short').firstChild, 8);
  getSelection().removeAllRanges();
  getSelection().addRange(range);
  document.dispatchEvent(new ClipboardEvent('copy', { clipboardData: data, bubbles: true, cancelable: true }));
  return data.getData('text/plain');
})"""


VIEWS = [
    "board/today", "ask/shop/1.4/live", "matrix/shop/1.4", "environment/live", "promote/dev/staging",
    "promote/staging/live", "contract/stock/shop/1.4/1.3",
]


def printed(page: Browser, _: World) -> None:
    """The answer is printed, and not what is only clicked."""
    shows(page, "ask/shop/1.4/live")
    page.medium("print")
    shown = page.js(
        "['nav', 'form', 'header button', '.verdict'].map(it => getComputedStyle(document.querySelector(it)).display)"
    )
    same("printed: links, form, button, verdict", shown, ["none", "none", "none", "block"])
    page.medium("")


def looks(page: Browser, world: World) -> None:
    """Narrow, dark, and printed."""
    signs_in(page, world, READER)
    grounds = []
    for scheme in "light", "dark":
        page.look(320, scheme)
        for view in VIEWS:
            shows(page, view)
            same(f"how wide {view} is", page.js("document.documentElement.scrollWidth"), 320)
            same(f"contrast of {view}, {scheme}", page.js(FAINT), [])
        grounds.append(page.js("getComputedStyle(document.body).backgroundColor"))
    same("grounds", grounds, ["rgb(246, 247, 249)", "rgb(18, 21, 26)"])
    page.look(1000, "light")
    printed(page, world)


# The texts whose colour is less than 4.5 times as light or dark as what is under them (WCAG 2.1, 1.4.3).
FAINT = """(() => {
  const part = it => it <= 0.03928 ? it / 12.92 : ((it + 0.055) / 1.055) ** 2.4;
  const light = it => {
    const [red, green, blue] = it.match(/[\\d.]+/g).map(each => part(each / 255));
    return 0.2126 * red + 0.7152 * green + 0.0722 * blue;
  };
  const under = it => {
    const own = getComputedStyle(it).backgroundColor;
    return own === 'rgba(0, 0, 0, 0)' ? under(it.parentElement) : own;
  };
  const ratio = it => {
    const two = [light(getComputedStyle(it).color), light(under(it))];
    return (Math.max(...two) + 0.05) / (Math.min(...two) + 0.05);
  };
  const hasText = it => [...it.childNodes].some(each => each.nodeType === 3 && each.data.trim());
  return [...document.querySelectorAll('body *')].filter(it => hasText(it) && ratio(it) < 4.5).map(it => it.outerHTML);
})()"""


def forgotten(page: Browser, world: World) -> None:
    """The token is in no storage and no address of the page, and it can be forgotten."""
    signs_in(page, world, READER)
    kept = "JSON.stringify([localStorage, sessionStorage, history.state, document.documentElement.outerHTML])"
    held: str = (
        page.js(kept)
        + page.js("location.href")
        + page.js("indexedDB.databases().then(JSON.stringify)")
        + page.js("caches.keys().then(JSON.stringify)")
    )
    same("the token in what the page stores", READER in held, False)
    stored = page.js("[localStorage.length, sessionStorage.length]") + page.call("Network.getCookies")["cookies"]
    same("what the page stores", stored, [0, 0])
    leaves(page)
    page.js("document.getElementById('forget').click()")
    settled(page)
    same("forgotten", text(page, "h2"), "Your token")
    shows(page, "ask/shop/1.4/live")
    same("after it", text(page, "h2"), "Your token")
