"""What is seen of the page of desk/ in the browser, and how a view of it is reached."""
from __future__ import annotations

import json
from typing import Protocol

from tests.desk.browser import Browser
from tests.wire import same


# When a view was answered: with its date and its zone.
WHEN = r"As the broker answered at \d{4}-\d\d-\d\d \d\d:\d\d:\d\d (UTC|UTC[+−]\d\d:\d\d)\."


class Served(Protocol):
    """Where a page is served."""

    url: str


def shows(page: Browser, view: str) -> None:
    """Goes to the view, and waits until it is there."""
    leaves(page)
    page.js(f"location.hash = {json.dumps('#/' + view)}")
    settled(page)


def leaves(page: Browser) -> None:
    """Marks the view that is there, so that the next one is known from it."""
    page.js("document.querySelector('#view > *').dataset.old = ''")


def settled(page: Browser) -> None:
    page.wait("document.querySelector('#view:not(:has(> [data-old]))[aria-busy=false]')", "a view")


def texts(page: Browser, chosen: str) -> list[str]:
    """The texts of these elements, as they are seen."""
    found: list[str] = page.js(
        f"[...document.querySelectorAll({json.dumps(chosen)})].map(it => it.innerText.replace(/\\s+/g, ' ').trim())"
    )
    return found


def text(page: Browser, chosen: str) -> str:
    return " ".join(texts(page, chosen))


def cells(page: Browser) -> list[list[str]]:
    count: int = page.js("document.querySelectorAll('table tr').length")
    texts_of = "[...row.children].map(it => it.innerText.replace(/\\s+/g, ' ').trim())"
    rows: list[list[str]] = page.js(f"[...document.querySelectorAll('table tr')].map(row => {texts_of})")
    same("tables", (page.js("document.querySelectorAll('table').length"), len(rows)), (1, count))
    return rows


def filters(page: Browser, words: str) -> None:
    """Types these words into the view's filter."""
    field = "document.getElementById('filter')"
    page.js(f"{field}.value = {json.dumps(words)}; {field}.dispatchEvent(new Event('input'))")


def signs_in(page: Browser, world: Served, token: str) -> None:
    page.go("about:blank")
    page.go(world.url)
    page.wait("document.activeElement.id === 'token'", "the field for a token")
    leaves(page)
    page.type(token)
    page.press("Enter")
    settled(page)


def again(page: Browser) -> None:
    leaves(page)
    page.js("document.querySelector('main button:last-of-type').click()")
    settled(page)


def alone(page: Browser, what: str, sentence: str) -> None:
    """The sentence of a failure is there, and nothing of an earlier answer."""
    same(what, text(page, "main"), f"No answer to show {sentence} Ask again")
    same(f"{what}: role", texts(page, "main [role=alert]"), [sentence])
    same(f"{what}: said aloud, beside the alert and the heading", text(page, "#said"), "")
    same(f"{what}: where the keyboard is", page.js("document.activeElement.innerText"), "No answer to show")
