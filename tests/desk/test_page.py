"""The page of desk/ in a real browser: Chromium, before nginx and the program with the demo. What is expected is in
shown.py, written by hand; wrong pages are seen."""
from __future__ import annotations

import re
from collections.abc import Iterator

import pytest

from tests.desk import scenes
from tests.desk.browser import Browser
from tests.desk.scenes import FAILURES, GOOD, SCENES, holders, is_report, tried
from tests.desk.scenes_bad import hostile, unknown
from tests.desk.scenes_good import board
from tests.desk.scenes_look import forgotten
from tests.desk.seen import signs_in
from tests.desk.world import READER, RED, World, place
from tests.wire import OFFICE, Wrong, same

pytestmark = [pytest.mark.needs("chromium", "nginx", "curl"), pytest.mark.xdist_group("the page")]


@pytest.fixture(scope="module")
def page(world: World, tmp_path_factory: pytest.TempPathFactory) -> Iterator[Browser]:
    with Browser(str(tmp_path_factory.mktemp("browser"))) as it:
        it.look(1000, "light")
        signs_in(it, world, READER)
        yield it


@pytest.mark.parametrize("scene", SCENES + FAILURES, ids=[it.__name__ for it in SCENES + FAILURES])
def test_a_scene(scene: scenes.Scene, page: Browser, world: World) -> None:
    tried(page, world, [scene])


def test_a_script_that_is_put_into_it_is_not_run(page: Browser, world: World) -> None:
    same("whether it isn't run", page.js(INLINE), True)
    page.until(lambda: any(is_report(it, True) for it in page.events), "a report of the policy")
    page.events.clear()


# Whether a script that is put into the page isn't run.
INLINE = """(() => {
  const it = document.createElement('script');
  it.textContent = 'window.ran = 1';
  document.body.append(it);
  return window.ran === undefined;
})()"""


def test_no_token_is_kept(world: World, room: str) -> None:
    """Neither in what the browser writes, once it is closed, nor in a log of the proxy."""
    with Browser(room) as page:
        tried(page, world, [board, forgotten])
    for token in READER, OFFICE, RED:
        same("files of the browser with a token", holders(page.profile, token), [])
    for log in "access", "errors":
        same(f"tokens in {log}", re.findall("token-0+1", world.nginx.log(log)), [])


# A wrong page: its edits, and what has to be found, by the scene that is named first.
WRONG: dict[str, tuple[list[tuple[str, str]], str]] = {
    "a verdict swapped": (
        [("return answer.permitted\n", "return !answer.permitted\n")],
        "questions: shop/1.4/live: verdict",
    ),
    "a fault dropped": (
        [("faults.map(it => reason(", "faults.slice(1).map(it => reason(")],
        "questions: shop/1.4/live: reasons",
    ),
    "the last answer shown": (
        [
            ("  page('view').replaceChildren(it);\n", "  page('view').append(it);\n"),
            (
                "    view.replaceChildren(...trouble(failureOf(it)).flat(Infinity));\n",
                "    view.querySelector('[data-old]')?.removeAttribute('data-old');\n"
                "    view.prepend(...trouble(failureOf(it)).flat(Infinity));\n",
            ),
        ],
        "unknown: 404 version",
    ),
    "a name as markup": (
        [("it.textContent = text;\n  const unseen", "it.innerHTML = text;\n  const unseen")],
        "hostile: hostile names on the board",
    ),
    "a request of another method": (
        [
            (
                "const reply = await fetch(path, {",
                "fetch(path, { ...how, method: 'HEAD' });\n    const reply = await fetch(path, {",
            )
        ],
        "board: the page sends HEAD /",
    ),
    "the token in a request's address": (
        [("'/matrix?' + query({ pacticipant, version })", "'/matrix?' + query({ pacticipant, version, token })")],
        "matrix: the page sends GET /matrix",
    ),
    "the token in the page's address": (
        [("    field.value = '';", "    field.value = '';\n    location.hash = '#/board/' + text;")],
        "board: a token is in the address",
    ),
    "an environment left out": (
        [("(await listings(environments)).map(", "(await listings(environments.slice(1))).map(")],
        "board: the board",
    ),
    "a mark that is another's": (
        [("if (faults.length === 0) return [false", "if (faults.length < 2) return [false")],
        "board: the board of today",
    ),
    "an order without its turns": (
        [
            (
                "const after = plan.after(x, order).map(y => order.indexOf(y) + 1);\n      const when",
                "const after = [1];\n      const when",
            )
        ],
        "promote: staging/live: the order",
    ),
    "a team that has to act left out": (
        [("sorted.map(todo)", "sorted.slice(1).map(todo)")],
        "promote: dev/staging: who has to act",
    ),
    "rows folded that differ": (
        [("key(row.consumer, row.result)", "key(row.consumer)")],
        "matrix: the matrix of stock 1.0",
    ),
    "a contract's change hidden": ([("found.push(['-', left[i++]])", "i += 1")], "contract: what changed"),
    "an interaction left out": (
        [("interactions.map(interaction)", "interactions.slice(1).map(interaction)")],
        "contract: the contract of shop 1.4",
    ),
    "the verdict not said": (
        [("page('said').replaceChildren(...said ? said.cloneNode(true).childNodes : []);", "")],
        "questions: shop/1.4/live: what is said aloud",
    ),
    "one title for all views": ([("document.title = ", "view.title = ")], "questions: shop/1.4/live: the title"),
}


SEEN_BY = {it.__name__: it for it in [*GOOD, hostile, unknown]}


@pytest.mark.parametrize("name", WRONG)
def test_a_wrong_page_is_seen(name: str, world: World, page: Browser) -> None:
    edits, finding = WRONG[name]
    try:
        place(world.page, *edits)
        page.events.clear()
        world.forget_requests()
        with pytest.raises(Wrong, match=re.escape(finding)):
            tried(page, world, [board, SEEN_BY[finding.partition(":")[0]]])
    finally:
        place(world.page)
        page.look(1000, "light")
        page.events.clear()
        world.forget_requests()
        signs_in(page, world, READER)
