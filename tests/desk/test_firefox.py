"""The page of desk/ in Firefox: the scenes that ask nothing which only a Chromium has."""
from __future__ import annotations

from collections.abc import Iterator

import pytest

from tests.desk import scenes_bad, scenes_good, scenes_look
from tests.desk.firefox import Firefox
from tests.desk.scenes import Scene, requests_are_right
from tests.desk.scenes_look import FAINT, VIEWS
from tests.desk.seen import shows, signs_in
from tests.desk.world import READER, World
from tests.wire import same

pytestmark = [pytest.mark.needs("firefox-esr", "nginx", "curl"), pytest.mark.xdist_group("the page in Firefox")]
SCENES: list[Scene] = [scenes_good.board, scenes_good.questions, scenes_good.matrix, scenes_good.environment]
SCENES += [scenes_good.promote, scenes_good.contract, scenes_good.pasted, scenes_good.refused_only]
SCENES += [scenes_good.put_by, scenes_good.none_yet, scenes_look.keyboard, scenes_bad.unknown, scenes_bad.others]


@pytest.fixture(scope="module")
def page(world: World, tmp_path_factory: pytest.TempPathFactory) -> Iterator[Firefox]:
    with Firefox(str(tmp_path_factory.mktemp("firefox"))) as it:
        it.look(1000, "light")
        signs_in(it, world, READER)
        yield it


@pytest.mark.parametrize("scene", SCENES, ids=[it.__name__ for it in SCENES])
def test_a_scene(scene: Scene, page: Firefox, world: World) -> None:
    scene(page, world)
    requests_are_right(world)


def test_dark_and_narrow_and_printed(page: Firefox, world: World) -> None:
    """As narrow as Firefox has its window, nothing is wider than that; each text is clear in both schemes."""
    signs_in(page, world, READER)
    scenes_look.printed(page, world)
    grounds = []
    for scheme in "light", "dark":
        page.look(450, scheme)
        for view in VIEWS:
            shows(page, view)
            wide = page.js("document.documentElement.scrollWidth <= innerWidth")
            same(f"{view}, {scheme}: whether it fits, and what is faint", (wide, page.js(FAINT)), (True, []))
        grounds.append(page.js("getComputedStyle(document.body).backgroundColor"))
    same("grounds", grounds, ["rgb(246, 247, 249)", "rgb(18, 21, 26)"])
    page.look(1000, "light")
