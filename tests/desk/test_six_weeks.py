"""The page over the file of a fleet that has built for six weeks, 50,400 builds: how long each view takes, and how tall it
is."""
import json, sqlite3, time
from contextlib import closing

import pytest

from tests.desk.browser import Browser
from tests.desk.seen import shows, signs_in, texts
from tests.desk.test_release import LONGEST
from tests.desk.world import READER, by_nginx, place, write
from tests.operate.carry_fleet import make
from tests.process import Server
from tests.proxy import Nginx
from tests.wire import same

pytestmark = [pytest.mark.needs("chromium", "nginx"), pytest.mark.timing, pytest.mark.xdist_group("a release")]
DAYS, BUILDS = 42, 50400
# How many rows of the matrix a version has there at least, and how tall a view may be.
ROWS, TALLEST = 100, 5000
LIVE = "SELECT pacticipant, version FROM deployed JOIN versions USING (pacticipant) WHERE environment = 'live'"


class Desk:
    """Where the page is served."""

    def __init__(self, nginx: Nginx) -> None:
        self.url = f"http://127.0.0.1:{nginx.port}/desk/"


def one_of_live(file: str) -> tuple[str, str]:
    """A version that is in live; and that there are as many builds as it says."""
    with closing(sqlite3.connect(file)) as base:
        same("builds", base.execute("SELECT count(*) FROM versions").fetchone()[0], BUILDS)
        found: tuple[str, str] = base.execute(f"{LIVE} AND number = version_number").fetchone()
    return found


def test_six_weeks(program: str, room: str, nginx: Nginx, browser: Browser) -> None:
    """The matrix is folded, so that its page is as short as of a few builds."""
    file = f"{room}/fleet.db"
    make(program, file, DAYS)
    service, version = one_of_live(file)
    place(f"{room}/desk")
    write(f"{room}/desk/desk.json", json.dumps({"environments": ["test", "live"], "contacts": {}}))
    with Server(program, file) as server:
        by_nginx(nginx, server.port, f"{room}/desk")
        rows = json.loads(server.ask("GET", f"/matrix?pacticipant={service}&version={version}").body)["rows"]
        same("whether it has many rows", len(rows) > ROWS, True)
        browser.look(1000, "light")
        signs_in(browser, Desk(nginx), READER)
        for view in f"matrix/{service}/{version}", "board/today", "promote/test/live", f"ask/{service}/{version}/live":
            began = time.monotonic()
            shows(browser, view)
            took, tall = time.monotonic() - began, browser.js("document.body.offsetHeight")
            same(f"what fails of {view}", texts(browser, "[role=alert]"), [])
            assert took < LONGEST, f"{view} takes {took:.2f} s"
            assert 300 < tall < TALLEST, f"{view} is {tall} pixels tall"
