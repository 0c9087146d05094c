"""A release of sixty services on the page, before nginx with the limit of its recipe: how long each view takes, how
tall it is, and that each of the daily questions is one view or one line."""
from __future__ import annotations

import json, os, re, time
from collections.abc import Iterator

import pytest

from tests.desk import sixty
from tests.desk.browser import Browser
from tests.desk.plan_tries import Subject
from tests.desk.scenes import requests_are_right
from tests.desk.seen import filters, shows, signs_in, texts
from tests.desk.sixty import CONTACTS, DIFFERENT, ENVIRONMENTS, SERVICES, number
from tests.desk.world import READER, World, write
from tests.process import TOP, Server, run, text_of
from tests.proxy import Nginx
from tests.wire import OFFICE, same

pytestmark = [pytest.mark.needs("chromium", "nginx"), pytest.mark.timing, pytest.mark.xdist_group("a release")]


class Sixty(World):
    """The program with the fleet, and nginx by the page's recipe with the limit of the network's."""

    def __enter__(self) -> Sixty:
        self.server.start()
        sixty.fill(self.server, sixty.asks())
        names = {"environments": ENVIRONMENTS, "contacts": CONTACTS}
        write(f"{self.page}/desk.json", json.dumps(names))
        self.start_proxy()
        return self

    def start_proxy(self) -> None:
        limits = re.findall(r"(?m)^ *(limit_req.*;)$", text_of("examples/nginx.conf"))
        same(
            "the limits of the recipe",
            [it.split()[0] for it in limits],
            ["limit_req_zone", "limit_req", "limit_req_status", "limit_req_log_level"],
        )
        recipe = text_of("examples/desk-nginx.conf").replace("127.0.0.1:9393", f"127.0.0.1:{self.nginx.port}")
        recipe = recipe.replace("127.0.0.1:9292", f"127.0.0.1:{self.server.port}")
        recipe = recipe.replace("/usr/local/share/broker/desk", self.page)
        recipe = recipe.replace("location / {", f"location / {{ {' '.join(limits[1:])}")
        assert isinstance(self.nginx, Nginx)
        self.nginx.start(f"{limits[0]}\n{recipe}")


@pytest.fixture(scope="module")
def world(program: str, tmp_path_factory: pytest.TempPathFactory) -> Iterator[Sixty]:
    with Sixty(program, str(tmp_path_factory.mktemp("sixty"))) as it:
        yield it


@pytest.fixture(scope="module")
def page(world: Sixty, tmp_path_factory: pytest.TempPathFactory) -> Iterator[Browser]:
    with Browser(str(tmp_path_factory.mktemp("browser"))) as it:
        it.look(1000, "light")
        signs_in(it, world, READER)
        yield it


# How many seconds a view may take: twice what it takes at most on an idle machine, since other tests go on beside it.
LONGEST = 4.0
# A line of a command begins a Python too.
LINE = 5.0


def takes(page: Browser, view: str) -> float:
    """The seconds until a view is whole: the least of three, if it isn't quick at once."""
    found: list[float] = []
    while len(found) < 3 and (not found or min(found) >= LONGEST):
        if found:
            shows(page, "environment/live" if view == "board" else "board")
        time.sleep(2.1)  # so that nothing of an earlier view waits at the limit
        began = time.monotonic()
        shows(page, view)
        found.append(time.monotonic() - began)
    return min(found)


def tall(page: Browser) -> int:
    height: int = page.js("document.body.offsetHeight")
    return height


class Asks:
    def __init__(self, server: Server) -> None:
        self.server = server

    def get(self, target: str) -> object:
        return json.loads(self.server.ask("GET", target).body)


def test_what_may_go(page: Browser, world: Sixty) -> None:
    """The release is there in time at fifty requests a second, and says what the command says; its order is
    carried out, each step."""
    seconds = takes(page, "promote/staging/live")
    assert seconds < LONGEST, f"it takes {seconds:.2f} s"
    assert tall(page) <= 3000, f"{tall(page)} pixels tall at a desk"
    page.look(390, "light")
    assert tall(page) <= 5000, f"{tall(page)} pixels tall on a phone"
    page.look(1000, "light")
    subject = Subject(f"{TOP}/client/src", "holzhebo")
    plan = subject.plan.Plan(subject.steps.read(Asks(world.server), "staging", "live"))
    order, _ = plan.largest()
    now = [x for x in order if not plan.after(x, order)]
    left = len(plan.all) - len(order)
    same("steps", (len(plan.all), left > 0, len(order) > len(now) > 10), (DIFFERENT, True, True))
    counts = f"{len(order)} of {DIFFERENT} may go: {len(now)} now, {len(order) - len(now)} after others"
    same("the verdict", texts(page, ".verdict"), [f"✕ {counts}; {left} not with them."])
    same("steps on the page", [len(texts(page, f"{it}.steps > li")) for it in ("ol", "ul")], [len(order), left])
    teams = {CONTACTS[actor] for fault in plan.necessary() for actor in subject.tell.actors(fault)}
    same("teams that have to act", {it.split(" one ")[0].split(" verify ")[0] for it in texts(page, ".todo h4")}, teams)
    names = [plan.steps[x].new for x in order]
    shown = page.js("[...document.querySelectorAll('ol.steps > li > a')].map(it => it.hash.split('/').slice(2, 4))")
    same("the order", shown, [[it.pacticipant, it.version] for it in names])
    requests_are_right(world)


def test_short_and_whole(page: Browser, world: Sixty) -> None:
    """A version is shown by eight digits, found by all of them, and copied whole."""
    shows(page, "board")
    shows(page, "promote/staging/live")
    whole = number(SERVICES[0], "new")
    short = page.js("document.querySelector('.steps .short').textContent.length")
    same("digits", short, 8)
    filters(page, whole)
    left = texts(page, ".steps > li:not([hidden])")
    same("found by all digits", [it.split(" for ")[0] for it in left], [f"{SERVICES[0]} {whole[:8]}"])
    copied = page.js(
        """(() => {
      const range = document.createRange(), data = new DataTransfer();
      range.selectNodeContents(document.querySelector('.steps > li:not([hidden]) > a'));
      getSelection().removeAllRanges();
      getSelection().addRange(range);
      document.dispatchEvent(new ClipboardEvent('copy', { clipboardData: data, bubbles: true, cancelable: true }));
      return data.getData('text/plain');
    })()"""
    )
    same("copied", copied, f"{SERVICES[0]} {whole}")


def test_the_matrix_folds(page: Browser, world: Sixty) -> None:
    """Of some fifteen hundred builds with one contract each consumer has three rows."""
    sixty.fill(world.server, sixty.many_builds(60))
    seconds = takes(page, f"matrix/config/{number('config', 'it')}")
    rows = texts(page, "tbody tr")
    same("rows", len(rows), 75)
    same("folded", sum("and 57 others with the same contract" in it for it in rows), 25)
    assert seconds < LONGEST, f"it takes {seconds:.2f} s"
    assert tall(page) <= 5000, f"{tall(page)} pixels tall"


# The daily questions: each is one view, or one line of the client


def test_views(page: Browser, world: Sixty) -> None:
    """May it go and why not; what is in live; who blocks it; the canary; the contract that stops it."""
    first, version = SERVICES[0], number(SERVICES[0], "new")
    fault = json.loads(
        world.server.ask("GET", f"/can-i-deploy?pacticipant={first}&version={version}&environment=live").body
    )
    for view, chosen in (
        (f"ask/{first}/{version}/live", ".verdict"),
        ("environment/live", "tbody tr"),
        ("board", "tbody tr"),
        (f"matrix/{first}/{version}", "tbody tr"),
        (f"contract/{sixty.pairs()[0][1]}/{first}/{version}", ".interaction"),
    ):
        seconds = takes(page, view)
        assert texts(page, chosen), f"{view} shows nothing"
        assert seconds < LONGEST, f"{view} takes {seconds:.2f} s"
    shows(page, f"ask/{first}/{version}/live")
    same("its reasons", len(texts(page, ".reasons > li")), len(fault["faults"]))


def test_lines(world: Sixty, room: str) -> None:
    """Rolling back, a canary, undoing a wrong record, a new team, a leaked token, who deployed last: a line each."""
    tokens = {"office.token": OFFICE, "all.token": sixty.TEAM}
    for name, token in tokens.items():
        write(f"{room}/{name}", f"{token}\n")
    write(f"{room}/broker-tokens", "# tokens that leaked\n")
    write(
        f"{room}/broker.log",
        json.dumps(
            {
                "time": "2026-11-28T09:12:44+00:00",
                "team": "all",
                "method": "POST",
                "path": "/environments/live/deployments",
                "body": json.dumps({"pacticipant": SERVICES[59], "version": number(SERVICES[59], "old")}),
                "status": 200,
                "seconds": 0.004,
            }
        )
        + "\n",
    )
    last, old = SERVICES[59], number(SERVICES[59], "old")
    env = {**os.environ, "HOLZHEBO_BROKER": world.server.url, "HOLZHEBO_TOKEN_FILE": "all.token"}
    for words in (
        f"deploy {last} {old} live",
        f"deploy {last} {old} live --instance canary",
        f"undeploy {last} {old} live --instance canary",
        "team green --new-token-file green.token --owns mail --grant live --token-file office.token",
        "replace-token all.token --new-token-file all-2.token --into broker-tokens",
        "who live --log broker.log",
    ):
        began = time.monotonic()
        run(["env", "-C", room, f"{TOP}/client/holzhebo", *words.split(" ")], env=env)
        seconds = time.monotonic() - began
        assert seconds < LINE, f"{words} takes {seconds:.2f} s"
    began = time.monotonic()
    plan = run(
        [
            "sh",
            "-c",
            f"{TOP}/client/holzhebo plan --broker {world.server.url} --token-file {room}/office.token staging live; test $? = 1",
        ]
    )
    assert time.monotonic() - began < LINE
    assert "From staging to live: " in plan and "To act: the team of " in plan
