"""Scenes of the page of desk/ that go well: what is done in the browser, and what is to be seen."""
from __future__ import annotations

import csv, json, os, re, shutil, time

from holzhebo.api import Lack
from holzhebo.api.shapes import shaped
from holzhebo.gate.sentences import FAULTS, sentence_of
from tests.desk.browser import Browser
from tests.desk.seen import Served, WHEN, cells, filters, leaves, settled, shows, signs_in, text, texts
from tests.desk.shown import (
    ASKED, BOARD, BUILDS, CALLED, CHANGED, LIVE, MATRIX, PROMOTED, READ, RESULTS, STOCK, STRICT, TICKET, TODAY,
    UNRESULTED, WHO, WITH_WHO,
)
from tests.desk.world import BLUE, READER, RED, World, write
from tests.process import TOP, run, text_of
from tests.wire import OFFICE, same


def board(page: Browser, world: Served) -> None:
    signs_in(page, world, READER)
    same("the board", cells(page), BOARD)
    shows(page, "board/today")
    same("the board of today", cells(page), TODAY)


def questions(page: Browser, world: Served) -> None:
    for view in "ask", "ask/shop/1.4", "matrix", "matrix/shop", "environment", "promote", "contract/stock/shop":
        shows(page, view)
        same(f"an answer's time in the form {view}", texts(page, ".when"), [])
    shows(page, "ask")
    same("the environments to choose from", texts(page, "option"), ["dev", "staging", "live"])
    for question, (verdict, why, reasons, callers, called) in ASKED.items():
        shows(page, f"ask/{question}")
        same(f"{question}: verdict", texts(page, ".verdict"), [verdict])
        same(f"{question}: why", text(page, ".verdict + p"), why)
        same(f"{question}: reasons", texts(page, ".reasons > li"), reasons)
        same(f"{question}: callers", texts(page, ".drawing > ul:first-child > li"), callers)
        same(f"{question}: called", texts(page, ".drawing > ul:last-child > li"), called)
        same(
            f"{question}: what is said aloud",
            text(page, "#said[role=status][aria-live=polite]"),
            verdict,
        )
        same(f"{question}: when", bool(re.fullmatch(WHEN, text(page, ".when"))), True)
        same(f"{question}: the title", page.js("document.title"), "Can it go? – Release desk")


def wording(page: Browser, world: World) -> None:
    """Each kind of fault is said as the client says it, but for contacts and the link to the contract."""
    shows(page, "ask/shop/1.4/live")
    ask = "/can-i-deploy?pacticipant=shop&version=1.4&environment=live"
    faults = [shaped(Lack, it) for it in json.loads(world.server.ask("GET", ask, OFFICE).body)["faults"]]
    same("kinds", sorted(it.kind for it in faults), sorted(FAULTS))
    wanted = sorted(f"{it.kind} {sentence_of(it, 'live')}" for it in faults)
    shown = [it.removesuffix(" the contract") for it in texts(page, "main li:has(> .tag)")]
    same("the reasons", sorted(re.sub(r" \((red|blue)\)", "", it) for it in shown), wanted)


def matrix(page: Browser, world: World) -> None:
    shows(page, "matrix/shop/1.4")
    same("the matrix of shop 1.4", cells(page), MATRIX)
    borders = page.js("[...document.querySelectorAll('.result')].map(it => getComputedStyle(it).borderTopStyle)")
    same("borders of claimed and checked", borders, ["dashed", "dashed", "solid", "dashed", "dashed"])
    page.js("document.querySelector('tbody details').open = true")
    page.wait("document.querySelector('tbody details a')", "the other version")
    same("what is folded", texts(page, "tbody details a"), ["6"])
    shows(page, "matrix/stock/1.0")
    same("the matrix of stock 1.0", cells(page), STOCK)
    shows(page, "matrix/web/7")
    same("the matrix of web 7", cells(page), UNRESULTED)
    shows(page, "matrix/stock/2.0/more")
    same("the heading of another", text(page, "h2"), "The matrix of stock 2.0")


def environment(page: Browser, world: World) -> None:
    shows(page, "environment/live")
    same("live", cells(page), LIVE)
    same("what strict means", texts(page, "main > p")[1], STRICT)
    shows(page, "environment")
    same("the environments", text(page, "main > p:first-of-type"), "Environments: dev staging live")


def promote(page: Browser, world: World) -> None:
    """What may go from one environment to the next: in order, or who has to act."""
    shows(page, "promote")
    same("the environments to choose from", texts(page, "select[id=to] option"), ["dev", "staging", "live"])
    to_go(world)
    for two, (verdict, left, acts, order, only) in {**PROMOTED, "garden/yard/pay": CALLED}.items():
        shows(page, f"promote/{two}")
        same(f"{two}: verdict", texts(page, ".verdict"), [verdict])
        same(f"{two}: said aloud", text(page, "#said"), verdict)
        same(f"{two}: not in the order", texts(page, "ul.steps > li"), left)
        same(f"{two}: who has to act", texts(page, ".todo"), acts)
        same(f"{two}: the order", texts(page, "ol.steps > li"), order)
        stays = [it for it in texts(page, "main > .act") if it.startswith("Only")]
        same(f"{two}: what stays", stays, [only] if only else [])
    shows(page, "promote/staging/dev")
    filters(page, "blue")
    numbers = "[...document.querySelectorAll('ol.steps > li:not([hidden])')].map(it => [it.value, it.innerText])"
    same("the number of the second, if it is filtered", page.js(numbers), [[2, "stock 1.0 for 2.0 ✓ now"]])
    shows(page, "promote/live/staging")
    page.js("[...document.querySelectorAll('main a')].find(it => it.innerText === 'it goes').click()")
    page.wait("document.querySelectorAll('ol.steps > li').length === 2", "the end of pay")
    page.js("[...document.querySelectorAll('main a')].find(it => it.innerText === 'it stays').click()")
    page.wait("document.querySelectorAll('ol.steps > li').length === 1", "the plan without it")
    settled(page)
    for service, sentence in ("shop", "shop is in live, so it can’t go."), ("mail", "mail isn’t in staging."):
        shows(page, f"promote/live/staging/{service}")
        same(f"{service} can't go", texts(page, "[role=alert]")[:1], [sentence])
    shows(page, "board")
    same("its way there", texts(page, "main a[href^='#/promote']"), ["dev to staging", "staging to live"])


def to_go(world: World) -> None:
    """Two environments that aren't on the board: garden has stock and shop, yard these and pay. They may be there."""

    def do(token: str, method: str, path: str, body: str) -> None:
        same(f"{method} {path}", world.server.ask(method, path, token, body).status, 200)

    for name, gated in ("garden", "false"), ("yard", "true"):
        do(OFFICE, "PUT", f"/environments/{name}", f'{{"gated":{gated}}}')
        for team in "red", "blue":
            do(OFFICE, "PUT", f"/grants/team/{team}/environment/{name}", "")
        for token, service, version in (BLUE, "stock", "1.1"), (BLUE, "pay", "7"), (RED, "shop", "1.4"):
            if (name, service) != ("garden", "pay"):
                body = json.dumps({"pacticipant": service, "version": version})
                do(token, "POST", f"/environments/{name}/deployments", body)


def contract(page: Browser, world: World) -> None:
    """What a contract says, how it went, and what changed in it."""
    shows(page, "contract/stock/shop/1.4")
    parts = texts(page, ".interaction > h3, .part h4, .part p, .part pre, .rules li")
    same("the contract of shop 1.4", parts, READ)
    same("its latest results", texts(page, ".results li"), RESULTS)
    same("since when", texts(page, "main a[href$='/1.4/1.3']"), ["1.3 (staging, live)"])
    shows(page, "contract/stock/shop/1.4/1.3")
    signed = [[it[2:].strip() for it in texts(page, f".changes .{kind}")] for kind in ("gone", "new")]
    same("what changed", tuple(signed), CHANGED)
    shows(page, "contract/stock/shop/1.4/1.4")
    same("nothing changed", text(page, "h3 + p"), "Nothing: both have one contract.")
    for view, count in ("ask/shop/1.4/live", 4), ("matrix/shop/1.4", 5), ("promote/dev/staging", 4):
        shows(page, view)
        same(f"links to contracts of {view}", len(texts(page, "main a[href^='#/contract/']")), count)


def pasted(page: Browser, world: World) -> None:
    """The token as a field of a password, pasted as a line for curl, with blanks."""
    page.go("about:blank")
    page.go(world.url)
    page.wait("document.activeElement.id === 'token'", "the field for a token")
    same("the field", page.js("[document.activeElement.type, document.activeElement.maxLength]"), ["password", -1])
    leaves(page)
    page.type(f"  authorization: Bearer {READER} ")
    page.press("Enter")
    settled(page)
    same("the board by it", cells(page), BOARD)


def refused_only(page: Browser, world: World) -> None:
    """Of the board only what is refused, by a click; and by a text."""
    shows(page, "board/today")
    same("how much", text(page, ".summary"), "2 of 13 refused today.")
    same("said aloud", text(page, "#said"), "2 of 13 refused today.")
    rows = "[...document.querySelectorAll('tbody tr:not([hidden]) th')].map(it => it.innerText)"
    page.js("document.getElementById('only').click()")
    same("only refused", page.js(rows), ["shop", "stock"])
    filters(page, "stock")
    same("and of stock", page.js(rows), ["stock"])
    place = page.js("getComputedStyle(document.querySelector('thead th')).position")
    same("whether the heads stay", place, "sticky")
    roles = (
        "[...new Set([...document.querySelectorAll('table, table *[role]')].map(it => it.getAttribute('role')))].sort()"
    )
    same("roles", page.js(roles), ["cell", "columnheader", "row", "rowgroup", "rowheader", "table"])


def saved(page: Browser, world: World) -> None:
    """What is shown as CSV and as text, as files; a name that a spreadsheet would take for a formula is a text."""
    page.call("Browser.setDownloadBehavior", behavior="allow", downloadPath=world.room)
    shows(page, "board")
    page.js("document.querySelector('.savings button').click()")
    page.until(lambda: os.path.exists(f"{world.room}/board.csv"), "a file")
    time.sleep(0.3)
    with open(f"{world.room}/board.csv", encoding="utf-8", newline="") as it:
        same("the board as CSV", list(csv.reader(it))[1:-1], BOARD)
    shows(page, "ask/shop/1.4/staging")
    page.js("document.querySelectorAll('.savings button')[1].click()")
    page.until(lambda: os.path.exists(f"{world.room}/ask-shop-1.4-staging.txt"), "a file")
    time.sleep(0.3)
    lines = text_of(f"{world.room}/ask-shop-1.4-staging.txt").splitlines()
    same("a question as text", lines[:4], TICKET)
    same("its address", lines[-1], f"{world.url}#/ask/shop/1.4/staging")
    quoted_by = "import('/desk/saved.js').then(it => ['=1+1', '@x', 'a\"b', '-1'].map(it.quoted))"
    same("cells", page.js(quoted_by), ['"\'=1+1"', '"\'@x"', '"a""b"', '"\'-1"'])
    for name in "board.csv", "ask-shop-1.4-staging.txt":
        os.remove(f"{world.room}/{name}")


def put_by(page: Browser, world: World) -> None:
    """Who put a version there, and when, by the files beside the page; and an environment that isn't there."""
    names = {"environments": ["dev", "nowhere", "live"], "contacts": {}, "who": True, "builds": BUILDS}
    write(f"{world.page}/desk.json", json.dumps(names))
    write(f"{world.room}/log", "".join(f"{logged(it)}\n" for it in WHO))
    run(["client/holzhebo", "who", "--page", world.page, "--log", f"{world.room}/log"])
    signs_in(page, world, READER)
    same("the board with who and an unknown environment", cells(page), WITH_WHO)
    same("what is unknown", texts(page, ".trouble"), ["nowhere: named in desk.json, unknown to the broker."])
    same(
        "since when",
        texts(page, "main > .act"),
        ["Who put it there: by the proxy’s log, since 2026-11-01T08:00:00+00:00."],
    )
    shows(page, "environment/live")
    same(
        "a build of live",
        page.js("document.querySelector('tbody tr a[rel]').href"),
        "https://ci.example.org/b/shop/1.3",
    )
    same("who, in live", [it[2] for it in cells(page)[1:3]], ["deployed 2026-11-02 by red", "deployed"])
    shows(page, "matrix/shop/1.3")
    same("who, in its matrix", texts(page, "main > .act"), ["It is in live 2026-11-02 by red."])
    odd_name(page, world, names)
    shutil.copy(f"{TOP}/examples/demo-desk.json", f"{world.page}/desk.json")


def logged(it: dict[str, str]) -> str:
    """A change as the proxy's log has it."""
    body = json.dumps({key: it[key] for key in ("pacticipant", "version", "instance") if it[key]})
    row = {"time": it["time"], "team": it["team"], "method": "POST", "path": f"/environments/live/{it['change']}"}
    return json.dumps({**row, "body": body, "status": 200, "seconds": 0.1})


def odd_name(page: Browser, world: World, names: dict[str, object]) -> None:
    """Of an environment whose name is written otherwise in an address."""
    name, place = "a/b é", "a%2Fb%20%C3%A9"
    for ask in ("PUT", f"/environments/{place}", '{"gated":false}'), ("PUT", f"/grants/team/red/environment/{place}", ""):
        same(f"{ask}", world.server.ask(*ask[:2], OFFICE, ask[2]).status, 200)
    shop = '{"pacticipant":"shop","version":"1.3"}'
    same("deployed", world.server.ask("POST", f"/environments/{place}/deployments", RED, shop).status, 200)
    write(f"{world.page}/desk.json", json.dumps({**names, "environments": [name]}))
    write(f"{world.room}/log", logged(WHO[1]).replace("/live/", f"/{place}/") + "\n")
    run(["client/holzhebo", "who", "--page", world.page, "--log", f"{world.room}/log"])
    signs_in(page, world, READER)
    same("who, in it", cells(page), [["service", "a/b é open"], ["shop", "1.3 2026-11-02 by red"]])


def none_yet(page: Browser, world: World) -> None:
    """The page of a new installation: it says what to do."""
    shutil.copy(f"{TOP}/desk/desk.json", f"{world.page}/desk.json")
    signs_in(page, world, READER)
    same(
        "a board of nothing",
        text(page, "h2 + p")[:66],
        "desk.json beside this page names no environments yet: no route of ",
    )
    shutil.copy(f"{TOP}/examples/demo-desk.json", f"{world.page}/desk.json")
