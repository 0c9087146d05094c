"""Scenes in which something fails, or somebody has chosen names that mislead."""
from __future__ import annotations

import base64, contextlib, json, shutil

from tests.desk.browser import Browser, Unseen
from tests.desk.scenes_look import SOON, holding
from tests.desk.seen import again, alone, cells, leaves, settled, shows, signs_in, text, texts
from tests.desk.shown import INSTEAD, LONG, MARKUP, SLASH, TURNED, WITHOUT
from tests.desk.world import BLUE, DENIED, READER, RED, World, stub, write
from tests.process import TOP
from tests.wire import OFFICE, same


def asks_in_vain(page: Browser, what: str, view: str, sentence: str) -> None:
    shows(page, "ask/web/5/live")
    same(f"before {what}", texts(page, ".verdict"), ["✓ web 5 may go to live."])
    shows(page, view)
    alone(page, what, sentence)


def unknown(page: Browser, world: World) -> None:
    asks_in_vain(page, "404 version", "ask/shop/9.9/live", "The broker has no version 9.9 of shop.")
    asks_in_vain(page, "404 pacticipant", "matrix/shp/1.4", "The broker has no pacticipant shp.")
    neither = "The broker has no pacticipant nobody, or none called shop."
    asks_in_vain(page, "404 pacticipant of two", "contract/nobody/shop/1.4", neither)
    asks_in_vain(page, "404 environment", "ask/shop/1.4/lve", "The broker has no environment lve.")
    asks_in_vain(page, "a name of dots", "environment/..", "No browser can ask for an environment called ...")
    asks_in_vain(page, "422", "ask/shop/%0a/live", "The broker can’t read the question: one of its words isn’t a name.")
    asks_in_vain(page, "no such view", "nothing", "This address isn’t one of this page.")
    asks_in_vain(page, "no address", "ask/%ff", "This address isn’t one of this page.")


def others(page: Browser, world: World) -> None:
    """Another team's token, and one that nobody has."""
    signs_in(page, world, RED)
    shows(page, "ask/shop/1.4/live")
    same("red's own service", texts(page, ".verdict"), ["✕ shop 1.4 may not go to live."])
    shows(page, "ask/pay/7/live")
    alone(page, "403", "This token may not ask that: only the service’s own team, or the office, may.")
    shows(page, "board/today")
    same("another team's mark", cells(page)[1], ["pay", "7 not shown to this token", "7 not shown to this token", "–"])
    same("how much", texts(page, ".summary"), ["1 of 7 refused today; 6 not shown to this token."])
    signs_in(page, world, BLUE)
    shows(page, "contract/stock/shop/1.4")
    unshown = "Not shown to this token: only the consumer’s team, or the office, may ask."
    same("results of a contract of two teams", texts(page, "h3 + p"), [unshown])
    signs_in(page, world, "unknown-token-00001")
    same("401", text(page, "main [role=alert]"), "The broker doesn’t know this token.")
    signs_in(page, world, "short")
    same(
        "no token", text(page, "main [role=alert]"), "This isn’t a token: it has 16 to 128 letters, digits and -._~+/=."
    )


def revoked(page: Browser, world: World) -> None:
    """Once the broker doesn't know a token any more, it isn't asked with it, but for what was next."""
    signs_in(page, world, READER)
    with holding(page, "*/can-i-deploy?*") as held:
        page.js("location.hash = '#/board/today'")
        page.until(lambda: len(held()) == 6, "six requests that are held")
        denied = base64.b64encode(DENIED.encode()).decode()
        for it in held()[:6]:
            with contextlib.suppress(Unseen):  # after the first one the others are given up
                page.call("Fetch.fulfillRequest", requestId=it, responseCode=401, body=denied)
        page.wait("document.activeElement.id === 'token'", "the field for a token")
        page.js(SOON)
        same(f"whether {len(held())} requests of the board are too many", len(held()) > 7, False)


def stopped(page: Browser, world: World) -> None:
    """The broker is stopped, something else is in its place, it is started again, and the proxy is stopped."""
    signs_in(page, world, READER)
    shows(page, "ask/web/5/live")
    busy = "The proxy answers 502: the broker isn’t running, is being started, or is busy. Ask again in some seconds."
    with world.without_broker():
        shows(page, "ask/shop/1.4/live")
        alone(page, "502", busy)
        for what, status, body, sentence in INSTEAD:
            with stub(world.server.port, status, body):
                again(page)
                alone(page, what, sentence)
    again(page)
    same("started again", texts(page, ".verdict"), ["✕ shop 1.4 may not go to live."])
    with world.without_proxy():
        shows(page, "ask/web/6/live")
        alone(page, "no network", WITHOUT)
    again(page)
    same("with a network again", texts(page, ".verdict"), ["✓ web 6 may go to live."])
    with world.without_broker(), stub(world.server.port, 401, DENIED):
        shows(page, "ask/shop/1.4/live")
        same("401 after a verdict", text(page, "main [role=alert]"), "The broker doesn’t know this token.")
        same("no verdict beside it", "may" in text(page, "main"), False)
        same("the token is forgotten", page.js("document.getElementById('forget').hidden"), True)


def put_hostile(world: World) -> None:
    """Services, a version, an instance, an environment by names that would be markup, or turn what is around them."""
    server = world.server
    server.do("PUT", "/environments/a%2Fb", OFFICE, '{"gated":false}')
    server.do("PUT", "/grants/team/red/environment/a%2Fb", OFFICE)
    for name in MARKUP, TURNED, SLASH, LONG:
        server.do("PUT", "/pacticipants/" + quoted(name), OFFICE, '{"team":"red"}')
        server.do("PUT", f"/pacticipants/{quoted(name)}/versions/{quoted(MARKUP)}", RED)
    contract = {"consumer": {"name": MARKUP}, "provider": {"name": TURNED}, "interactions": []}
    path = f"/pacts/provider/{quoted(TURNED)}/consumer/{quoted(MARKUP)}/version/{quoted(MARKUP)}"
    server.do("PUT", path, RED, json.dumps(contract))
    for name in MARKUP, TURNED, SLASH, LONG:
        body = {"pacticipant": name, "version": MARKUP, "instance": TURNED}
        server.do("POST", "/environments/a%2Fb/deployments", RED, json.dumps(body))


def quoted(name: str) -> str:
    return "".join(f"%{it:02X}" for it in name.encode())


def hostile(page: Browser, world: World) -> None:
    if world.server.ask("GET", "/environments/a%2Fb").status == 404:
        put_hostile(world)
    write(f"{world.page}/desk.json", json.dumps({"environments": [SLASH], "contacts": {TURNED: MARKUP}}))
    signs_in(page, world, READER)
    turned, instance = f"{TURNED} (with U+202E)", f"{MARKUP} deployed as {TURNED} (with U+202E)"
    wanted = [["service", "a/b open"], [MARKUP, instance], [SLASH, instance], [LONG, instance], [turned, instance]]
    same("hostile names on the board", cells(page), wanted)
    apart(page)
    leaves(page)
    page.js("document.querySelector('tbody a').click()")
    settled(page)
    same("a link to a hostile name", text(page, "h2"), f"The matrix of {MARKUP} {MARKUP}")
    shows(page, f"ask/{quoted(MARKUP)}/{quoted(MARKUP)}/a%2Fb")
    why = f"missing {turned} {MARKUP} has no result for the contract of {MARKUP} {MARKUP}."
    act = f"To act: the team of {turned} ({MARKUP}): verify the contract, and send the result."
    same("hostile names in a reason", texts(page, ".reasons > li"), [f"{why} {act} the contract"])
    apart(page)
    page.look(320, "light")
    for view in (
        "board",
        "environment/a%2Fb",
        f"matrix/{LONG}/{quoted(MARKUP)}",
        f"ask/{LONG}/{quoted(MARKUP)}/a%2Fb",
        f"contract/{quoted(TURNED)}/{quoted(MARKUP)}/{quoted(MARKUP)}",
        "promote/a%2Fb/live",
    ):
        shows(page, view)
        same(f"how wide {view[:20]} is", page.js("document.documentElement.scrollWidth"), 320)
    page.look(1000, "light")
    shutil.copy(f"{TOP}/examples/demo-desk.json", f"{world.page}/desk.json")


def apart(page: Browser) -> None:
    """No name has become markup, and what turns a line is in a <bdi> of its own."""
    same("markup of names", page.js("document.querySelectorAll('img, b, script:not([src])').length"), 0)
    stray = """(() => { const walk = document.createTreeWalker(document.body, NodeFilter.SHOW_TEXT), found = [];
      const isStray = it => it.data.includes('\\u202e') && it.parentNode.tagName !== 'BDI';
      while (walk.nextNode()) if (isStray(walk.currentNode)) found.push(walk.currentNode.data);
      return found; })()"""
    same("what turns a line", page.js(stray), [])
