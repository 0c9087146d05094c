"""The scenes of the page of desk/, and what is so after each. A scene takes the browser and the world in which the page
is served."""
from __future__ import annotations

import os, re
from collections.abc import Callable

from tests.desk.browser import Answer, Browser, Unseen
from tests.desk.scenes_good import board, contract, environment, matrix, none_yet, pasted, promote, put_by, questions
from tests.desk.scenes_good import refused_only, saved, wording
from tests.desk.scenes_look import copied, forgotten, given_up, keyboard, late, looks, old, overtaken
from tests.desk.scenes_bad import hostile, others, revoked, stopped, unknown
from tests.desk.world import World
from tests.wire import Wrong


ROUTES = (
    r"/desk/([a-z]+\.js|desk\.css|(desk|who-[a-zA-Z0-9%]+)\.json)?|/environments/[^/?]+"
    r"|/matrix\?pacticipant=[^&]+&version=[^&]+"
    r"|/pacts/provider/[^/?]+/consumer/[^/?]+/version/[^/?]+"
    r"|/can-i-deploy\?pacticipant=[^&]+&version=[^&]+&environment=[^&]+"
)


def requests_are_right(world: World) -> None:
    for method, path in world.requests():
        if method != "GET" or not re.fullmatch(ROUTES, path):
            raise Wrong(f"the page sends {method} {path}")


LOUD = "Runtime.consoleAPICalled", "Runtime.exceptionThrown", "Page.javascriptDialogOpening"


def is_report(event: Answer, fails: bool) -> bool:
    """Whether a fault is reported: by the console, the policy of contents, or a dialog; a failed request isn't one if
    some are to fail."""
    entry = event["params"].get("entry", {"level": "none"})
    failed = entry.get("source") == "network" and entry["text"].startswith("Failed to load resource")
    is_logged = entry["level"] in ("warning", "error") and not (fails and failed)
    return is_logged or event["method"] in LOUD or "ContentSecurityPolicyIssue" in str(event)


def is_quiet(page: Browser, fails: bool) -> None:
    """Nothing is reported, and no address has had a token."""
    for it in page.events:
        if is_report(it, fails):
            raise Wrong(f"the browser reports {it}")
        params = it["params"]
        addresses = [str(each.get("url")) for each in (params, params.get("request", {}), params.get("frame", {}))]
        if "token-0" in " ".join(addresses):
            raise Wrong(f"a token is in the address {addresses}")
    page.events.clear()


def holders(folder: str, secret: str) -> list[str]:
    """The files below the folder that hold the text."""
    paths = [os.path.join(where, it) for where, _, files in os.walk(folder) for it in files]
    return [it for it in paths if os.path.isfile(it) and secret.encode() in open(it, "rb").read()]


Scene = Callable[[Browser, World], None]


GOOD: list[Scene] = [board, questions, matrix, environment, promote, contract]


SCENES: list[Scene] = [
    *GOOD, wording, pasted, refused_only, late, saved, copied, overtaken, given_up, old, keyboard, looks, forgotten,
    hostile, none_yet,
]


FAILURES: list[Scene] = [unknown, others, revoked, stopped, put_by]


def tried(page: Browser, world: World, scenes: list[Scene]) -> None:
    for scene in scenes:
        try:
            scene(page, world)
            requests_are_right(world)
            is_quiet(page, scene in FAILURES)
        except (Wrong, Unseen) as it:
            raise Wrong(f"{scene.__name__}: {it}") from it
