"""`holzhebo plan` over the demo: what it prints, by hand from the scenario of examples/demo.sh; its JSON; words."""
from __future__ import annotations

import json
from collections.abc import Iterator

import pytest

from tests.desk.world import RED, World, write
from tests.process import TOP, Ended, ran
from tests.wire import OFFICE, same

pytestmark = [pytest.mark.needs("nginx", "curl"), pytest.mark.xdist_group("plan")]


@pytest.fixture(scope="module")
def world(program: str, tmp_path_factory: pytest.TempPathFactory) -> Iterator[World]:
    with World(program, str(tmp_path_factory.mktemp("world"))) as it:
        for name, token in ("office", OFFICE), ("red", RED), ("unknown", "unknown-token-00001"), ("short", "short"):
            write(f"{it.room}/{name}", f"{token}\n")
        yield it


def planned(world: World, *words: str, token: str = "office") -> Ended:
    by = ["--broker", world.server.url, "--token-file", f"{world.room}/{token}"]
    return ran([f"{TOP}/client/holzhebo", "plan", *by, *words])


LAST = "\nThis is as the broker answers now. Each step is judged again as it is recorded, and a team needs its grant.\n"
CHANGE = "one of them has to change; then a result that passes is needed"
SHOP = f"stock 1.0 fails the contract of shop 1.4, by its latest result: {CHANGE}"
STOCK = "stock 2.0 has no result for the contract of shop 1.3: verify the contract, and send the result"
WEB = "shop 1.4 has no result for the contract of web 7: verify the contract, and send the result"

SAID = {
    "staging live": (
        0,
        "From staging to live: 1 of 1 may go, 1 now, 0 after others.\n"
        "\nIn this order:\n"
        "   1  deploy pay 7  now\n",
    ),
    "live live": (0, "From live to live: 0 of 0 may go, 0 now, 0 after others.\n"),
    "staging dev": (
        0,
        "From staging to dev: 3 of 3 may go, 3 now, 0 after others.\n"
        "dev isn't gated, so it takes everything in any order.\n"
        "\nIn this order:\n"
        "   1  deploy shop 1.3 for 1.4   now\n"
        "   2  deploy stock 1.0 for 2.0  now\n"
        "   3  deploy web 5 for 7        now\n",
    ),
    "dev staging": (
        1,
        "From dev to staging: 0 of 3 may go, 0 now, 0 after others; 3 may not go with them.\n"
        "\nNot with them, until somebody acts:\n"
        "      deploy shop 1.4 for 1.3\n"
        "      deploy stock 2.0 for 1.0\n"
        "      deploy web 7 for 5\n"
        "\nTo act: the team of shop\n"
        f"      {WEB}\n"
        "\nNone of shop 1.4 and stock 2.0 can go first, as another instance neither.\n"
        "One of these is enough:\n"
        "  the team of shop or stock\n"
        f"      {SHOP}\n"
        "  the team of stock\n"
        f"      {STOCK}\n",
    ),
    "dev staging --without shop --without web": (
        1,
        "From dev to staging: 0 of 1 may go, 0 now, 0 after others; 1 may not go with them.\n"
        "\nNot with them, until somebody acts:\n"
        "      deploy stock 2.0 for 1.0\n"
        "\nTo act: the team of stock\n"
        f"      {STOCK}; or take shop 1.3 out of staging\n",
    ),
}


@pytest.mark.parametrize("words", SAID)
def test_lines(words: str, world: World) -> None:
    status, said = SAID[words]
    same(words, planned(world, *words.split(" ")), (status, said + LAST, ""))


def test_a_token_that_is_read_once(world: World) -> None:
    """Questions go over several connections, by one token: of a shell's <(..), or from standard input."""
    words = f"{TOP}/client/holzhebo plan --broker {world.server.url} staging live --token-file"
    status, said = SAID["staging live"]
    same("by <(..)", ran(["bash", "-c", f"{words} <(cat {world.room}/office)"]), (status, said + LAST, ""))
    same("by -", ran([*words.split(" "), "-"], OFFICE), (status, said + LAST, ""))


def test_contacts(world: World) -> None:
    given = planned(world, "--contacts", f"{TOP}/examples/demo-desk.json", "dev", "staging").output
    teams = [it.strip() for it in given.splitlines() if "team of" in it]
    same(
        "teams",
        teams,
        ["To act: the team of shop (red)", "the team of shop (red) or stock (blue)", "the team of stock (blue)"],
    )


def test_json(world: World) -> None:
    status, output, _ = planned(world, "--json", "dev", "staging")
    said = json.loads(output)
    same(
        "status", (status, said["from"], said["to"], said["gated"], said["largest"]), (1, "dev", "staging", True, True)
    )
    same(
        "left",
        [[it["how"], it["pacticipant"], it["version"], it["replaces"], it["without"]] for it in said["left"]],
        [
            ["deploy", "shop", "1.4", "1.3", None],
            ["deploy", "stock", "2.0", "1.0", None],
            ["deploy", "web", "7", "5", None],
        ],
    )
    same(
        "necessary",
        said["necessary"],
        [
            {
                "consumer": "web",
                "consumerVersion": "7",
                "kind": "missing",
                "provider": "shop",
                "providerVersion": "1.4",
                "act": ["shop"],
            }
        ],
    )
    same(
        "circle",
        [[it["kind"], it["act"]] for it in said["circles"][0]],
        [["failed", ["shop", "stock"]], ["missing", ["stock"]]],
    )
    same("order", said["order"], [])


def test_a_service_goes(world: World) -> None:
    """Live has no pay; the end of staging's is a step. The canary of live isn't let in, for which it ends with 1."""
    status, output, errors = planned(world, "--json", "--gone", "pay", "live", "staging")
    steps = [[it["how"], it["pacticipant"], it["version"]] for it in json.loads(output)["order"]]
    same("pay goes", (status, errors, ["undeploy", "pay", "7"] in steps), (1, "", True))
    same("what doesn't", [[it["pacticipant"], it["version"]] for it in json.loads(output)["left"]], [["stock", "1.1"]])
    same(
        "it is there",
        planned(world, "--gone", "shop", "live", "staging")[::2],
        (3, "holzhebo: shop is in live, so it can't go\n"),
    )
    same(
        "it isn't there", planned(world, "--gone", "mail", "live", "staging")[::2], (3, "holzhebo: mail isn't in staging\n")
    )


def test_what_it_cannot_say(world: World) -> None:
    two = ["dev", "staging"]
    for got, said in (
        (planned(world, *two, token="unknown"), "the broker doesn't know this token"),
        (
            planned(world, *two, token="red"),
            "this token may not ask for each service: take the office's, or one that only reads",
        ),
        (
            planned(world, *two, token="short"),
            "token: it isn't 16 to 128 ASCII letters, digits and -._~+/=",
        ),
        (planned(world, "dev", "nowhere"), "the broker doesn't know the environment dev or nowhere"),
        (
            planned(world, "--broker", "http://example.org", *two),
            "over http the token is read on the way to example.org: use https, or give --plain",
        ),
        (planned(world, "--contacts", "nowhere", *two), "nowhere can't be read, or has no contacts"),
    ):
        same(said, got, (3, "", f"holzhebo: {said}\n"))
    same("a word too few", planned(world, "dev").status, 2)
