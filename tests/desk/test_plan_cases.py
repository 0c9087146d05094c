"""Plans of a few small fleets, by hand: services that go and call one another, and a release whose place is taken."""
from __future__ import annotations

from typing import Any

import pytest

from holzhebo.plan import Plan
from holzhebo.plan_steps import read
from holzhebo.plan_tell import LAST, Teller, as_json
from tests.desk.plan_model import Environment, Model
from tests.wire import same

Deployed = dict[str, str]
Calls = dict[tuple[str, str, str], dict[str, bool]]
GOES = "which is to go: another version of it has to do without what is to go"


def fleet(here: Deployed, there: Deployed, calls: Calls) -> Model:
    """What is deployed in staging and in live, by service; and of each consumer, its version and its provider, which
    versions of that passed."""
    it = Model()
    for name, versions in ("staging", here), ("live", there):
        it.environments[name] = Environment(True, False, {(one, ""): number for one, number in versions.items()}, set())
    for (consumer, version, provider), results in calls.items():
        it.contracts[(consumer, version), provider] = version
        for theirs, success in results.items():
            it.results[consumer, provider, version, theirs] = success, "checked"
    return it


def planned(model: Model, *gone: str) -> Plan:
    return Plan(read(model, "staging", "live", (), gone))


def said(plan: Plan) -> str:
    *lines, empty, last = Teller(plan, {}, False).lines()
    same("the end", (empty, last), ("", LAST))
    return "\n".join(lines)


CHAIN = {"shop": "1", "pay": "1", "ledger": "1"}
CHAINED: Calls = {("shop", "1", "pay"): {"1": True}, ("pay", "1", "ledger"): {"1": True}}
SELF: Calls = {("pay", "1", "pay"): {"1": True}}
EACH_OTHER: Calls = {("pay", "1", "ledger"): {"1": True}, ("ledger", "1", "pay"): {"1": True}}
# What goes: what is deployed in both, the calls, the services that go, and the lines.
GOING: dict[str, tuple[Deployed, Deployed, Calls, list[str], str]] = {
    "one after the other": (
        {"shop": "2"},
        CHAIN,
        CHAINED,
        ["pay", "ledger"],
        "From staging to live: 3 of 3 may go, 1 now, 2 after others.\n"
        "\nIn this order:\n"
        "   1  deploy shop 2 for 1  now\n"
        "   2  undeploy pay 1       after 1\n"
        "   3  undeploy ledger 1    after 2",
    ),
    "one is still called": (
        {"shop": "2"},
        CHAIN,
        {**CHAINED, ("shop", "2", "pay"): {"1": True}},
        ["pay", "ledger"],
        "From staging to live: 1 of 3 may go, 1 now, 0 after others; 2 may not go with them.\n"
        "\nIn this order:\n"
        "   1  deploy shop 2 for 1  now\n"
        "\nNot with them, until somebody acts:\n"
        "      undeploy ledger 1  waits for pay 1\n"
        "      undeploy pay 1\n"
        "\nTo act: the team of shop\n"
        f"      shop 2 calls pay, {GOES}",
    ),
    "they call each other": (
        {},
        {"pay": "1", "ledger": "1"},
        EACH_OTHER,
        ["pay", "ledger"],
        "From staging to live: 0 of 2 may go, 0 now, 0 after others; 2 may not go with them.\n"
        "\nNot with them, until somebody acts:\n"
        "      undeploy ledger 1\n"
        "      undeploy pay 1\n"
        "\nNone of ledger 1 and pay 1 can go first, as another instance neither.\n"
        "One of these is enough:\n"
        "  the team of pay\n"
        f"      pay 1 calls ledger, {GOES}\n"
        "  the team of ledger\n"
        f"      ledger 1 calls pay, {GOES}",
    ),
    "it calls itself": (
        {},
        {"pay": "1"},
        SELF,
        ["pay"],
        "From staging to live: 1 of 1 may go, 1 now, 0 after others.\n\nIn this order:\n   1  undeploy pay 1  now",
    ),
}


@pytest.mark.parametrize("name", GOING)
def test_services_go(name: str) -> None:
    here, there, calls, gone, lines = GOING[name]
    same(name, said(planned(fleet(here, there, calls), *gone)), lines)


def test_who_acts_for_what_goes() -> None:
    here, there, calls, gone, _ = GOING["one is still called"]
    necessary: list[Any] = as_json(planned(fleet(here, there, calls), *gone))["necessary"]
    same("as JSON", [(it["consumer"], it["provider"], it["act"]) for it in necessary], [("shop", "pay", ["shop"])])


def test_a_release_whose_place_is_taken() -> None:
    """Web 4 is deployed in live, where web 5 replaces it, so that its release is a step, which stock 2 doesn't suit."""
    calls = {("web", "4", "stock"): {"1": True, "2": False}, ("web", "5", "stock"): {"1": True, "2": True}}
    model = fleet({"web": "5", "stock": "2"}, {"web": "4", "stock": "1"}, calls)
    model.environments["staging"].released.add(("web", "4"))
    fails = "stock 2 fails the contract of web 4, by its latest result: one of them has to change; then a result that "
    same(
        "lines",
        said(planned(model)),
        "From staging to live: 2 of 3 may go, 2 now, 0 after others; 1 may not go with them.\n"
        "\nIn this order:\n"
        "   1  deploy web 5 for 4  now\n"
        "   2  release web 4       now\n"
        "\nNot with them, until somebody acts:\n"
        "      deploy stock 2 for 1  may go without web 4\n"
        "\nTo act: the team of stock\n"
        f"      {fails}passes is needed\n"
        "\nTo act: the team of web\n"
        f"      {fails}passes is needed",
    )
