"""The rules of examples/alerts.yml, by Debian's promtool: alerts.test.yml has series in which each comes, and doesn't."""
import re
import pytest
from tests.client.test_builds import yaml_of
from tests.process import TOP, ran
from tests.wire import same

pytestmark = pytest.mark.needs("promtool")
ALERTS, TESTS = f"{TOP}/examples/alerts.yml", f"{TOP}/tests/operate/alerts.test.yml"


def test_alerts() -> None:
    """Each rule is right, is over measures that a page explains, and comes and doesn't come in the series of its
    test."""
    same("check rules", ran(["promtool", "check", "rules", ALERTS]).status, 0)
    done = ran(["promtool", "test", "rules", TESTS])
    same("test rules", (done.status, done.errors), (0, ""))
    rules = yaml_of(ALERTS)["groups"][0]["rules"]
    tests = [one for each in yaml_of(TESTS)["tests"] for one in each["alert_rule_test"]]
    for comes in True, False:
        tried = {it["alertname"] for it in tests if ("exp_alerts" in it) == comes}
        same(f"alerts that are tried, whether they come: {comes}", tried, {it["alert"] for it in rules})
    names = {it for rule in rules for it in re.findall(r"\bbroker_\w+", rule["expr"])}
    with open(f"{TOP}/docs/OPERATING.md", encoding="utf-8") as text:
        said = set(re.findall(r"`(broker_\w+)", text.read()))
    same("measures that no page explains", {re.sub("_bucket$", "", it) for it in names} - said, set())
