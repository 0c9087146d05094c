"""The faults that the gate finds, in sentences: what a pair lacks, and who has to act. The client, its plan and its report
have them from here; the page has the same in desk/gate.js, which tests/desk holds to these."""
from typing import Dict, NamedTuple, Tuple

from holzhebo.api import Lack
from holzhebo.text import shown


class Told(NamedTuple):
    """What is so, what has to be done, and whose team can do it: that of the consumer or of the provider. A plan leaves
    `more` out."""

    so: str
    act: str
    by: Tuple[str, ...] = ("provider",)
    more: str = ""


FAULTS: Dict[str, Told] = {
    "absent": Told(
        "{one} calls {provider}, of which no version is in {environment}",
        "deploy a version of it there first",
        more=" Promote on the page, or holzhebo plan FROM TO, says which may go.",
    ),
    "missing": Told(
        "{other} has no result for the contract of {one}",
        "verify the contract, and send the result",
    ),
    "failed": Told(
        "{other} fails the contract of {one}, by its latest result",
        "one of them has to change; then a result that passes is needed",
        ("consumer", "provider"),
    ),
    "claimed": Told(
        "{other} only claims to keep the contract of {one}, and {environment} wants it checked",
        "send the replies that were recorded",
    ),
}
# Of a service that is to go, in a plan.
GONE = Told(
    "{one} calls {provider}, which is to go",
    "another version of it has to do without what is to go",
    ("consumer",),
)


def sentence_of(lack: Lack, environment: str) -> str:
    """What a pair lacks, and who has to act. A kind that isn't known here is named."""
    one, other = f"{lack.consumer} {lack.consumer_version}", f"{lack.provider} {lack.provider_version}"
    sides = {"consumer": shown(lack.consumer), "provider": shown(lack.provider)}
    if lack.kind not in FAULTS:
        return f"{shown(one)} and {sides['provider']}: {shown(lack.kind)}. See docs/DEFINITIONS.md."
    so, act, by, more = FAULTS[lack.kind]
    teams = " and ".join(f"the team of {sides[it]}" for it in by)
    names = {"one": shown(one), "other": shown(other), "environment": shown(environment)}
    return f"{so.format(**sides, **names)}. To act: {teams}: {act}.{more}"
