"""The requests of the proxy's log, counted."""
import collections, datetime, os, re
from typing import Dict, Iterable, List, NamedTuple, Optional, Tuple

from holzhebo.faults import Json
from holzhebo.measures.measure import Measure, label
from holzhebo.proxy.log import Logged, requests_of

BUCKETS = (0.005, 0.01, 0.025, 0.05, 0.1, 0.25, 0.5, 1.0, 2.5, 5.0, 10.0, 60.0)
METHODS = "GET", "PUT", "POST", "DELETE"
# Why a request is refused, by its status; the gate's refusals have that of names that are taken.
GATE, TAKEN = "gate", "taken"
REFUSALS = {401: "token", 403: "policy", 404: "unknown", 409: TAKEN, 429: "rate", 444: "rate"}
REFUSALS.update(dict.fromkeys((400, 405, 413, 422, 431, 501), "form"))
KINDS = [GATE, *dict.fromkeys(REFUSALS.values())]
JUDGED = re.compile(r"/environments/[^/?]+/(?:deployments|releases)(?:\?.*)?")


def refusal_of(it: Logged) -> str:
    """Why a request was refused; nothing if it wasn't."""
    kind = REFUSALS.get(it.status, "")
    return GATE if kind == TAKEN and it.method == "POST" and JUDGED.fullmatch(it.path) else kind


class Counted(NamedTuple):
    """How many requests there were, also since a moment; which were refused; and how long they took."""

    requests: Dict[str, int]
    since: int
    refusals: Dict[str, int]
    buckets: Dict[str, int]
    seconds: float

    def json(self) -> Json:
        found = {"requests": self.requests, "buckets": self.buckets, "seconds": round(self.seconds, 3)}
        return {**found, "refusals": self.refusals}

    def measures(self) -> List[Measure]:
        kinds = {label("kind", kind): count for kind, count in self.refusals.items()}
        within = {f"_bucket|{labels}": count for labels, count in self.buckets.items()}
        ends = {"_sum|": self.seconds, "_count|": self.buckets['le="+Inf"']}
        return [
            Measure("requests_total", "counter", "Requests by method and status", {**self.requests}),
            Measure("refusals_total", "counter", "Requests that were refused, by kind", {**kinds}),
            Measure("request_seconds", "histogram", "How long requests took", {**within, **ends}),
        ]


def counted(requests: Iterable[Logged], moment: Optional[datetime.datetime] = None) -> Counted:
    statuses: Dict[Tuple[str, int], int] = collections.Counter()
    refusals = dict.fromkeys(KINDS, 0)
    within, total, since = dict.fromkeys(BUCKETS, 0), 0.0, 0
    for it in requests:
        statuses[it.method if it.method in METHODS else "other", it.status] += 1
        within.update({bucket: within[bucket] + 1 for bucket in BUCKETS if it.seconds <= bucket})
        total += it.seconds
        since += moment is not None and it.at >= moment
        kind = refusal_of(it)
        if kind:
            refusals[kind] += 1
    every = {f"{label('method', it)},{label('status', status)}": n for (it, status), n in sorted(statuses.items())}
    buckets = {label("le", f"{bucket:g}"): n for bucket, n in within.items()}
    return Counted(every, since, refusals, {**buckets, label("le", "+Inf"): sum(statuses.values())}, total)


def rotated_since(paths: Iterable[str], moment: datetime.datetime) -> int:
    """How many requests logs that were rotated have since then."""
    late = [it for it in paths if os.path.getmtime(it) >= moment.timestamp()]
    return sum(it.at >= moment for it in requests_of(late))
