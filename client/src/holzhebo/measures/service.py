"""The broker's service, as systemd has it."""
import datetime, re, subprocess, time
from typing import List, NamedTuple, Optional

from holzhebo.faults import Stop
from holzhebo.measures.measure import Measure, gauge
from holzhebo.text import shown

ASKED = "LoadState", "ActiveState", "ExecMainStartTimestampMonotonic", "ActiveEnterTimestampMonotonic", "ExecStart"


class Service(NamedTuple):
    """Whether it serves; when its process began; in how many seconds it has opened its file, or for how many it has been
    opening it; and how many connections it serves in all."""

    is_active: bool
    began: Optional[datetime.datetime]
    opening: float
    connections: Optional[int]


def service_of(name: str) -> Service:
    words = ["systemctl", "show", f"--property={','.join(ASKED)}", "--", name]
    try:
        said = subprocess.run(words, capture_output=True, text=True, timeout=30, check=True).stdout
    except (OSError, subprocess.SubprocessError) as why:
        raise Stop(f"systemd doesn't say how the service {shown(name)} is: {why}") from None
    found = dict(line.partition("=")[::2] for line in said.splitlines())
    if found.get("LoadState") != "loaded":
        raise Stop(f"there is no service {shown(name)}")
    state, now = found.get("ActiveState"), time.clock_gettime(time.CLOCK_MONOTONIC)
    start, active = (float(re.sub(r"\D", "", found.get(it, "")) or 0) / 1e6 for it in ASKED[2:4])
    limit = re.search(r"--connections[= ](\d+)", found.get("ExecStart", ""))
    is_there = state in ("active", "activating") and start > 0
    began = datetime.datetime.now().astimezone() - datetime.timedelta(seconds=now - start)
    opening = (active if state == "active" else now) - start
    return Service(state == "active", began if is_there else None, opening, int(limit[1]) if limit else None)


def of_service(it: Service, requests: Optional[int]) -> List[Measure]:
    """The service, to which so many requests came since it began, if that is known."""
    found = [gauge("active", "Whether the service has opened its file", int(it.is_active))]
    if it.began is not None:
        found.append(gauge("opening_seconds", "How long the last opening of the file took", round(it.opening, 3)))
        if it.connections is not None and requests is not None:
            about = "Connections until it is started again, if each request of the proxy's log was one"
            found.append(gauge("connections_left", about, max(0, it.connections - requests)))
    return found
