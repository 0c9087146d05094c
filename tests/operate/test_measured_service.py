"""What `holzhebo metrics` says of the broker's service: under systemd on a machine of its own, and of what else systemd
may say."""
import datetime, json, os, re, time
from collections.abc import Callable
from typing import Any
import pytest
from tests.operate.front import CLIENT
from tests.operate.test_install import tried
from tests.process import TOP, ran
from tests.wire import same

pytestmark = pytest.mark.needs("promtool")
Machine = Callable[[str, list[str], float], tuple[int, str, str]]

# What `systemctl show` may say of it, with the microseconds of ten seconds ago as START and of eight as OPEN, and what is
# measured then.
LOADED, BEGAN = "LoadState=loaded\n", "ExecMainStartTimestampMonotonic=START\n"
ARGV = "ExecStart={ path=/usr/bin/broker ; argv[]=/usr/bin/broker serve --file f --connections=50 ; pid=7 }\n"
STATES: dict[str, tuple[str, dict[str, Any]]] = {
    "active": (
        f"{LOADED}ActiveState=active\n{BEGAN}ActiveEnterTimestampMonotonic=OPEN\n{ARGV}",
        {"active": 1, "openingSeconds": 2.0, "connectionsLeft": 49},
    ),
    "without a limit": (
        f"{LOADED}ActiveState=active\n{BEGAN}ActiveEnterTimestampMonotonic=OPEN\n",
        {"active": 1, "openingSeconds": 2.0},
    ),
    "opening": (
        f"{LOADED}ActiveState=activating\n{BEGAN}ActiveEnterTimestampMonotonic=0\n{ARGV}",
        {"active": 0, "openingSeconds": 10.0, "connectionsLeft": 49},
    ),
    "failed": (f"{LOADED}ActiveState=failed\n{BEGAN}ActiveEnterTimestampMonotonic=OPEN\n{ARGV}", {"active": 0}),
    "never started": (f"{LOADED}ActiveState=inactive\nExecMainStartTimestampMonotonic=0\n{ARGV}", {"active": 0}),
    "of few words": (LOADED, {"active": 0}),
    "of no number": (f"{LOADED}ActiveState=active\nExecMainStartTimestampMonotonic=n/a\n", {"active": 1}),
}
LOST = {"not there": "LoadState=not-found\nActiveState=inactive\n", "silent": "", "nonsense": "\x00\x01=="}


@pytest.mark.parametrize("name", [*STATES, *LOST])
def test_what_systemd_says(name: str, room: str) -> None:
    """By a systemctl of this test; test_service has the real one. One request came since it began, and one before."""
    text, wanted = STATES.get(name, (LOST.get(name, ""), {}))
    now = time.clock_gettime(time.CLOCK_MONOTONIC)
    for word, ago in ("START", 10), ("OPEN", 8):
        text = text.replace(word, str(round((now - ago) * 1e6)))
    start = {"systemctl": f"#!/bin/sh\nprintf '%s' '{text}'\n", "log": f"{request_at(60)}{request_at(1)}"}
    for file, content in start.items():
        with open(f"{room}/{file}", "w", encoding="utf-8") as it:
            it.write(content)
    os.chmod(f"{room}/systemctl", 0o755)
    env = {**os.environ, "PATH": f"{room}:{os.environ['PATH']}"}
    done = ran([CLIENT, "metrics", "--json", "--log", f"{room}/log", "--service", "broker"], env=env)
    found = json.loads(done.output)
    opening = found.get("openingSeconds")
    assert opening is None or abs(opening - wanted["openingSeconds"]) < 3, found
    kept = {key: it for key, it in found.items() if key in ("active", "connectionsLeft")}
    same("measured", kept, {key: it for key, it in wanted.items() if key != "openingSeconds"})
    same("whether it is said", ("openingSeconds" in found, done.status), ("openingSeconds" in wanted, 0 if wanted else 3))


def request_at(ago: float) -> str:
    """A line of the log of so many seconds ago."""
    at = datetime.datetime.now(datetime.timezone.utc) - datetime.timedelta(seconds=ago)
    row = {"time": at.isoformat(), "team": "", "method": "GET", "path": "/", "body": "", "status": 404, "seconds": 0.1}
    return json.dumps(row) + "\n"


LINES = r"""
install -d /var/lib/prometheus/node-exporter /etc/systemd/system/broker.service.d
rm -rf /var/log/nginx
mkdir /var/log/nginx
/usr/local/share/broker/examples/keep-copies.sh /usr/local/bin/broker /var/lib/broker/broker.db /backup/nightly 3 broker
said() { holzhebo metrics --service broker | grep -E '^broker_(active|opening_seconds|connections_left) ' || true; }
request() {
  echo '{"time":"'"$(date -d "$1" +%FT%T%:z)"'","team":"","method":"GET","path":"/","body":"","status":404,"seconds":0.1}'
}
printf '[Service]\nExecStart=\nExecStart=/bin/sh -c "sleep 2; exec /usr/local/bin/broker serve --file \
/var/lib/broker/broker.db --listen 127.0.0.1:9292 --connections 1000"\n' > /etc/systemd/system/broker.service.d/slow.conf
systemctl daemon-reload
systemctl restart broker
# three of these came since it began
echo nonsense | gzip > /var/log/nginx/broker.log.2.gz
touch -d '2 days ago' /var/log/nginx/broker.log.2.gz
for each in '1 day ago' '1 hour ago' now; do request "$each"; done > /var/log/nginx/broker.log.1
for each in now now; do request "$each"; done > /var/log/nginx/broker.log
echo "== active"
said
echo "== opening"
systemctl --no-block restart broker
sleep 1
said
sleep 3
echo "== stopped"
systemctl stop broker
said
holzhebo metrics --service brokr > /dev/null || echo $?
echo "== by cron"
rm /etc/systemd/system/broker.service.d/slow.conf
systemctl daemon-reload
systemctl start broker
sleep 1.1
for each in now now; do request "$each"; done >> /var/log/nginx/broker.log
@CRON@
promtool check metrics < /var/lib/prometheus/node-exporter/broker.prom
grep -c '^broker_measured{.*} 1' /var/lib/prometheus/node-exporter/broker.prom
grep -E '^broker_(connections_left|refused_versions)' /var/lib/prometheus/node-exporter/broker.prom
stat -c '%n %U %a' /var/lib/prometheus/node-exporter/*
"""


@pytest.mark.root
@pytest.mark.needs("curl", "ip", "openssl", "sqlite3", "unshare")
def test_service(machine: Machine, program: str, room: str) -> None:
    """Under systemd: an opening that takes two seconds, while it goes on and afterwards; the connections left, by logs
    of which one was rotated; and the lines of docs/OPERATING.md for cron."""
    with open(f"{TOP}/docs/OPERATING.md", encoding="utf-8") as it:
        (places, line), = re.findall(r"(?m)^((?: +[A-Z]+=.*\n)+) +\* \* \* \* \* root (holzhebo metrics .*)$", it.read())
    # What cron gives to sh: the words after = as they are, its umask, and nothing of its own surroundings.
    given = " ".join(f"'{it.strip()}'" for it in places.splitlines())
    cron = f"env -i PATH=/usr/bin:/bin {given} sh -c 'umask 022; {line}'"
    output = tried(machine, program, LINES.replace("@CRON@", cron), room)
    parts = re.split(r"(?m)^== (.*)\n", output)
    found = dict(zip(parts[1::2], parts[2::2]))
    active = re.fullmatch(r"broker_active 1\nbroker_opening_seconds (\S+)\nbroker_connections_left 997\n", found["active"])
    assert active and 2 <= float(active[1]) < 30, found
    opening = re.match(r"broker_active 0\nbroker_opening_seconds (\S+)\nbroker_connections_left 1000\n", found["opening"])
    assert opening and 0.5 <= float(opening[1]) < 30, found
    same("stopped", found["stopped"], "broker_active 0\n3\n")
    wanted = ["5", 'broker_refused_versions{environment="live"} 0', "broker_connections_left 999998"]
    same("by cron", found["by cron"].splitlines(), [*wanted, "/var/lib/prometheus/node-exporter/broker.prom root 644"])
