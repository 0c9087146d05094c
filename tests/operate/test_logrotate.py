"""examples/logrotate, by logrotate itself beside the file that Debian's nginx has for its logs: the log of who changed
what is kept for 400 days, the others for as long as before, and neither file is refused for naming a log twice."""
import os, re
import pytest
from tests.process import ran, text_of
from tests.wire import same

pytestmark = pytest.mark.needs("logrotate")
# As in Debian 12, but for the user.
NGINX = "{logs}/*.log {{\n daily\n missingok\n rotate 14\n compress\n delaycompress\n notifempty\n sharedscripts\n}}\n"


def test_kept(room: str) -> None:
    logs, conf = f"{room}/logs", f"{room}/conf"
    for folder in logs, conf:
        os.mkdir(folder)
    text = text_of("examples/logrotate")
    assert "/var/log/nginx/broker.log {" in text
    own = re.sub(r"(?s) *create.*?endscript\n", "", text.replace("/var/log/nginx", logs))
    for name, lines in ("holzhebo", own), ("nginx", NGINX.format(logs=logs)):
        with open(f"{conf}/{name}", "w", encoding="utf-8") as it:
            it.write(lines)
    with open(f"{room}/main", "w", encoding="utf-8") as it:
        it.write(f"include {conf}\n")
    os.chmod(f"{room}/main", 0o644)
    for day in range(20):
        for name in "broker", "access":
            with open(f"{logs}/{name}.log", "w", encoding="utf-8") as it:
                it.write(f"day {day}\n")
        ended = ran(["logrotate", "--force", "--state", f"{room}/state", f"{room}/main"])
        same(f"how logrotate ends on day {day}", (ended.status, ended.errors), (0, ""))
    kept = {name: len([it for it in os.listdir(logs) if it.startswith(f"{name}.log.")]) for name in ("broker", "access")}
    same("logs that are kept", kept, {"broker": 20, "access": 14})
    same("days that are kept of it", re.findall(r"(?m)^ *rotate (\d+)$", text), ["400"])
