"""The broker on a port below 1024, as examples/broker.service says: it serves there, and no other account can."""
import pytest
from tests.operate.test_install import Machine, tried
from tests.wire import same

LOW = r"""
echo "== low"
sed -i 's/127[.]0[.]0[.]1:9292/127.0.0.1:292/' /etc/systemd/system/broker.service
sed -i -E 's/^(CapabilityBoundingSet|AmbientCapabilities)=$/&CAP_NET_BIND_SERVICE/' /etc/systemd/system/broker.service
systemctl daemon-reload
systemctl restart broker
holzhebo status live --broker http://127.0.0.1:292 --token-file /root/red.token
grep CapEff "/proc/$(systemctl show -P MainPID broker)/status" | tr '\t' ' '
systemctl stop broker
listen="import socket; socket.create_server(('127.0.0.1', 292))"
setpriv --reuid=65533 --clear-groups /usr/bin/python3 -c "$listen" 2>&1 | grep -o '^PermissionError'
"""


@pytest.mark.root
@pytest.mark.needs("curl", "ip", "openssl", "setpriv", "unshare")
def test_low_port(machine: Machine, program: str) -> None:
    _, said = tried(machine, program, LOW).split("== low\n")
    same("what is said", said.splitlines()[-2:], ["CapEff: 0000000000000400", "PermissionError"])
