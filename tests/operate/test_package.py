"""The package of packaging/deb: installed, served, upgraded, removed and purged, as root. dpkg and systemd work on a
machine of their own: the service is started by systemd as its unit says, started again after it is killed and after an
upgrade, backed up by the timers and restored, and it is gone once the package is removed."""
import re
from collections.abc import Callable
import pytest
from tests.operate.packed import packages, version_of  # the fixture
from tests.wire import Wrong, same

__all__ = ["packages"]
pytestmark = [pytest.mark.first, pytest.mark.needs("dh_python3", "dpkg-deb")]
Machine = Callable[[str, list[str], float], tuple[int, str, str]]
# What is done there, in the folder of the packages. Each line that begins with `== ` is followed by what is compared.
LINES = r"""
cd @ROOM@
export PATH=/usr/local/bin:/usr/sbin:/usr/bin:/sbin:/bin
rm -rf /var/lib/broker /etc/holzhebo
userdel broker 2> /dev/null || true
groupdel broker 2> /dev/null || true
rm -f /usr/sbin/policy-rc.d
token=office-token-0001
tools=/usr/share/holzhebo
modules=/usr/lib/python3/dist-packages/holzhebo

state() { systemctl is-enabled broker || true; systemctl is-active broker || true; }
number() { systemctl show -P MainPID broker; }
await() {
  for _ in $(seq 600); do
    if curl -s http://127.0.0.1:9292/ > /dev/null; then return; fi
    sleep 0.05
  done
  journalctl --no-pager -n 20 -u broker
  exit 1
}
listing() { printf 'authorization: Bearer %s\n' $token | curl -s -H @- http://127.0.0.1:9292/environments/live; echo; }

dpkg --no-triggers -i old.deb < /dev/null > said 2>&1 || { cat said; exit 1; }
echo "== installed"
getent passwd broker | cut -d: -f1,6,7
stat -c '%n %U %G %a' /var/lib/broker
ls -A /var/lib/broker
state
systemctl start broker
systemctl show -P ConditionResult broker
state
systemd-analyze verify /lib/systemd/system/broker.service 2>&1
broker --version
holzhebo --help | head -c 40 > /dev/null
dpkg -L holzhebo | grep -E '/(man1|completions|vendor-completions)/' | sort
grep -rl /usr/local/ $tools /lib/systemd/system/broker.service || true
cmp $tools/desk/desk.json $tools/desk.json
echo "== compiled"
find $modules -name '*.py' | sort > written
find $modules -name '*.pyc' | sed -E 's,__pycache__/,,; s,[.]cpython-3[0-9]+[.]pyc$,.py,' | sort -u | diff written -
grep -c /cli/main.py written
find $tools -name __pycache__

printf %s $token > token
runuser -u broker -- sh -c 'umask 077; broker init --file /var/lib/broker/broker.db --office-token "$(cat)"' < token
systemctl enable --now broker 2> /dev/null
await
$tools/examples/demo.sh http://127.0.0.1:9292 > said 2>&1 || { cat said; exit 1; }
listing > before
echo "== served"
state
grep -E '^(Uid|CapEff|NoNewPrivs|Seccomp|Umask):' "/proc/$(number)/status" |
  sed "s/$(id -u broker)/broker/g" | tr '\t' ' '
stat -c '%n %U %a' /var/lib/broker/*
cut -d, -f1 before
kill -9 "$(number)"
for _ in $(seq 100); do
  if [ "$(systemctl show -P NRestarts broker)" = 1 ]; then break; fi
  sleep 0.1
done
await
listing | cmp - before

install -m 644 $tools/examples/broker-*.service $tools/examples/broker-*.timer /etc/systemd/system/
install -d -m 700 /backup /backup/nightly
systemctl daemon-reload
timers="broker-backup.timer broker-nightly.timer broker-restart.timer broker-who.timer"
echo "== at the same moment"
# Both copies, and the restart of the night, by systemd at once: each waits for the others.
for _ in 1 2 3; do
  rm -rf /backup/broker-* /backup/nightly/*
  systemctl start broker-backup.service broker-nightly.service broker-restart.service ||
    journalctl --no-pager -n 40 -u broker-backup -u broker-nightly -u broker-restart
  ls /backup/broker-* /backup/nightly/* | wc -l
  systemctl is-failed broker-backup broker-nightly broker-restart || true
done
curl -s http://127.0.0.1:9292/; echo
rm -rf /backup/broker-* /backup/nightly/* /backup/report.html
echo "== backed up and restored"
systemctl enable --now $timers 2> /dev/null
systemctl is-active $timers
systemctl disable --now $timers 2> /dev/null
for unit in broker-backup broker-nightly broker-nightly; do
  systemctl start $unit.service || journalctl --no-pager -u $unit
done
rm -rf /var/log/nginx
mkdir /var/log/nginx
cat > /var/log/nginx/broker.log << 'END'
{"time":"2026-11-27T02:00:00+00:00","team":"red","method":"POST","path":"/environments/live/deployments",\
"body":"{\"pacticipant\":\"shop\",\"version\":\"1\"}","status":200,"seconds":0.004}
END
sed -i -z 's/\\\n//' /var/log/nginx/broker.log
echo '{"environments":["live"]}' > /etc/holzhebo/desk.json
systemctl start broker-who || journalctl --no-pager -u broker-who
cat $tools/desk/who-live.json
find /backup -type f -printf '%P %m\n' | sed 's/-[0-9TZ:-]*/-TIME/' | sort
grep -o '<h2[^>]*>[A-Za-z ]*[a-z]' /backup/report.html | sed 's/.*>//' | tail -n 2
holzhebo environment lost --broker http://127.0.0.1:9292 --token-file token
$tools/examples/restore.sh /usr/bin/broker /backup/broker-*.db /var/lib/broker/broker.db broker > said 2>&1 ||
  { cat said; exit 1; }
listing | cmp - before
holzhebo environment lost --broker http://127.0.0.1:9292 --token-file token
rm -r /var/lib/broker/*.before-*

echo '{"environments":["mine"]}' > /etc/holzhebo/desk.json
earlier=$(number)
dpkg --no-triggers -i new.deb < /dev/null > said 2>&1 || { cat said; exit 1; }
echo "== upgraded"
await
[ "$(number)" != "$earlier" ]
state
cat $tools/desk/desk.json
listing | cmp - before

dpkg --no-triggers -r holzhebo < /dev/null > said 2>&1 || { cat said; exit 1; }
echo "== removed"
journalctl --no-pager | grep -c 'Started broker.service'
journalctl --no-pager | grep -c 'token-0' || true
systemctl is-active broker || true
pgrep -u broker || true
ls /usr/bin/broker /usr/bin/holzhebo /lib/systemd/system/broker.service $modules 2>&1 | grep -c 'No such file'
ls /var/lib/broker /etc/holzhebo /etc/logrotate.d/holzhebo

dpkg --no-triggers -P holzhebo < /dev/null > said 2>&1 || { cat said; exit 1; }
echo "== purged"
grep 'stays' said
ls /var/lib/broker
ls -d /etc/holzhebo /etc/logrotate.d/holzhebo 2>&1 | grep -c 'No such file'
find /etc/systemd -name 'broker.service*'

dpkg --no-triggers -i new.deb < /dev/null > said 2>&1 || { cat said; exit 1; }
rm /var/lib/broker/broker.db*
dpkg --no-triggers -P holzhebo < /dev/null > said 2>&1 || { cat said; exit 1; }
echo "== purged without a file"
ls -d /var/lib/broker 2>&1 | grep -c 'No such file'
"""
WANTED = {
    "installed": """broker:/var/lib/broker:/usr/sbin/nologin
/var/lib/broker broker broker 700
disabled
inactive
no
disabled
inactive
broker @VERSION@
/usr/share/bash-completion/completions/broker
/usr/share/bash-completion/completions/holzhebo
/usr/share/man/man1/broker.1.gz
/usr/share/man/man1/holzhebo.1.gz
/usr/share/zsh/vendor-completions/_broker
/usr/share/zsh/vendor-completions/_holzhebo
""",
    "compiled": "1\n",
    "served": """enabled
active
Umask: 0077
Uid: broker broker broker broker
CapEff: 0000000000000000
NoNewPrivs: 1
Seccomp: 2
/var/lib/broker/broker.db broker 600
/var/lib/broker/broker.db-wal broker 600
{"answer":"shown"
""",
    "at the same moment": """2
inactive
inactive
inactive
""" * 3 + '{"answer":"no route"}\n',
    "backed up and restored": """active
active
active
active
[{"change":"deployments","instance":"","pacticipant":"shop","team":"red","time":"2026-11-27T02:00:00+00:00","version":"1"}]
broker-TIME.db 600
nightly/broker-TIME.db 600
nightly/broker-TIME.db 600
report.html 600
Since the copy of
Rows and bytes
new  environment lost
new  environment lost
""",
    "upgraded": """enabled
active
{"environments":["mine"]}
""",
    "removed": """7
0
inactive
4
/etc/logrotate.d/holzhebo

/etc/holzhebo:
desk.json

/var/lib/broker:
broker.db
broker.db-wal
""",
    "purged": """/var/lib/broker has files, and stays: remove it yourself if nobody needs them
broker.db
broker.db-wal
2
""",
    "purged without a file": "1\n",
}


@pytest.mark.root
@pytest.mark.needs("curl", "ip", "sqlite3", "systemctl", "unshare")
def test_life(machine: Machine, program: str, packages: str) -> None:
    """What is there after each step of the package's life."""
    status, output, errors = machine(LINES.replace("@ROOM@", packages), [packages], 300)
    parts = re.split(r"(?m)^== (.*)\n", output)
    found = dict(zip(parts[1::2], parts[2::2]))
    for name, wanted in WANTED.items():
        if name not in found:
            raise Wrong(f"it isn't {name}: {output}{errors}")
        same(name, found[name], wanted.replace("@VERSION@", version_of(program)))
    same("how it ends", (status, errors), (0, ""))
