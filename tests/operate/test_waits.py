"""How long units and scripts wait: by the size of the broker's file, by one measure, that of examples/common.sh. These
tests write fewer seconds there, and nothing else. Under systemd, on a machine of its own: a service that is idle and
doesn't answer isn't started, which the journal says, and is started again; one that works is waited for."""
import os, re, socket, time
from collections.abc import Callable
import pytest
from tests.operate.scripts import edited, goes_on, keep_words
from tests.operate.service import Service, only
from tests.operate.test_install import tried
from tests.process import ran, run
from tests.wire import same

Machine = Callable[[str, list[str], float], tuple[int, str, str]]
MEASURE = "60 + size"
# Each line that begins with `== ` is followed by what is compared.
LINES = r"""
examples=/usr/local/share/broker/examples f=/var/lib/broker/broker.db
common=$examples/common.sh
$examples/backup.sh /usr/local/bin/broker $f /root/copy.db broker
grep -c '60 + size' $common
sed -i 's/60 + size/3 + size/' $common
install -m 644 examples/broker-restart.service /etc/systemd/system/
mkdir /etc/systemd/system/broker.service.d
serves() {
  printf '[Service]\nExecStart=\nExecStart=%s\n' "$1" > /etc/systemd/system/broker.service.d/tried.conf
  systemctl daemon-reload
}
# how it ends, and after how many seconds
begin() {
  local began=$SECONDS ended=0
  timeout 40 systemctl start "$1" 2> /dev/null || ended=$?
  echo "$ended $((SECONDS - began))"
}
said() {
  journalctl --no-pager -o cat -u "$1" | grep -oE 'process [0-9]+, idle.*|nothing is done.*' |
    sed -E 's/process [0-9]+/process N/'
}
systemctl stop broker

echo "== idle"
serves '/bin/sleep 1000'
begin broker
systemctl stop broker
echo "== restored, and idle"
said=$(timeout 60 $examples/restore.sh /usr/local/bin/broker /root/copy.db $f broker 2>&1) || echo $?
tail -n 1 <<< "$said"
systemctl stop broker
size=$(stat -c %s $f)
echo "== idle, of five megabytes more"
truncate -s +5M $f
begin broker
truncate -s $size $f
echo "== again"
rm /etc/systemd/system/broker.service.d/tried.conf
systemctl daemon-reload
for _ in $(seq 300); do if systemctl -q is-active broker; then break; fi; sleep 0.1; done
curl -sS http://127.0.0.1:9292/
echo
said broker
echo "== works"
systemctl stop broker
cat > /usr/local/bin/slow <<'END'
#!/bin/bash
end=$((SECONDS + 8))
while [ $SECONDS -lt $end ]; do :; done
exec /usr/local/bin/broker serve --file /var/lib/broker/broker.db --listen 127.0.0.1:9292 --connections 1000
END
chmod 755 /usr/local/bin/slow
serves /usr/local/bin/slow
begin broker
curl -sS http://127.0.0.1:9292/
echo
echo "== another script"
systemctl stop broker
sed -i -e 's/3 + size/1 + size/' -e 's/10 \* \$(patience/5 * $(patience/' $common
busy() { flock /var/lib/broker sleep 10 & sleep 0.5; begin broker-restart; wait; }
busy
truncate -s +5M $f
busy
said broker-restart
"""
ALIVE = '{"answer":"no route"}'
IDLE = r"process N, idle for \d+ seconds, doesn't answer at 127.0.0.1:9292: is it to serve /var/lib/broker/broker.db there\?"


@pytest.mark.first
@pytest.mark.root
@pytest.mark.needs("curl", "ip", "openssl", "sqlite3", "unshare")
def test_units(machine: Machine, program: str) -> None:
    output = tried(machine, program, LINES, seconds=400)
    before, *parts = re.split(r"(?m)^== (.*)\n", output)
    same("how often the measure is there", before.splitlines()[-1], "1")
    found = {name: text.splitlines() for name, text in zip(parts[::2], parts[1::2])}
    ended, took = map(int, found["idle"][0].split())
    assert (ended, 3 <= took < 8) == (1, True), found
    lost = "/var/lib/broker/broker.db is restored, but broker doesn't start: journalctl -u broker"
    same("restored", found["restored, and idle"], ["1", lost])
    ended, took = map(int, found["idle, of five megabytes more"][0].split())
    assert (ended, 8 <= took < 18) == (1, True), found
    same("served again by itself", found["again"][0], ALIVE)
    waited = [re.fullmatch(IDLE, it) for it in found["again"][1:]]
    assert len(waited) >= 2 and all(waited), found
    ended, took = map(int, found["works"][0].split())
    assert (ended, 8 <= took < 30, found["works"][1]) == (0, True, ALIVE), found
    (first, one), (second, two) = (map(int, it.split()) for it in found["another script"][:2])
    assert (first, 5 <= one < 9, second, 9 <= two < 20) == (1, True, 0, True), found
    lost = "nothing is done: for 5 seconds another script has worked on /var/lib/broker/broker.db"
    same("what it says", found["another script"][2:], [lost])


@pytest.mark.timing
@pytest.mark.needs("curl", "sqlite3")
def test_restored_and_silent(service: Service) -> None:
    """Who takes connections and doesn't answer is waited for as long, by a clock of whole seconds, and then the last
    line says so."""
    copy = service.backup("0.db")
    edited(service, "common.sh", MEASURE, "3 + size")
    script = edited(service, "restore.sh", "-m 10", "-m 1")
    with socket.create_server(("127.0.0.1", 0), backlog=100) as silent:
        url = "http://127.0.0.1:%d" % silent.getsockname()[1]
        began = time.monotonic()
        ended = ran([script, *service.restore_words(copy)[1:-1], url], env={**os.environ, **service.env})
        took = time.monotonic() - began
    assert (ended.status, 2 <= took < 12) == (1, True), (ended, took)
    last = ended.errors.splitlines()[-1]
    assert last.startswith(f"{service.file} is restored, but broker doesn't answer at {url}: "), last


@pytest.mark.needs("curl", "sqlite3")
def test_copy_that_takes_too_long(service: Service) -> None:
    """It is ended after ten times what an opening may take; the broker goes on, and there is no copy."""
    edited(service, "common.sh", MEASURE, "0 + size")
    text = edited(service, "common.sh", "10 * $(patience", "5 + $(patience")
    script = f"{os.path.dirname(text)}/keep-copies.sh"
    service.tool("cp", f'#!/bin/sh\n[ -e {service.room}/halted ] || {{ : > {service.room}/halted; exec sleep 60; }}\n')
    began = time.monotonic()
    said = run([script, *keep_words(service)[1:]], 1, service.env)
    assert 5 <= time.monotonic() - began < 25, said
    goes_on(service, 5)
    only(f"{service.room}/backup", [])
    os.remove(f"{service.room}/bin/cp")
    run(keep_words(service), 0, service.env)
    same("copies", len(os.listdir(f"{service.room}/backup")), 1)
