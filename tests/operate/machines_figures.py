#!/usr/bin/env python3
"""What a broker on a volume takes: a change and a question over a local folder, a volume of one replica and one of
three, and a start over a file.

    python3 -m tests.operate.machines_figures PROGRAM [FILE]

Prints the median and the worst of 500 each, in milliseconds, of the machine that has the first replica; and of three
starts over a copy of FILE, a broker's, how long it takes from the call until GET / is answered. As root, from the top
of the repository, while nothing else is run."""
import sys

sys.dont_write_bytecode = True
import json, os, statistics, subprocess, time
from tests.operate.machines_apart import apart, enter, said
from tests.operate.machines_cluster import Cluster
from tests.operate.machines_hosts import Machine, awaited
from tests.operate.machines_watch import PEER
from tests.wire import OFFICE

COUNT = 500
QUESTION = "shop 1.4\n"
SINGLE = """gluster --mode=script volume create single 10.77.0.1:/srv/broker/single
gluster volume set single group broker
gluster volume start single
mkdir -p /mnt/single /srv/broker/plain
glusterfs --volfile-server=localhost --volfile-id=single /mnt/single
"""
PLACES = {"a local folder": "/srv/broker/plain", "one replica": "/mnt/single", "three replicas": "/var/lib/broker"}
SERVE = "/usr/local/bin/broker serve --file {file} --listen 127.0.0.1:9393 --connections 1000000"


def started(machine: Machine, file: str) -> tuple["subprocess.Popen[bytes]", float]:
    """A broker over the file, and how long it took until it answered."""
    began = time.monotonic()
    process = subprocess.Popen(machine.inside("exec " + SERVE.format(file=file)))
    words = "curl -s -o /dev/null -w '%{http_code}' http://127.0.0.1:9393/"
    awaited("an answer", lambda: machine.says(words) == "404", 600, 0.02)
    return process, time.monotonic() - began


def stopped(machine: Machine, process: "subprocess.Popen[bytes]") -> None:
    machine.run("pkill -TERM -x broker")
    process.wait()


def times(machine: Machine, mode: str, name: str, token: str, text: str) -> str:
    """The times of COUNT requests that a peer sends one after another."""
    words = ["nsenter", "-t", str(machine.pid), "-a", "--", sys.executable, PEER]
    words += [mode, name, "http://127.0.0.1:9393", token, "0"]
    peer = subprocess.Popen(words, stdin=subprocess.PIPE, stdout=subprocess.PIPE, text=True)
    assert peer.stdin and peer.stdout
    if mode == "ask":
        peer.stdin.write(text)
        peer.stdin.close()
    found = [json.loads(peer.stdout.readline()) for _ in range(COUNT)]
    peer.kill()
    peer.wait()
    took = [1000 * (it["received"] - it["sent"]) for it in found if it["status"] == 200]
    return f"{statistics.median(took):.1f} ms, at most {max(took):.1f} ms, of {len(took)}"


def figures(cluster: Cluster, file: str | None) -> None:
    cluster.install()
    machine = cluster.machines[0]
    for it in cluster.machines:
        it.run("systemctl stop broker keepalived")
    machine.run(SINGLE)
    office = cluster.token_file("office.token", OFFICE)
    for name, place in PLACES.items():
        made = f"{place}/figures.db"
        machine.run(f"/usr/local/bin/broker init --file {made} --office-token {OFFICE}")
        process, _ = started(machine, made)
        machine.run(f"{cluster.tree}/examples/demo.sh http://127.0.0.1:9393")
        red = cluster.token_file(f"red-{name[:3]}.token", "red-team-token-0001")
        print(f"{name}: a change {times(machine, 'write', 'figure', red, '')}", flush=True)
        print(f"{name}: a question {times(machine, 'ask', '-', office, COUNT * QUESTION)}", flush=True)
        stopped(machine, process)
        if file:
            machine.run(f"cp {file} {place}/large.db", seconds=600)
            for _ in range(3):
                process, took = started(machine, f"{place}/large.db")
                print(f"{name}: a start over {os.path.getsize(file) / 1e6:.0f} MB {took:.1f} s", flush=True)
                stopped(machine, process)


def main() -> int:
    if "--places" not in sys.argv:
        return apart([sys.executable, "-m", "tests.operate.machines_figures", *sys.argv[1:], "--places"])
    room, disk, group = sys.argv[-4:-1]
    enter([room, disk], room, disk, group)
    cluster = Cluster(os.path.abspath(sys.argv[1]), room, disk, group)
    try:
        figures(cluster, os.path.abspath(sys.argv[2]) if sys.argv[2] != "--places" else None)
    finally:
        for it in cluster.up():
            it.lose()
    return 0


if __name__ == "__main__":
    sys.exit(said(main))
