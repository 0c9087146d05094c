#!/usr/bin/env python3
"""Three machines, as docs/CLUSTER.md installs them, with builds that go on, and one fault after another.

    python3 -m tests.operate.machines_play PROGRAM [--rounds N] [--seed S] [--replica full|arbiter] [--only PATTERN]
                                           [--wrong RECIPE].. [--fresh] [--disk FOLDER] [--seconds N]

Without --rounds each fault comes once; with it N of them, thrown by dice. As root, from the top of the repository.
After each: every change that was acknowledged is there, and none that was refused; no two machines served at one time;
all replicas have the lock of the one that serves, and are healed; a copy of the file is sound. Last, each RECIPE lacks
something, and has to be found wrong (machines_wrong.py). Prints a line for each, and ends with 1 if one is otherwise,
or if all isn't done after N seconds, after what each machine says of its parts. If there may be no such machines here,
the last line is `not run: WHY`, and it ends with 77. With --fresh the machines begin with Debian's base and nothing
else (machines_fresh.py). The replicas are in memory, so that no other work at a disk makes their syncs late, or with
--disk in a folder there."""
import sys

sys.dont_write_bytecode = True
import argparse, faulthandler, os, random, re, statistics, subprocess, threading, time
from typing import NamedTuple
from tests.operate.machines_apart import apart, enter, said
from tests.operate.machines_builds import Builds
from tests.operate.machines_cluster import Cluster
from tests.operate.machines_faults import FAULTS, Scene
from tests.operate.machines_fresh import fresh_base
from tests.operate.machines_hosts import PATIENCE, awaited
from tests.operate.machines_watch import Sent, Watch
from tests.operate.machines_wrong import RECIPES, try_wrong
from tests.wire import OFFICE, Wrong, same

RED = "red-team-token-0001"


class Round(NamedTuple):
    """What came of a fault: for how long nothing was acknowledged at the common address, and the line that says all."""

    gap: float
    line: str


def round_of(scene: Scene, builds: Builds, name: str, number: int) -> Round:
    began = time.monotonic()
    FAULTS[name](scene)
    undone = time.monotonic()
    scene.cluster.settle()
    settled = time.monotonic()
    awaited("a build that is done", lambda: builds.last > settled or bool(builds.faults), 2 * PATIENCE)
    gap = scene.watch.longest_gap(began)
    changes = [it for it in scene.watch.changes() if it.received >= began]
    wrong = scene.watch.faults(changes) + scene.watch.overlaps() + builds.faults
    said = scene.cluster.backup(f"copy-{number}")
    if wrong:
        raise Wrong("\n".join(wrong[:20]))
    done = sum(1 for it in changes if it.status == 200)
    refused = sum(1 for it in changes if 400 <= it.status < 500)
    counts = f"{done} acknowledged, {refused} refused"
    times = f"none for {gap:.1f} s; {undone - began:.1f} s, settled in {settled - undone:.1f} s more"
    took = f"seen in {time.monotonic() - settled:.1f} s"
    return Round(gap, f"{counts}; {times}, {took}; {said.split(' holds ')[-1]}")


def print_gaps(gaps: dict[str, list[float]]) -> None:
    """For how long nothing was acknowledged, by fault."""
    for name, found in sorted(gaps.items()):
        times = f"{statistics.median(found):.1f} s, at most {max(found):.1f} s"
        print(f"ok     {name}, {len(found)} times: none for {times}", flush=True)


def same_copies(cluster: Cluster) -> None:
    """Nobody serves: each replica's own copy of the file has the same bytes."""
    cluster.stop()
    cluster.await_healed()
    copies = [it.run("cd /srv/broker/brick && sha256sum broker.db*") for it in cluster.machines]
    same("the copies of the replicas", set(copies), {copies[0]})


def begun(args: argparse.Namespace, cluster: Cluster) -> tuple[Scene, str]:
    """The machines with the fleet of the demo, those who watch them, and the file of the builds' token."""
    began = time.monotonic()
    cluster.install()
    same("what a machine sees of a file after another one", cluster.stale_sizes() + cluster.stale_pages(), [])
    cluster.server().run(f"{cluster.tree}/examples/demo.sh http://127.0.0.1:9292")
    cluster.try_copies()
    print(f"ok     three machines, installed by docs/CLUSTER.md: {time.monotonic() - began:.1f} s", flush=True)
    team, office = cluster.token_file("red.token", RED), cluster.token_file("office.token", OFFICE)
    return Scene(cluster, Watch(cluster, team, office), random.Random(args.seed)), team


def play_faults(args: argparse.Namespace, scene: Scene, builds: Builds) -> None:
    names = [it for it in FAULTS if re.search(args.only, it)]
    scene.dice.shuffle(names)
    gaps: dict[str, list[float]] = {}
    for number in range(args.rounds or len(names)):
        name = names[number] if not args.rounds else scene.dice.choice(names)
        try:
            found = round_of(scene, builds, name, number)
        except Wrong as why:
            raise Wrong(f"{name}: {why}") from why
        gaps.setdefault(name, []).append(found.gap)
        print(f"ok     {name}: {found.line}", flush=True)
    if args.rounds:
        print_gaps(gaps)
    if not gaps:
        scene.cluster.backup("copy")


def after_all(args: argparse.Namespace, scene: Scene, builds: Builds) -> list[Sent]:
    """All changes, once each is known to be there."""
    there = builds.stop()
    same("the last build is in dev", f"build-{builds.done}" in there, True)
    changes = scene.watch.changes()
    wrong = builds.faults + scene.watch.faults(changes) + scene.watch.overlaps()
    if wrong:
        raise Wrong("\n".join(wrong[:20]))
    if args.replica == "full":
        same_copies(scene.cluster)
    done = sum(1 for it in changes if it.status == 200)
    print(f"ok     {done} changes acknowledged and {builds.done} builds done: each is there", flush=True)
    return changes


def restored(scene: Scene, changes: list[Sent]) -> None:
    """The last copy in the place of the file has what was acknowledged before it."""
    began = time.monotonic()
    scene.cluster.restore()
    before = [it for it in changes if it.received < scene.cluster.copy.began]
    same("what a restored copy lacks", scene.watch.faults(before), [])
    print(f"ok     a copy restored: {time.monotonic() - began:.1f} s", flush=True)


def play(args: argparse.Namespace, cluster: Cluster) -> None:
    scene, team = begun(args, cluster)
    builds = Builds(cluster, team)
    play_faults(args, scene, builds)
    changes = after_all(args, scene, builds)
    restored(scene, changes)
    for number, name in enumerate(args.wrong):
        if number:
            restored(scene, changes)
        began = time.monotonic()
        said = try_wrong(scene, name)
        print(f"ok     the recipe without {name}: {said}; {time.monotonic() - began:.1f} s", flush=True)
    scene.watch.stop()


def end_after(seconds: int, cluster: Cluster) -> None:
    """Ends all if it isn't done then, with where it waits, and what each machine says."""

    def end() -> None:
        print(f"WRONG  it isn't done after {seconds} seconds", flush=True)
        faulthandler.dump_traceback()
        print(cluster.state(), flush=True)
        os._exit(1)

    timer = threading.Timer(seconds, end)
    timer.daemon = True
    timer.start()


def inside(args: argparse.Namespace) -> int:
    """The play, as the first process of namespaces of its own."""
    room, disk, group, network = args.places
    enter([room] if args.disk else [room, disk], room, disk, group)
    base = fresh_base() if args.fresh else "/"
    cluster = Cluster(args.program, room, disk, group, args.replica, base, f"/proc/{os.getpid()}/fd/{network}")
    if args.seconds:
        end_after(args.seconds, cluster)
    try:
        play(args, cluster)
    except (Wrong, OSError, subprocess.SubprocessError) as why:
        print(f"WRONG  {why}\n{cluster.state()}", flush=True)
        return 1
    finally:
        for it in cluster.up():
            it.lose()
    return 0


def main() -> int:
    parser = argparse.ArgumentParser()
    parser.add_argument("program")
    parser.add_argument("--rounds", type=int, default=0)
    parser.add_argument("--seed", type=int, default=1)
    parser.add_argument("--replica", choices=["full", "arbiter"], default="full")
    parser.add_argument("--only", default="")
    parser.add_argument("--wrong", choices=list(RECIPES), action="append", default=[])
    parser.add_argument("--fresh", action="store_true")
    parser.add_argument("--disk")
    parser.add_argument("--seconds", type=int, default=0)
    parser.add_argument("--places", nargs=4, help=argparse.SUPPRESS)
    args = parser.parse_args()
    args.program, args.disk = os.path.abspath(args.program), args.disk and os.path.abspath(args.disk)
    if args.places:
        return inside(args)
    if args.fresh:
        fresh_base()
    return apart([sys.executable, "-m", "tests.operate.machines_play", *sys.argv[1:], "--places"], args.disk)


if __name__ == "__main__":
    sys.exit(said(main))
