"""What happens to machines of a cluster, each by its name: it is done, and undone, and between the two is seen that it
was done. Whom it meets is thrown by dice."""
import random, time
from collections.abc import Callable
from tests.operate.machines_cluster import Cluster
from tests.operate.machines_hosts import PATIENCE, Machine, awaited
from tests.operate.machines_watch import Watch
from tests.wire import Wrong

# For how many seconds a broker may answer questions whose machine was paused and goes on, or whose volume's process has
# ended, until hold.py ends it: that looks ten times a second, and asks the volume twice.
MOMENT = 1


class Scene:
    """The cluster with those who watch it, and the dice."""

    def __init__(self, cluster: Cluster, watch: Watch, dice: random.Random) -> None:
        self.cluster, self.watch, self.dice = cluster, watch, dice

    def others(self, machine: Machine) -> list[Machine]:
        found = [it for it in self.cluster.machines if it is not machine]
        self.dice.shuffle(found)
        return found

    def moment(self) -> None:
        """Some time in which changes are sent, so that a fault comes between any two instructions."""
        time.sleep(self.dice.uniform(0.2, 1.2))

    def await_other(self, machine: Machine) -> None:
        """Waits until another machine serves."""
        others = [it for it in self.cluster.machines if it is not machine]
        awaited("another machine that serves", lambda: any(serves(it) for it in others), PATIENCE)

    def back(self, machine: Machine) -> None:
        """A machine that was lost is switched on."""
        machine.start()
        self.watch.begin(machine)

    def kill(self, words: str, seconds: float = 0) -> None:
        """Kills a process, as pkill is told, of the machine that serves; of the next one if it has just ended there. For
        so many seconds the broker there may answer questions still."""

        def killed(machine: Machine) -> None:
            self.moment()
            self.watch.excuse(machine, seconds)
            machine.run(f"pkill -KILL {words}")

        self.cluster.steadily(killed)


def lost(scene: Scene) -> None:
    """The machine that serves is lost, and switched on again."""
    machine = scene.cluster.server()
    scene.moment()
    machine.lose()
    scene.await_other(machine)
    scene.cluster.await_service()
    scene.back(machine)


def parted(scene: Scene) -> None:
    """The machine that serves is cut off, goes on, and is joined again."""
    machine = scene.cluster.server()
    scene.moment()
    machine.cut()
    scene.await_other(machine)
    time.sleep(scene.dice.uniform(0.5, 2))
    machine.join()


def broker_killed(scene: Scene) -> None:
    """The broker that serves is killed."""
    scene.kill("-x broker")


def mount_killed(scene: Scene) -> None:
    """The process that has the volume on the machine that serves is killed."""
    scene.kill("-f broker-volume.log", MOMENT)


def way_killed(scene: Scene) -> None:
    """What brings clients to the machine that serves is killed: the proxy or keepalived."""
    scene.kill(scene.dice.choice(["-x nginx", "-x keepalived"]))


def replica_killed(scene: Scene) -> None:
    """The replica of any machine is killed, or GlusterFS's own service there, and started again by the recipe."""
    machine = scene.dice.choice(scene.cluster.machines)
    scene.moment()
    former = machine.run("pgrep -x glusterfsd")
    machine.run(f"pkill -KILL -x {scene.dice.choice(['glusterfsd', 'glusterd'])}")
    awaited(f"the replica of {machine.name}", lambda: machine.says("pgrep -x glusterfsd") not in ("", former), PATIENCE)


def replica_lost(scene: Scene) -> None:
    """A machine that doesn't serve is lost, changes are made, and it comes back."""
    machine = scene.others(scene.cluster.server())[0]
    scene.moment()
    machine.lose()
    time.sleep(4)
    began = time.monotonic()
    scene.cluster.await_service()
    awaited("a change with two machines", lambda: acknowledged(scene, began) > 0, PATIENCE)
    scene.back(machine)


def both(scene: Scene) -> None:
    """At once another machine is lost, and the broker that serves is killed."""
    machine = scene.cluster.server()
    other = scene.others(machine)[0]
    scene.moment()
    other.cut()
    machine.says("pkill -KILL -x broker")
    other.lose()
    scene.cluster.await_service()
    scene.back(other)


def quorum_lost(scene: Scene) -> None:
    """Two machines are cut off, each from all: nothing is acknowledged by anybody until one is back."""
    machine = scene.cluster.server()
    cut = scene.dice.choice([scene.others(machine), [machine, scene.others(machine)[0]]])
    scene.moment()
    for it in cut:
        it.cut()
    began = time.monotonic()
    time.sleep(scene.dice.uniform(8, 10))
    done = acknowledged(scene, began)
    for it in cut:
        it.join()
    if done:
        raise Wrong(f"{done} changes were acknowledged by less than two machines")


def acknowledged(scene: Scene, since: float) -> int:
    """How many changes that were sent since then were acknowledged."""
    return sum(1 for it in scene.watch.changes() if it.sent >= since and it.status == 200)


def paused(scene: Scene) -> None:
    """The machine that serves stops between two instructions, as one that is virtual and paused: its kernel answers no
    packet either. Another one serves, and it goes on."""
    machine = scene.cluster.server()
    scene.moment()
    machine.cut()
    machine.freeze("1")
    try:
        scene.await_other(machine)
        time.sleep(scene.dice.uniform(0.5, 2))
    finally:
        machine.join()
        scene.watch.excuse(machine, MOMENT)
        machine.freeze("0")


def serves(machine: Machine) -> bool:
    return machine.says("/usr/local/share/broker/cluster/serves && echo yes") == "yes\n"


FAULTS: dict[str, Callable[[Scene], None]] = {
    "the serving machine lost": lost,
    "the serving machine cut off": parted,
    "its broker killed": broker_killed,
    "its volume's process killed": mount_killed,
    "its proxy or keepalived killed": way_killed,
    "a replica's process killed": replica_killed,
    "a replica lost and healed": replica_lost,
    "both at once": both,
    "quorum lost": quorum_lost,
    "the serving machine paused": paused,
}
