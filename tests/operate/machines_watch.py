"""What is known from outside while machines are lost: each change that was sent and how it was answered, and when each
machine's own broker answered. All clocks are one, as the machines are on one kernel."""
import contextlib, json, os, subprocess, sys, threading, time
from typing import NamedTuple
from tests.operate.machines_asked import COMMON
from tests.operate.machines_cluster import Cluster
from tests.operate.machines_hosts import PATIENCE, Machine
from tests.process import TOP
from tests.wire import Wrong

PEER = f"{TOP}/tests/operate/machines_peer.py"
OWN = "http://127.0.0.1:9292"


class Sent(NamedTuple):
    """A request: for a version of what, when it was sent and when its answer was there; and the status, 0 if none
    came."""

    what: str
    version: str
    sent: float
    received: float
    status: int


class Serving(NamedTuple):
    """A time in which a machine's broker served without a break: from its first answer to its last question."""

    machine: str
    first: float
    last: float


def servings(machine: str, probes: list[Sent]) -> list[Serving]:
    """When this machine's broker served surely. It is a new time after each probe that wasn't answered."""
    found: list[Serving] = []
    is_on = False
    for it in probes:
        if it.status != 404:
            is_on = False
        elif is_on:
            found[-1] = found[-1]._replace(last=it.sent)
        else:
            found.append(Serving(machine, it.received, it.sent))
            is_on = True
    return found


def overlaps(servings_of_all: list[Serving], excused: list[Serving]) -> list[str]:
    """Each two machines that served at one time, with the seconds for which they surely did; but for a time in which
    one of them is excused."""
    found = []
    for at, one in enumerate(servings_of_all):
        for other in servings_of_all[at + 1 :]:
            first, last = max(one.first, other.first), min(one.last, other.last)
            is_excused = any(
                it.machine in (one.machine, other.machine) and it.first <= first and last <= it.last for it in excused
            )
            if one.machine != other.machine and first < last and not is_excused:
                found.append(f"{one.machine} and {other.machine} served at one time, for {last - first:.2f} s")
    return found


class Stream:
    """A peer that runs on, and what it has said so far."""

    def __init__(self, words: list[str]) -> None:
        self.sent: list[Sent] = []
        self.process = subprocess.Popen(words, stdout=subprocess.PIPE, text=True)
        threading.Thread(target=self.read, daemon=True).start()

    def read(self) -> None:
        assert self.process.stdout
        for line in self.process.stdout:
            with contextlib.suppress(json.JSONDecodeError):  # the last line of a machine that is lost may be cut
                self.sent.append(Sent(**json.loads(line)))

    def signal(self, number: int) -> None:
        """Sends a signal to the peer, which is the process itself or, on a machine, its child."""
        path = f"/proc/{self.process.pid}/task/{self.process.pid}/children"
        with open(path, encoding="ascii") as it:
            for process in it.read().split() or [str(self.process.pid)]:
                os.kill(int(process), number)

    def stop(self) -> None:
        self.process.kill()
        self.process.wait()


class Watch:
    """The builds that write through the common address and on each machine, and a probe of each machine's broker."""

    def __init__(self, cluster: Cluster, team: str, office: str) -> None:
        """`team` is the file with the token that may name versions of shop, `office` that of the office."""
        self.cluster, self.team, self.office = cluster, team, office
        self.writers: list[Stream] = []
        self.own: dict[str, Stream] = {}
        self.excused: list[Serving] = []
        self.probes: dict[str, list[Stream]] = {it.name: [] for it in cluster.machines}
        self.boots = 0
        self.writers.append(Stream(self.words("write", "common", f"https://{COMMON}", 0.04)))
        for machine in cluster.machines:
            self.begin(machine)

    def words(self, mode: str, name: str, url: str, seconds: float) -> list[str]:
        return [sys.executable, PEER, mode, name, url, self.office if mode == "ask" else self.team, str(seconds)]

    def begin(self, machine: Machine) -> None:
        """The peers on a machine that has started."""
        self.boots += 1
        inside = ["nsenter", "-t", str(machine.pid), "-a", "--"]
        name = f"{machine.name}-{self.boots}"
        self.own[machine.name] = Stream([*inside, *self.words("write", name, OWN, 0.2)])
        self.writers.append(self.own[machine.name])
        self.probes[machine.name].append(Stream([*inside, *self.words("probe", "-", OWN, 0.05)]))

    def stop(self) -> None:
        for it in [*self.writers, *(it for some in self.probes.values() for it in some)]:
            it.stop()

    # What is known

    def changes(self) -> list[Sent]:
        return [it for stream in self.writers for it in list(stream.sent)]

    def excuse(self, machine: Machine, seconds: float) -> None:
        """From now on for so long this machine may answer a question beside another one."""
        now = time.monotonic()
        self.excused.append(Serving(machine.name, now, now + seconds))

    def overlaps(self, since: float = 0) -> list[str]:
        every = [(name, stream) for name, some in self.probes.items() for stream in some]
        probes = [(name, [it for it in list(stream.sent) if it.sent >= since]) for name, stream in every]
        return overlaps([it for name, some in probes for it in servings(name, some)], self.excused)

    def acknowledging(self, since: float) -> list[str]:
        """The machines whose own broker has acknowledged a change that was sent there since then."""
        found = {name: [it.status for it in list(stream.sent) if it.sent >= since] for name, stream in self.own.items()}
        return [f"{name} {some.count(200)}" for name, some in found.items() if 200 in some]

    def longest_gap(self, since: float) -> float:
        """The longest time between two changes that were acknowledged at the common address since then."""
        done = sorted(it.received for it in list(self.writers[0].sent) if it.status == 200 and it.received >= since)
        return max((later - earlier for earlier, later in zip([since, *done], done)), default=0.0)

    def answers(self, asked: list[Sent]) -> list[int]:
        """The status of the matrix of each version, asked on the machine that serves; fewer if it is lost meanwhile."""
        text = "".join(f"{it.what} {it.version}\n" for it in asked)
        words = ["nsenter", "-t", str(self.cluster.server().pid), "-a", "--", *self.words("ask", "-", OWN, 0)]
        done = subprocess.run(words, input=text, capture_output=True, text=True, timeout=PATIENCE, check=False)
        return [Sent(**json.loads(line)).status for line in done.stdout.splitlines()]

    def is_there(self, asked: list[Sent]) -> list[int]:
        """The status of the matrix of each version: 200 if it was named, or 404. Who gets none of the two asks again:
        the machine that serves may be another one meanwhile."""
        found: dict[Sent, int] = {}
        left, others, ends = asked, list[int](), time.monotonic() + PATIENCE
        while left:
            if time.monotonic() > ends:
                raise Wrong(f"{len(left)} of {len(asked)} versions aren't told: {sorted(set(others))}")
            answers = self.answers(left)
            found.update((it, status) for it, status in zip(left, answers) if status in (200, 404))
            left, others = [it for it in asked if it not in found], [it for it in answers if it not in (200, 404)]
            time.sleep(0.5 if left else 0)
        return [found[it] for it in asked]

    def faults(self, changes: list[Sent]) -> list[str]:
        """Each change that is otherwise than it was answered: acknowledged and not there, or refused and there."""
        answered = [it for it in changes if it.status == 200 or 400 <= it.status < 500]
        found = []
        for it, status in zip(answered, self.is_there(answered)):
            if status != (200 if it.status == 200 else 404):
                found.append(f"{it.what} {it.version} was answered {it.status}, and its matrix {status}")
        return found
