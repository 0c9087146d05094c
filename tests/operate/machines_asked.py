"""What is asked of three machines with a broker: who serves, who has the lock, whether each replica has what the others
have."""
import concurrent.futures, re
from collections.abc import Callable
from typing import TypeVar
from tests.operate.machines_hosts import NET, PATIENCE, Machine, awaited, told
from tests.wire import Wrong

T = TypeVar("T")
COMMON = f"{NET}.100"
# The broker's process on the machine that serves.
BROKER = "pgrep -x -u broker broker"
# How often something is tried on the machine that serves, if that is another one meanwhile.
TRIES = 5
# What is shown of a machine if a play fails.
STATE = """date +%T
ip -brief address show eth0
ps -eo pid,etimes,stat,wchan:24,args | grep -E '[g]luster|[b]roker|[k]eepalived|[n]ginx'
timeout 20 gluster volume status broker; timeout 20 gluster volume heal broker info summary
journalctl --no-pager -o short-iso -n 60 -u broker -u broker-volume -u broker-brick -u keepalived -u nginx -u glusterd
for it in /var/log/glusterfs/broker-volume.log /var/log/glusterfs/bricks/*.log; do
  echo "$it"
  grep -v '^.[^]]*] I ' "$it" | tail -n 25
done
for it in /var/lib/broker/.meta/graphs/active/*-client-[0-9]*/private; do
  echo "$it"
  timeout 5 grep -E '^(connected|fd[.]|.*remote_fd|.*lock)' "$it"
done"""


def at_once(call: Callable[[Machine], T], machines: list[Machine]) -> list[T]:
    with concurrent.futures.ThreadPoolExecutor(len(machines)) as pool:
        return list(pool.map(call, machines))


class Machines:
    """The machines, those that are up, and what is asked of all of them."""

    machines: list[Machine]

    # Who serves

    def up(self) -> list[Machine]:
        return [it for it in self.machines if it.pid]

    def serving(self) -> list[Machine]:
        """The machines whose own broker answers."""
        said = at_once(lambda it: it.says("/usr/local/share/broker/cluster/serves && echo yes"), self.up())
        return [it for it, text in zip(self.up(), said, strict=True) if text == "yes\n"]

    def server(self) -> Machine:
        """The machine that serves, once it is one: who is late may have to give the service up for some seconds."""
        found: list[Machine] = []

        def is_one() -> bool:
            found[:] = self.serving()
            return len(found) == 1

        awaited("one machine that serves", is_one, PATIENCE)
        return found[0]

    def steadily(self, call: Callable[[Machine], T]) -> T:
        """Does this on the machine that serves; again if it fails and the broker there has ended meanwhile."""
        for _ in range(TRIES):
            machine = self.server()
            broker = machine.says(BROKER)
            try:
                return call(machine)
            except Wrong:
                if broker and machine.says(BROKER) == broker:
                    raise
        return call(self.server())

    def common(self) -> bool:
        """Whether the common address answers as a broker does."""
        words = ["curl", "-sk", "--max-time", "3", "-o", "/dev/null", "-w", "%{http_code}", f"https://{COMMON}/"]
        try:
            return told(words) == "404"
        except Wrong:
            return False

    def await_service(self) -> None:
        awaited("an answer at the common address", self.common, PATIENCE)

    def holders(self) -> dict[str, set[str]]:
        """The hosts that have a lock on the broker's file, as each machine's replica says itself."""
        text = (
            "rm -f /run/gluster/*.dump.*; pkill -USR1 -x glusterfsd || exit 0; sleep 0.5\n"
            "awk '/^\\[xlator.features.locks.broker-locks.inode\\]/ { path = \"\" } /^path=/ { path = $0 }\n"
            "/^posixlk.*ACTIVE/ && path ~ /broker.db$/ { print }' /run/gluster/*.dump.* 2> /dev/null"
        )
        said = at_once(lambda it: it.says(text), self.up())
        found = (set(re.findall(r"HOST:([\w-]+)-PC_NAME", it)) for it in said)
        return {it.name: hosts for it, hosts in zip(self.up(), found, strict=True)}

    def is_held(self) -> bool:
        """Whether each replica has the lock of the machine that serves, and of no other."""
        serving = self.serving()
        return len(serving) == 1 and all(it == {serving[0].name} for it in self.holders().values())

    def settle(self) -> None:
        """Waits until one machine serves and each replica has all."""
        self.await_healed()
        awaited("a lock at each replica", self.is_held, PATIENCE, 0.5)
        self.await_service()

    # What the replicas have

    def is_healed(self) -> bool:
        """Whether each replica is there and has nothing to be copied to it."""
        said = self.up()[0].says("gluster volume heal broker info summary")
        return said.count("Status: Connected\nTotal Number of entries: 0\n") == 3

    def await_healed(self) -> None:
        awaited("replicas that are healed", self.is_healed, PATIENCE, 0.5)

    def stale(self, how: str, look: str) -> list[str]:
        """What a machine sees of a file just after another one has changed it, each time that it isn't what that one
        sees. A broker that takes over would miss it."""
        writer, reader = self.machines[:2]
        file, found = "/var/lib/broker/seen", list[str]()
        writer.run(f"date +%s%N > {file}; sync {file}")
        for _ in range(3):
            reader.run(f"{look} {file}")
            wanted = writer.run(f"set -e; date +%s%N | dd of={file} conv=notrunc,fsync {how}; {look} {file}")
            seen = reader.run(f"{look} {file}")
            found += [f"{reader.name} sees {seen.strip()} and {writer.name} {wanted.strip()}"] if seen != wanted else []
        writer.run(f"rm {file}")
        return found

    def stale_sizes(self) -> list[str]:
        """Sizes of a file that another machine has made longer."""
        return self.stale("oflag=append", "stat -c %s")

    def stale_pages(self) -> list[str]:
        """Contents of a file that another machine has written over, read and copied."""
        copied = """sh -c 'cp "$0" "$0.copy" && cat "$0.copy"; rm "$0.copy"'"""
        return self.stale("oflag=dsync", "cat") + self.stale("oflag=dsync", copied)

    def state(self) -> str:
        """What each machine says of its parts, for a play that fails."""
        up = self.up()
        said = at_once(lambda it: it.says(STATE), up) if up else []
        return "".join(f"== {it.name} ==\n{text}" for it, text in zip(up, said, strict=True))
