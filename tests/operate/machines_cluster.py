"""Three machines with a broker, as docs/CLUSTER.md installs them, by its own lines; and the copies that they make."""
import os, shlex, shutil, time
from typing import NamedTuple
from tests.operate.machines_asked import BROKER, COMMON, Machines, at_once
from tests.operate.machines_hosts import NET, PATIENCE, Machine, ended, told
from tests.operate.machines_page import FETCHES, Step, copying, steps
from tests.process import TOP
from tests.wire import OFFICE, Wrong, same

FILE = "/var/lib/broker/broker.db"
# What the page supposes: a name for each machine, and the certificate. No name server is asked.
HOSTS = "127.0.0.1 localhost\n" + "".join(f"{NET}.{it} broker-{it}\n" for it in (1, 2, 3))
BEFORE = f"""printf '{HOSTS}' > /etc/hosts
mkdir -p /etc/ssl/certs /etc/ssl/private
cp certificate/broker.pem /etc/ssl/certs/ && cp certificate/broker.key /etc/ssl/private/
"""
# What this machine has, and the three don't have yet. GlusterFS takes many seconds to look at its copies to other
# places (gsyncd), which aren't used.
CLEAN = """rm -f /etc/resolv.conf /usr/lib/*/glusterfs/gsyncd
userdel broker 2> /dev/null || true
rm -rf /var/lib/broker /usr/local/bin/broker /usr/local/share/broker
"""
# How other files of examples/cluster/ come to their places.
CHANGED = """install -m 644 examples/cluster/broker.conf /etc/systemd/system/broker.service.d/cluster.conf
install -m 644 examples/cluster/broker-volume.service /etc/systemd/system/
install -m 644 examples/cluster/volume.options /var/lib/glusterd/groups/broker
systemctl daemon-reload
"""
BEGUN = """systemctl restart broker-volume
until mountpoint -q /var/lib/broker; do sleep 0.2; done
systemctl start --no-block broker
"""


class Copy(NamedTuple):
    """A backup: the machine that made it, the file there, and when it began."""

    machine: Machine
    file: str
    began: float


class Cluster(Machines):
    """The machines, with the program. If they are fresh, `base` has the files that they begin with, and `network` is a
    file by which a network is entered that reaches Debian's archive."""

    copy: Copy

    def __init__(
        self, program: str, room: str, disk: str, groups: str, replica: str = "full", base: str = "/", network: str = ""
    ) -> None:
        self.program, self.room, self.replica, self.network = program, room, replica, network
        self.tree = f"{room}/tree"
        shutil.copytree(f"{TOP}/examples", f"{self.tree}/examples")
        os.makedirs(f"{self.tree}/certificate")
        self.certify()
        folders = [TOP, self.tree, os.path.dirname(program)]
        self.machines = [Machine(it, room, disk, groups, folders, base) for it in (1, 2, 3)]
        self.is_fresh = base != "/"

    def certify(self) -> None:
        names = f"subjectAltName=DNS:broker.example.org,IP:{COMMON}"
        files = ["-keyout", f"{self.tree}/certificate/broker.key", "-out", f"{self.tree}/certificate/broker.pem"]
        words = ["openssl", "req", "-x509", "-newkey", "rsa:2048", "-nodes", "-days", "2", "-subj", "/CN=broker"]
        told([*words, "-addext", names, *files])

    def lines(self, text: str) -> str:
        """Lines of the page, pasted into a shell of root, with the program that is tried."""
        text = text.replace("crates/broker/out/broker", self.program)
        text = text.replace("openssl rand -hex 24", f"echo {OFFICE}")
        if self.replica == "arbiter":
            text = text.replace("create broker replica 3 ", "create broker replica 3 arbiter 1 ")
        return f"set -eu\ncd {self.tree}\n{self.variables}\n{text}"

    def paste(self, step: Step) -> None:
        """Does the lines of a block where they are for."""
        machines = self.machines if step.is_for_each else self.machines[:1]
        fetches, rest = "".join(FETCHES.findall(step.text)), self.lines(FETCHES.sub("", step.text))
        if fetches and self.is_fresh:
            way = f"--net={self.network}"
            at_once(lambda it: it.run(f"set -eu\n{fetches}", seconds=1200, network=way), machines)
        at_once(lambda it: it.run(rest), machines)

    def install(self) -> None:
        """All blocks of the page, one after another."""
        at_once(lambda it: it.start(), self.machines)
        blocks = steps()
        self.variables = next(row for row in blocks[0].text.split("\n") if row.startswith("machines="))
        before = self.lines(BEFORE if self.is_fresh else CLEAN + BEFORE)
        at_once(lambda it: it.run(before), self.machines)
        for step in blocks[:-1]:
            self.paste(step)
        self.settle()
        self.ask_by_name(blocks[-1])

    def change(self, files: dict[str, str]) -> None:
        """Puts other files in the places of those of examples/cluster/, and begins anew with them."""
        for name, text in files.items():
            with open(f"{self.tree}/examples/cluster/{name}", "w", encoding="utf-8") as it:
                it.write(text)
        self.stop()
        first = "gluster volume set broker group broker\n"
        for words, machines in (CHANGED, self.machines), (first, self.machines[:1]), (BEGUN, self.machines):
            lines = self.lines(words)
            at_once(lambda it: it.run(lines), machines)
        self.settle()

    def stop(self) -> None:
        """Nobody serves."""
        at_once(lambda it: it.run("systemctl stop broker"), self.machines)

    def ask_by_name(self, step: Step) -> None:
        """The last block of the page, here, where the name is that of the common address."""
        hosts = f"{self.tree}/hosts"
        with open(hosts, "w", encoding="ascii") as it:
            it.write(f"127.0.0.1 localhost\n{COMMON} broker.example.org\n")
        told(["mount", "--bind", hosts, "/etc/hosts"])
        trusted = f"CURL_CA_BUNDLE={self.tree}/certificate/broker.pem"
        said = told(["env", trusted, "bash", "-euc", step.text], 3 * PATIENCE)
        same("what the last block prints", said, '{"answer":"no route"}')

    def token_file(self, name: str, token: str) -> str:
        """A file with a token, which this process and the machines have at the same place."""
        path = f"{self.tree}/{name}"
        with open(os.open(path, os.O_WRONLY | os.O_CREAT, 0o600), "w", encoding="ascii") as it:
            it.write(token)
        return path

    def backup(self, name: str) -> str:
        """A copy that examples/backup.sh makes on the machine that serves, while it does; what the script says."""
        words = f"{self.tree}/examples/backup.sh /usr/local/bin/broker {FILE}"
        count = 0

        def copied(machine: Machine) -> str:
            nonlocal count
            count += 1
            began, file = time.monotonic(), f"/root/{name}-{count}.db"
            said = machine.run(f"set -eu; broker=$({BROKER}); {words} {file} $broker").strip()
            self.copy = Copy(machine, file, began)
            return said

        return self.steadily(copied)

    def copy_by_page(self, machine: Machine, shell: str) -> tuple[int, str, list[str]]:
        """What the page's lines for a copy end with there, by this shell, what they print, and which files are there
        then."""
        machine.run("rm -rf /backup; mkdir -m 700 /backup")
        done = ended(machine.inside(f"exec {shell} -c {shlex.quote(copying())}"), 2 * PATIENCE)
        return done.returncode, done.stdout + done.stderr, machine.run("ls -A /backup").split()

    def try_copies(self) -> None:
        """The page's lines make a sound copy on the machine that serves; on the others none, and end with 1."""
        serving = self.server()
        for machine in self.machines:
            for shell in "bash -e", "sh":
                status, said, found = self.copy_by_page(machine, shell)
                if machine is not serving:
                    same(f"a copy on {machine.name}, which doesn't serve", (status, said, found), (1, "", []))
                elif status or len(found) != 1 or f"/backup/{found[0]} holds format " not in said:
                    raise Wrong(f"a copy on {machine.name}, which serves, ends with {status}: {said}{found}")
                else:
                    machine.run(f"{self.tree}/examples/test-copy.sh /usr/local/bin/broker /backup/{found[0]}")

    def restore(self) -> None:
        """Puts the last copy in the file's place: the broker is stopped on all machines."""
        self.stop()
        words = f"{self.tree}/examples/restore.sh /usr/local/bin/broker {self.copy.file} {FILE} broker"
        self.copy.machine.run(f"{words} http://127.0.0.1:9292")
        for it in self.machines:
            it.run("systemctl start --no-block broker")
        self.await_service()
