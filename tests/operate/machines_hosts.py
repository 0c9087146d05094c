"""Machines of a cluster: each has systemd as its first process, a name, a disk, a network card and processes of its
own, over this machine's files, or a fresh one's, with a layer above them, which takes what is written and stays when
the machine is lost. A bridge joins them. Nothing outside is changed. Needs Linux, root, and the Debian packages
iproute2, systemd and util-linux.

Runs in namespaces of its own (machines_apart.py), so that all of it ends with the process that called for it."""
import contextlib, os, signal, subprocess, time
from collections.abc import Callable, Sequence
from tests.wire import Wrong

NET = "10.77.0"
OWN = f"{NET}.254"
# How many seconds is waited for what comes by itself, on a machine that has much other work to do.
PATIENCE = 180
# Makes the root of the machine $2 from the layer in $1 over the files in $3, with the folders $4.. in it as they are
# here, waits for its network card, and starts systemd.
ROOT = r"""
at=$1 name=$2 base=$3 root=$1/root
shift 3
mount --make-rprivate /
mkdir -p "$at/above" "$at/work" "$root"
mount -t overlay overlay -o "lowerdir=$base,upperdir=$at/above,workdir=$at/work" "$root"
mount -t proc none "$root/proc"
mount --bind "$root/proc/sys" "$root/proc/sys"
mount -t sysfs -o ro none "$root/sys"
mount -t cgroup2 none "$root/sys/fs/cgroup"
for folder in run dev tmp; do mount -t tmpfs -o mode=755 none "$root/$folder"; done
chmod 1777 "$root/tmp"
mkdir "$root/dev/shm" "$root/dev/pts"
mount -t devpts -o newinstance,ptmxmode=0666 none "$root/dev/pts"
ln -s pts/ptmx "$root/dev/ptmx"
for node in null zero full random urandom tty fuse; do
  mknod -m 666 "$root/dev/$node" c "$(stat -c 0x%t "/dev/$node")" "$(stat -c 0x%T "/dev/$node")"
done
ln -s /proc/self/fd "$root/dev/fd"
for folder; do
  mkdir -p "$root$folder"
  mount --bind "$folder" "$root$folder"
done
mkdir -p "$root/srv/broker"
mount --bind "$at/disk" "$root/srv/broker"
hostname "$name"
echo "$name" > "$root/etc/hostname"
if [ ! -e "$at/installed" ]; then
  rm -rf "$root/lib/systemd/system/"*.target.wants "$root/etc/systemd/system/"*.wants
  mkdir "$root/lib/systemd/system/sysinit.target.wants"
  ln -s ../systemd-journald.service "$root/lib/systemd/system/sysinit.target.wants/"
  rm -rf "$root/var/lib/glusterd/"* "$root/var/log/glusterfs/"* "$root/etc/nginx/sites-enabled/"*
  head -c 16 /dev/urandom | od -An -tx1 | tr -d ' \n' > "$root/etc/machine-id"
  touch "$at/installed"
fi
until ip link show eth0 > /dev/null 2>&1; do sleep 0.02; done
mkdir -p "$root/before"
cd "$root"
pivot_root . before
umount -l /before
exec env -i container=tried PATH=/usr/sbin:/usr/bin:/sbin:/bin /lib/systemd/systemd --system --show-status=no \
  --unit=multi-user.target
"""
# Does $2.. in the group $1. The machines share the processors with whatever else is done here; each has to be as prompt
# as one that has its own. So they precede others, if that may be.
JOIN = """echo $$ > "$1/cgroup.procs"
shift
if chrt --rr 1 true 2> /dev/null; then set -- chrt --rr 1 "$@"; fi
exec "$@"
"""
APART = ["unshare", "--mount", "--net", "--pid", "--uts", "--ipc", "--cgroup", "--fork", "--kill-child"]


def ended(words: Sequence[str], seconds: float) -> "subprocess.CompletedProcess[str]":
    """How the words end, which they have to well within so many seconds."""
    try:
        return subprocess.run(words, capture_output=True, text=True, timeout=seconds, check=False)
    except subprocess.TimeoutExpired:
        raise Wrong(f"{' '.join(words)} doesn't end within {seconds:g} seconds") from None


def told(words: Sequence[str], seconds: float = PATIENCE) -> str:
    """What the words print; they have to end well."""
    done = ended(words, seconds)
    if done.returncode:
        raise Wrong(f"{' '.join(words)} ends with {done.returncode}: {done.stdout}{done.stderr}")
    return done.stdout


def awaited(what: str, is_so: Callable[[], bool], seconds: float, pause: float = 0.1) -> float:
    """Waits until it is so; how long that took."""
    began = time.monotonic()
    while not is_so():
        if time.monotonic() - began > seconds:
            raise Wrong(f"{what}: not within {seconds:g} seconds")
        time.sleep(pause)
    return time.monotonic() - began


class Machine:
    """One machine. It is lost and started again, with the disk and the network card that it had."""

    process: "subprocess.Popen[str]"
    pid = 0

    def __init__(
        self, number: int, room: str, disk: str, groups: str, folders: Sequence[str], base: str = "/"
    ) -> None:
        self.number, self.name, self.address = number, f"broker-{number}", f"{NET}.{number}"
        self.room, self.group, self.folders, self.base = f"{room}/{number}", f"{groups}/{number}", folders, base
        for folder in self.room, f"{self.room}/disk", f"{disk}/{number}", self.group:
            os.makedirs(folder)
        told(["mount", "--bind", f"{disk}/{number}", f"{self.room}/disk"])

    def start(self) -> None:
        words = ["bash", "-euc", JOIN, "bash", self.group, *APART, "bash", "-euc", ROOT, "bash"]
        words += [self.room, self.name, self.base, *self.folders]
        with open(f"{self.room}/console", "a", encoding="utf-8") as console:
            self.process = subprocess.Popen(words, text=True, stdout=console, stderr=console)
        try:
            awaited(f"the first process of {self.name}", self.has_first, PATIENCE, 0.01)
            self.plug()
            awaited(f"systemd of {self.name}", self.is_up, PATIENCE)
        except Wrong:
            self.goes_on()  # if it hasn't ended meanwhile, that was the fault
            raise

    def plug(self) -> None:
        """Its network card, with a cable to the bridge."""
        peer = ["peer", "name", "eth0", "address", hardware(self.number), "netns", str(self.pid)]
        told(["ip", "link", "add", self.card, "type", "veth", *peer])
        told(["ip", "link", "set", self.card, "master", "bridge", "up"])
        ip = ["nsenter", "-t", str(self.pid), "-n", "ip"]
        told([*ip, "addr", "add", f"{self.address}/24", "dev", "eth0"])
        for link in "eth0", "lo":
            told([*ip, "link", "set", link, "up"])

    @property
    def card(self) -> str:
        return f"card{self.number}"

    def has_first(self) -> bool:
        """Whether the machine has its first process: the child of unshare, once its network isn't this one's."""
        self.goes_on()
        ours, path = os.readlink("/proc/self/ns/net"), f"/proc/{self.process.pid}/task/{self.process.pid}/children"
        with contextlib.suppress(OSError, IndexError), open(path, encoding="ascii") as it:
            child = int(it.read().split()[0])
            if os.readlink(f"/proc/{child}/ns/net") != ours:
                self.pid = child
                return True
        return False

    def is_up(self) -> bool:
        self.goes_on()
        return self.says("systemctl is-system-running").strip() in ("running", "degraded")

    def goes_on(self) -> None:
        """It hasn't ended by itself; else what it said last is the fault."""
        if self.process.poll() is not None:
            with open(f"{self.room}/console", encoding="utf-8", errors="replace") as it:
                raise Wrong(f"{self.name} ends with {self.process.returncode}: {it.read()[-300:]}")

    def inside(self, text: str, network: str = "--net") -> list[str]:
        """The words that let bash do this text there, as root, in its own network or that of a file."""
        spaces = ["--mount", "--uts", "--ipc", "--pid", "--cgroup", network]
        env = ["env", "-i", "HOME=/root", "PATH=/usr/sbin:/usr/bin:/sbin:/bin"]
        return ["nsenter", "-t", str(self.pid), *spaces, "--", *env, "bash", "-c", text]

    def run(self, text: str, seconds: float = 2 * PATIENCE, network: str = "--net") -> str:
        """What this text of bash prints there, as root; it has to end well."""
        done = ended(self.inside(text, network), seconds)
        if done.returncode:
            raise Wrong(f"{self.name}: {text} ends with {done.returncode}: {done.stdout}{done.stderr}")
        return done.stdout

    def says(self, text: str) -> str:
        """What this text prints there, however it ends; nothing if it doesn't."""
        with contextlib.suppress(Wrong):
            return ended(self.inside(text), PATIENCE).stdout
        return ""

    def cut(self) -> None:
        """Its cable is pulled; its processes go on."""
        told(["ip", "link", "set", self.card, "down"])

    def join(self) -> None:
        told(["ip", "link", "set", self.card, "up"])

    def freeze(self, word: str) -> None:
        """Stops all of it between two instructions ("1"), as a virtual machine is paused, or lets it go on ("0")."""
        with open(f"{self.group}/cgroup.freeze", "w", encoding="ascii") as it:
            it.write(word)

    def lose(self) -> None:
        """Its power goes: nobody gets a last packet of it."""
        with contextlib.suppress(Wrong):  # it has no card if it ended by itself
            self.cut()
        with contextlib.suppress(ProcessLookupError):
            os.kill(self.pid or self.process.pid, signal.SIGKILL)
        self.process.wait(PATIENCE)
        with contextlib.suppress(Wrong):
            told(["ip", "link", "delete", self.card])
        self.pid = 0


def hardware(number: int) -> str:
    """The address of a network card, which it keeps."""
    return f"02:00:0a:4d:00:{number:02x}"
