"""Where the machines of a cluster are: in namespaces that end with the process that called for them, with a group of
processes and folders that are removed then, however it ends. Says why there may be none here: in a container without
/dev/fuse, say, or where no other network may be made. Needs Linux, root, and the Debian packages iproute2, systemd and
util-linux."""
import contextlib, os, re, signal, socket, subprocess, sys, tempfile
from collections.abc import Callable, Iterator, Sequence
from tests.operate.machines_hosts import OWN, PATIENCE, Machine, hardware, told
from tests.wire import NotRun, Wrong

# What a process ends with that can't be tried here, after a line that says why.
NOT_RUN = 77
WORLD = ["setpriv", "--pdeathsig", "KILL"]
WORLD += ["unshare", "--mount", "--net", "--pid", "--fork", "--kill-child", "--mount-proc"]
# The first process there waits for whatever processes lose their parents; else a machine that is lost waits for them.
FIRST = ["bash", "-c", '"$@" & wait $!', "bash"]
# Makes a group of processes below $1, a folder, and one in $2, and says their names. It removes them once nobody has
# the other end of its input any more: whoever called for them has ended then, if only by a signal, and all in them too.
KEEPER = """trap '' HUP INT TERM
group=$(mktemp -d -p "$1" machines-XXXXXX)
room=$(mktemp -d)
disk=$(mktemp -d -p "$2")
echo "$room"
echo "$disk"
echo "$group"
cat > /dev/null
for _ in $(seq 1200); do
  find "$group" -depth -type d -exec rmdir {} + 2> /dev/null || true
  [ -e "$group" ] || break
  sleep 0.1
done
rm -rf "$room" "$disk"
[ ! -e "$group" ]
"""
# What a machine may have to be allowed, by what tries it there.
NEEDED = {"volume": "exec 3<> /dev/fuse", "service that comes before others at the processors": "chrt --rr 1 true"}
# The protocol by which keepalived's VRRP says who has the common address.
VRRP = 112


def said(call: Callable[[], int]) -> int:
    """What the call ends with; NOT_RUN and a sentence, if it can't be tried here."""
    try:
        return call()
    except NotRun as why:
        print(f"not run: {' '.join(str(why).split())}", flush=True)
        return NOT_RUN


@contextlib.contextmanager
def not_run(what: str) -> Iterator[None]:
    """What fails in this block can't be done here."""
    try:
        yield
    except (Wrong, OSError, subprocess.SubprocessError) as why:
        raise NotRun(f"there may be no {what} here: {why}") from why


# Outside of the namespaces


def own_group() -> str:
    """The folder of this process's group of processes."""
    with not_run("groups of processes (cgroup2)"):
        trees = told(["findmnt", "-n", "-o", "TARGET", "-t", "cgroup2"]).split()
        with open("/proc/self/cgroup", encoding="ascii") as it:
            own = re.search(r"(?m)^0::(.*)$", it.read())
        if not trees or not own:
            raise Wrong("this process has none")
    return trees[0] + own[1]


@contextlib.contextmanager
def places(disk: str | None) -> Iterator[list[str]]:
    """A folder, one for the disks of the machines, in this one if it is named, and a group of processes."""
    words = ["bash", "-euc", KEEPER, "bash", own_group(), disk or tempfile.gettempdir()]
    pipe = subprocess.PIPE
    with subprocess.Popen(words, stdin=pipe, stdout=pipe, stderr=pipe, text=True, start_new_session=True) as keeper:
        assert keeper.stdin and keeper.stdout and keeper.stderr
        found = [keeper.stdout.readline().strip() for _ in range(3)]
        try:
            if not all(found):
                raise NotRun(f"there may be no group of processes here: {keeper.stderr.read()}")
            yield found
        finally:
            keeper.stdin.close()
            if keeper.wait(PATIENCE) and all(found):
                raise Wrong(f"{found[2]} still has processes")


def apart(words: Sequence[str], disk: str | None = None) -> int:
    """Runs the words in namespaces that end with this process, and after them `places` and the number of a file by
    which this network is entered; the status. Nothing of it is left, also if this process is ended."""
    for number in signal.SIGTERM, signal.SIGHUP:
        signal.signal(number, lambda *_: sys.exit(1))
    if not os.path.exists("/dev/fuse"):
        raise NotRun("there is no /dev/fuse here, by which a volume is mounted")
    with not_run("namespaces"):
        told([*WORLD, "true"])
    network = os.open("/proc/self/ns/net", os.O_RDONLY)
    with places(disk) as found:
        call = [*WORLD, *FIRST, *words, *found, str(network)]
        return subprocess.run(call, pass_fds=[network], check=False).returncode


# Inside


def enter(in_memory: Sequence[str], room: str, disk: str, group: str) -> None:
    """The network of the machines, with this process at it, and folders in memory; a machine is tried, and lost."""
    with not_run("network of machines"):
        network()
    with not_run("VRRP"):
        socket.socket(socket.AF_INET, socket.SOCK_RAW, VRRP).close()
    with not_run("machine with systemd"):
        for folder in in_memory:
            told(["mount", "-t", "tmpfs", "none", folder])
        it = Machine(9, room, disk, group, [])
        try:
            it.start()
            for what, words in NEEDED.items():
                with not_run(what):
                    it.run(words)
        finally:
            it.lose()


def network() -> None:
    """The bridge of the machines."""
    for words in (
        ["mount", "--make-rprivate", "/"],
        ["ip", "link", "set", "lo", "up"],
        ["ip", "link", "add", "bridge", "address", hardware(254), "type", "bridge"],
        ["ip", "addr", "add", f"{OWN}/24", "dev", "bridge"],
        ["ip", "link", "set", "bridge", "up"],
    ):
        told(words)
