"""A machine of its own for what installs: systemd as the first process, over this machine's files with a layer above
them, which takes what is written; with processes, a network, a name and a group of its own. Nothing outside is changed.
Needs Linux, root, and the Debian packages iproute2, systemd and util-linux."""
import contextlib, os, re, subprocess, tempfile
from collections.abc import Iterator
from tests.wire import NotRun

# Makes the root of such a machine in $1, with the folder $2 in it, and those after it as they are here. Then systemd
# starts, and with it only the text of $2: no other unit of this machine is wanted by anything there.
ROOT = r"""
at=$1 room=$2 root=$1/root
shift
mount --make-rprivate /
mount -t tmpfs none "$at"
mkdir "$at/above" "$at/work" "$root"
mount -t overlay overlay -o "lowerdir=/,upperdir=$at/above,workdir=$at/work" "$root"
mount -t proc none "$root/proc"
mount --bind "$root/proc/sys" "$root/proc/sys"
mount -o remount,bind,ro "$root/proc/sys"
mount -t sysfs -o ro none "$root/sys"
mount -t cgroup2 none "$root/sys/fs/cgroup"
for folder in run dev; do mount -t tmpfs -o mode=755 none "$root/$folder"; done
for name in null zero full random urandom tty; do
  mknod -m 666 "$root/dev/$name" c "$(stat -c 0x%t "/dev/$name")" "$(stat -c 0x%T "/dev/$name")"
done
ln -s /proc/self/fd "$root/dev/fd"
ln -s pts/ptmx "$root/dev/ptmx"
for folder; do
  mkdir -p "$root$folder"
  mount --bind "$folder" "$root$folder"
done
ip link set lo up
: > "$root/etc/machine-id"
cd "$root/lib/systemd/system"
rm -rf ./*.target.wants "$root/etc/systemd/system/"*.wants
mkdir sysinit.target.wants
ln -s ../systemd-journald.service sysinit.target.wants/
cat > tried.service <<END
[Service]
Type=oneshot
ExecStart=/bin/bash -eu $room/text
StandardOutput=file:$room/output
StandardError=file:$room/errors
ExecStopPost=/bin/sh -c 'echo \$EXIT_STATUS > $room/status; systemctl poweroff --force --force 2> /dev/null'
END
mkdir "$root/before"
cd "$root"
pivot_root . before
umount -l /before
exec env -i container=tried PATH=/usr/sbin:/usr/bin:/sbin:/bin \
  /lib/systemd/systemd --system --unit=tried.service --show-status=no
"""
JOIN = 'echo $$ > "$1/cgroup.procs"; shift; exec "$@"'
APART = ["unshare", "--mount", "--net", "--pid", "--uts", "--ipc", "--cgroup", "--fork", "--kill-child"]


@contextlib.contextmanager
def own_group() -> Iterator[str]:
    """A group of processes below that of this one."""
    trees = subprocess.run(["findmnt", "-n", "-o", "TARGET", "-t", "cgroup2"], capture_output=True, text=True).stdout
    with open("/proc/self/cgroup", encoding="ascii") as it:
        own = re.search(r"(?m)^0::(.*)$", it.read())
    if not trees or not own:
        raise NotRun("there are no groups of processes (cgroup2) here")
    group = tempfile.mkdtemp(prefix="tried-", dir=trees.split()[0] + own[1])
    try:
        yield group
    finally:
        subprocess.run(["find", group, "-depth", "-type", "d", "-exec", "rmdir", "{}", ";"], check=False)


def booted(text: str, folders: list[str], seconds: float) -> tuple[int, str, str]:
    """The status, the output and the errors of bash with this text; the status is -1 if the machine ended before it."""
    with tempfile.TemporaryDirectory() as mount, tempfile.TemporaryDirectory() as room, own_group() as group:
        with open(f"{room}/text", "w", encoding="utf-8") as it:
            it.write(text)
        words = ["bash", "-euc", JOIN, "bash", group, *APART, "bash", "-euc", ROOT, "bash", mount, room, *folders]
        done = subprocess.run(words, capture_output=True, text=True, timeout=seconds, check=False)
        said = {"status": "-1", "output": done.stdout, "errors": done.stderr}
        for name in said:
            with contextlib.suppress(FileNotFoundError), open(f"{room}/{name}", encoding="utf-8") as it:
                said[name] = it.read()
    return int(said["status"]), said["output"], said["errors"]


def in_own_machine(text: str, folders: list[str], seconds: float) -> tuple[int, str, str]:
    """The status, the output and the errors of this text there, by bash and as root, within so many seconds."""
    why = "it needs root"
    if os.geteuid() == 0:
        status, _, why = booted("systemctl --version > /dev/null", [], 60)
        if status == 0:
            return booted(text, folders, seconds)
    raise NotRun(f"there may be no machine of its own here, with systemd: {why.strip()[-300:]}")
