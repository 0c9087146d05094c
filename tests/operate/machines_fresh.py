"""Debian's base, with which a fresh machine begins: what debootstrap makes of Debian 12, and nothing else. It is made
once, in a minute or two, by Debian's archive as /etc/apt has it, and kept in ~/.cache/holzhebo-fresh (or below
$XDG_CACHE_HOME)."""
import glob, os, re, shutil
from tests.operate.machines_hosts import told
from tests.wire import NotRun

SUITE = "bookworm"


def mirror() -> str:
    """The first address in /etc/apt of Debian's archive."""
    for path in ["/etc/apt/sources.list", *sorted(glob.glob("/etc/apt/sources.list.d/*"))]:
        if os.path.isfile(path):
            with open(path, encoding="utf-8") as it:
                found = re.search(r"(?m)^[^#\n]*?(https?://\S+/debian)/?(?:\s|$)", it.read())
            if found:
                return found[1]
    return "http://deb.debian.org/debian"


def fresh_base() -> str:
    """The folder of the base."""
    kept = os.environ.get("XDG_CACHE_HOME") or os.path.expanduser("~/.cache")
    base = f"{kept}/holzhebo-fresh/{SUITE}-machine"
    if os.path.isdir(base):
        return base
    if not shutil.which("debootstrap"):
        raise NotRun("debootstrap isn't installed")
    made = f"{base}.part"
    shutil.rmtree(made, ignore_errors=True)
    os.makedirs(os.path.dirname(base), exist_ok=True)
    told(["unshare", "--mount", "debootstrap", SUITE, made, mirror()], 1800)
    shutil.copy("/etc/resolv.conf", f"{made}/etc/resolv.conf")
    settings = re.findall(r"(?m)^Acquire::(?:http|https|Check).*\n", told(["apt-config", "dump"]))
    with open(f"{made}/etc/apt/apt.conf.d/99outside", "w", encoding="utf-8") as it:
        it.write("".join(settings))
    os.rename(made, base)
    return base
