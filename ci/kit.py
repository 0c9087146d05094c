"""The kit, by the commands that `rt help` documents: each is a process of its own, judged by its status and by what it
prints. What holds for every kit that was met: 0 is proved and passed, 1 is not, 2 says that `rt` judged nothing."""
import os, subprocess, tempfile
from collections import namedtuple
from functools import lru_cache

# What a command printed, the status that it ended with, the seconds of the processors, and the most memory of one of
# its processes, in bytes.
Said = namedtuple("Said", "text status seconds memory")


def rt(words, folder, yields=0):
    """Runs `rt` with these words in this folder; `yields` is how much it yields the processors to others, of 19."""
    with tempfile.TemporaryFile("w+", errors="replace") as said:
        how = {"stdin": subprocess.DEVNULL, "stdout": said, "stderr": subprocess.STDOUT}
        ran = subprocess.Popen(["nice", "-n", str(yields), "rt", *words], cwd=folder, **how)
        _, ended, used = os.wait4(ran.pid, 0)
        ran.returncode = os.waitstatus_to_exitcode(ended)
        said.seek(0)
        return Said(said.read(), ran.returncode, used.ru_utime + used.ru_stime, used.ru_maxrss << 10)


@lru_cache(None)
def version():
    """The kit's one line: its name and the sum of its logic."""
    said = rt(["version"], "/")
    if said.status:
        raise SystemExit(f"the kit doesn't answer: {said.text.strip()}")
    return said.text.strip()


def processors():
    return len(os.sched_getaffinity(0))


def free():
    """The memory that is free, in bytes."""
    with open("/proc/meminfo", encoding="ascii") as it:
        return next(int(line.split()[1]) << 10 for line in it if line.startswith("MemAvailable:"))
