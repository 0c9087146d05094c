"""How the scripts of examples/ are run over a service: with another clock, other numbers, a copying without an end."""
import os, shutil, subprocess, time
from tests.operate.service import Service
from tests.process import run, text_of

CLOCK = """#!/bin/sh
case "$*" in *+%Y-%m-%dT%H%M%SZ) cat {room}/clock ;; *) exec /usr/bin/date "$@" ;; esac
"""
HALT = "#!/bin/sh\n: > {room}/halted\nexec sleep 60\n"


def keep_words(service: Service, count: int = 3, folder: str = "") -> list[str]:
    folder = folder or f"{service.room}/backup"
    return ["examples/keep-copies.sh", service.program, service.file, folder, str(count), "broker"]


def keep(service: Service, count: int = 3, status: int = 0, folder: str = "") -> str:
    return run(keep_words(service, count, folder), status, service.env)


def names(service: Service) -> list[str]:
    return sorted(os.listdir(f"{service.room}/backup"))


def set_clock(service: Service, date: str) -> None:
    """What `date` says to the scripts from now on."""
    with open(f"{service.room}/clock", "w", encoding="ascii") as it:
        it.write(date + "\n")
    service.tool("date", CLOCK.format(room=service.room))


def quick(service: Service) -> str:
    """The scripts, with a test of copies that takes no time."""
    folder: str = shutil.copytree("examples", f"{service.room}/examples")
    with open(f"{folder}/test-copy.sh", "w", encoding="utf-8") as it:
        it.write("#!/bin/sh\necho tested\n")
    return folder


def edited(service: Service, script: str, old: str, new: str) -> str:
    """A script of examples/ with another number, so that a test needn't wait as long."""
    folder = f"{service.room}/examples"
    if not os.path.exists(folder):
        shutil.copytree("examples", folder)
    text = text_of(f"{folder}/{script}")
    assert text.count(old) == 1, (script, old)
    with open(f"{folder}/{script}", "w", encoding="utf-8") as it:
        it.write(text.replace(old, new))
    return f"{folder}/{script}"


def await_halt(service: Service, it: "subprocess.Popen[str]") -> None:
    for _ in range(2000):
        if os.path.exists(f"{service.room}/halted"):
            return
        assert it.poll() is None, it.communicate()
        time.sleep(0.01)
    raise AssertionError("the copying isn't begun")


def goes_on(service: Service, seconds: float) -> None:
    end = time.monotonic() + seconds
    while service.state() == "T":
        assert time.monotonic() < end, "the broker is left stopped"
        time.sleep(0.02)
