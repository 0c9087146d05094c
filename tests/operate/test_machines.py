"""Three machines, installed by the lines of docs/CLUSTER.md, with GlusterFS, keepalived, nginx and systemd on each: one
of each fault, while builds go on; and recipes that lack something, by which changes are lost: one of them, and each of
them with --by-hand. Needs Linux and root. It is skipped, and said, where there may be no such machines: in a container
without /dev/fuse, say.

    python3 -m tests.operate.machines_play PROGRAM --rounds 100     the long form, by hand (machines_play.py)
    python3 -m tests.operate.machines_play PROGRAM --fresh          on machines with Debian's base and nothing else"""
import signal, subprocess, sys
import pytest
from tests.conftest import LONGEST
from tests.operate.machines_apart import NOT_RUN
from tests.operate.machines_faults import FAULTS
from tests.operate.machines_wrong import RECIPES
from tests.process import TOP
from tests.wire import Wrong, same

pytestmark = [
    pytest.mark.root,
    pytest.mark.timing,
    pytest.mark.first,
    pytest.mark.needs("curl", "findmnt", "gluster", "ip", "keepalived", "nginx", "openssl"),
    pytest.mark.needs("pgrep", "sqlite3", "systemctl"),
]
# A play that hangs says where, before the test is ended: so many seconds after its begin.
SECONDS = LONGEST - 90


def played(program: str, names: list[str], *words: str) -> None:
    """A play that has to end well, with a line for each of these."""
    call = ["setpriv", "--pdeathsig", "TERM", sys.executable, "-m", "tests.operate.machines_play", program, *words]
    with subprocess.Popen(call, cwd=TOP, stdout=subprocess.PIPE, stderr=subprocess.STDOUT, text=True) as it:
        try:
            said, _ = it.communicate()
        except BaseException:
            it.send_signal(signal.SIGTERM)  # so it removes what it made
            print(it.communicate()[0])
            raise
    lines = said.splitlines()
    if it.returncode == NOT_RUN:
        pytest.skip(lines[-1])
    if it.returncode or not all(line.startswith("ok ") for line in lines):
        raise Wrong(f"the play ends with {it.returncode}:\n{said}")
    same("what wasn't tried", set(names) - {line[3:].split(":")[0].strip() for line in lines}, set())


def test_machines(program: str) -> None:
    """Nothing that was acknowledged is lost by any fault; and it is lost by a recipe that is wrong, which is seen."""
    played(program, [*FAULTS, "the recipe without quorum"], "--wrong", "quorum", "--seconds", str(SECONDS))


@pytest.mark.by_hand
@pytest.mark.parametrize("name", RECIPES)
def test_recipes(program: str, name: str) -> None:
    """What a recipe lacks is seen by what comes of it, or can't be seen, as docs/CLUSTER.md says."""
    played(program, [f"the recipe without {name}"], "--only", "^$", "--wrong", name)
