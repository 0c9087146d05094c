"""How many locks of the broker examples/cluster/hold.py sees at each replica, by what the volume's client says of them."""
import os, subprocess, sys
from pathlib import Path
import pytest
from tests.process import TOP
from tests.wire import same

LOCKS = "import sys, hold; print(sorted(hold.locks(sys.argv[1]), reverse=True))"


def said(numbers: tuple[int, ...], connected: bool) -> str:
    """What GlusterFS 10.3 writes of descriptors with these numbers at a replica, each with a lock."""
    lock = "granted-posix-lock[0] = owner = 8b84e0b3e38b0338, cmd = F_SETLK fl_type = F_WRLCK\n"
    rows = [f"fd.{at}.remote_fd = {it}\n------ = ------\n{lock}" for at, it in enumerate(numbers)]
    return f"[xlator.protocol.client.broker-client-0.priv]\n{''.join(rows)}connecting = 0\nconnected = {int(connected)}\ntotal = 1\n"


@pytest.mark.parametrize(
    ("replicas", "wanted"),
    [
        # The file and its log; the file's descriptor, which isn't open at the last one; one that is away.
        ([(0, 1), (0, 1), (0, 1)], [2, 2, 2]),
        ([(0, 1), (0, 1), (-1, 1)], [2, 2, 1]),
        ([(0, 1), (0, 1), None], [2, 2]),
        # What an earlier broker left there; a machine that doesn't serve.
        ([(0, 1), (0, 1), (-1, -1, 0, 1)], [2, 2, 2]),
        ([(), (), (-1, -1)], [0, 0, 0]),
    ],
)
def test_locks(tmp_path: Path, replicas: list[tuple[int, ...] | None], wanted: list[int]) -> None:
    for at, numbers in enumerate(replicas):
        folder = f"{tmp_path}/.meta/graphs/active/broker-client-{at}"
        os.makedirs(folder)
        with open(f"{folder}/private", "w", encoding="utf-8") as it:
            it.write(said(numbers or (), numbers is not None))
    call = [sys.executable, "-B", "-c", LOCKS, str(tmp_path)]
    ran = subprocess.run(call, cwd=f"{TOP}/examples/cluster", capture_output=True, text=True, check=True)
    same("locks at each replica", ran.stdout.strip(), str(wanted))
