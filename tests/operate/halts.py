"""Commands of a script that stop or fail at a chosen call: each is found before the machine's own, counts its calls
with the others, and at one of them waits for ever, or fails. And a signal just as a script begins to clean up."""
import os, signal, subprocess, time
from collections.abc import Iterator, Sequence
from tests.operate.service import Service
from tests.wire import Wrong

SHIM = """#!/bin/sh
echo >> {room}/calls
if [ "$(wc -l < {room}/calls)" = "$HALT_AT" ]; then
  if [ "$HALT_BY" = fail ]; then exit 1; fi
  : > {room}/halted
  exec sleep 1000
fi
exec /usr/bin/{tool} "$@"
"""
# What bash reads before a script.
AS_IT_ENDS = """case $0 in */%s)
  set -o functrace
  trap '[ "${FUNCNAME[0]-}" != clean_up ] || { trap - DEBUG; kill -TERM $$; }' DEBUG ;;
esac
"""


def signalled_as_it_ends(room: str, script: str) -> dict[str, str]:
    """The setting by which this script gets SIGTERM before the first command of its clean_up."""
    path = f"{room}/signalled-as-it-ends"
    with open(path, "w", encoding="ascii") as it:
        it.write(AS_IT_ENDS % script)
    return {"BASH_ENV": path}


def halting(service: Service, tools: Sequence[str]) -> None:
    """Puts such commands before those of the machine."""
    for tool in tools:
        service.tool(tool, SHIM.format(room=service.room, tool=tool))
    clear(service)


def clear(service: Service) -> None:
    for name in "calls", "halted":
        path = f"{service.room}/{name}"
        if os.path.exists(path):
            os.remove(path)
    with open(f"{service.room}/calls", "w", encoding="ascii"):
        os.chmod(f"{service.room}/calls", 0o666)
    os.chmod(service.room, 0o777)


def halted(service: Service, words: Sequence[str], by: str) -> Iterator[tuple[int, int]]:
    """Runs the words once for each call, and stops them there: with by `kill` all of their group is killed. Gives the
    number of the call, and the status. It ends with the first run that comes to its end before that call."""
    at = 0
    while True:
        at += 1
        clear(service)
        env = {**os.environ, **service.env, "HALT_AT": str(at), "HALT_BY": by}
        nowhere = subprocess.DEVNULL
        it = subprocess.Popen(words, env=env, start_new_session=True, stdout=nowhere, stderr=nowhere)
        end = time.monotonic() + 60
        while it.poll() is None and not os.path.exists(f"{service.room}/halted"):
            if time.monotonic() > end:
                raise Wrong(f"{words[0]} doesn't end, nor come to its call {at}")
            time.sleep(0.01)
        if it.poll() is None:
            os.killpg(it.pid, signal.SIGKILL)
            it.wait()
        with open(f"{service.room}/calls", encoding="ascii") as calls:
            made = len(calls.readlines())
        if made < at:
            return
        yield at, it.returncode
