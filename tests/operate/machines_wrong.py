"""Recipes that are wrong, each by what it lacks of examples/cluster/: what comes of it when the machine that serves is
cut off, another one serves, and the first one is joined again."""
import contextlib, re, signal, time
from collections.abc import Callable
from typing import NamedTuple
from tests.operate.machines_faults import Scene
from tests.operate.machines_hosts import PATIENCE, Machine, awaited
from tests.process import text_of
from tests.wire import Wrong

Edits = dict[str, str]


def part_of(name: str) -> str:
    """A file of the recipe as it is."""
    return text_of(f"examples/cluster/{name}")


def with_option(text: str, name: str, value: str) -> str:
    """The options of the volume with another value of one."""
    changed, count = re.subn(rf"(?m)^{re.escape(name)}=.*$", f"{name}={value}", text)
    if count != 1:
        raise Wrong(f"{name} isn't among the options")
    return changed


def without_quorum() -> Edits:
    return {"volume.options": with_option(part_of("volume.options"), "cluster.quorum-type", "none")}


def without_hold() -> Edits:
    """The unit starts the broker itself."""
    unit = part_of("broker.conf")
    changed = re.sub(r"/usr/bin/python3 \S+/hold.py \S+ \S+ \\\n +", "", unit).replace("Type=notify", "Type=simple")
    if "hold.py" in re.sub("(?m)^#.*", "", changed):
        raise Wrong("the unit has hold.py still")
    return {"broker.conf": changed}


def without_locks() -> Edits:
    """Neither what ends the broker that is cut off, nor what keeps it from writing."""
    return {**without_hold(), "volume.options": with_option(part_of("volume.options"), "client.strict-locks", "off")}


def with_write_behind() -> Edits:
    options = with_option(part_of("volume.options"), "performance.write-behind", "on")
    return {"volume.options": with_option(options, "performance.flush-behind", "on")}


def with_kept(options: str) -> Edits:
    """The kernel keeps what it knows of the file: the volume is mounted without these options."""
    unit = part_of("broker-volume.service")
    changed = unit.replace(f"{options} ", "")
    if changed == unit:
        raise Wrong("the volume is mounted otherwise")
    return {"broker-volume.service": changed}


def with_attributes() -> Edits:
    return with_kept("--attribute-timeout=0 --entry-timeout=0")


def with_pages() -> Edits:
    return with_kept("--fopen-keep-cache=off")


# What comes of it


def cut_off(scene: Scene, is_quiet: bool) -> tuple[Machine, float]:
    """Cuts off the machine that serves, and waits until another one does; since when that is so. If it is quiet, nobody
    asks the first one for a change any more, so it doesn't notice: `heard` ends that."""
    machine = scene.cluster.server()
    common, own = scene.watch.writers[0], scene.watch.own[machine.name]
    scene.moment()
    for it in (common, own) if is_quiet else ():
        it.signal(signal.SIGSTOP)
    time.sleep(1)
    machine.cut()
    common.signal(signal.SIGCONT)
    scene.await_other(machine)
    return machine, time.monotonic()


def heard(scene: Scene, machine: Machine) -> None:
    scene.watch.own[machine.name].signal(signal.SIGCONT)


def seen(look: Callable[[], list[str]]) -> list[str]:
    """What is seen within PATIENCE seconds."""
    found: list[str] = []

    def is_seen() -> bool:
        found[:] = look()
        return bool(found)

    with contextlib.suppress(Wrong):
        awaited("what is lost", is_seen, PATIENCE, 0.5)
    return found


def both_acknowledge(scene: Scene, machine: Machine, since: float) -> list[str]:
    """Each machine that has acknowledged changes since then, if this one is among them and another one too."""
    found = scene.watch.acknowledging(since)
    is_so = any(it.startswith(f"{machine.name} ") for it in found) and len(found) > 1
    return [f"changes were acknowledged at one time by {' and '.join(found)}"] if is_so else []


def two_while_cut(scene: Scene) -> list[str]:
    """Changes that both sides of a cut acknowledge."""
    machine, since = cut_off(scene, False)
    return seen(lambda: both_acknowledge(scene, machine, since))


def two_after_join(scene: Scene) -> list[str]:
    """Changes that the first machine acknowledges after it is joined again, beside the one that took over."""
    machine, _ = cut_off(scene, True)
    time.sleep(1)
    machine.join()
    since = time.monotonic()
    time.sleep(6)  # until its volume is connected again
    heard(scene, machine)
    return seen(lambda: both_acknowledge(scene, machine, since))


def two_answer(scene: Scene) -> list[str]:
    """Questions that two machines answer."""
    _, since = cut_off(scene, True)
    return seen(lambda: scene.watch.overlaps(since))


def lost(scene: Scene) -> list[str]:
    """What is missing of what was acknowledged, once all are joined again."""
    began = time.monotonic()
    machine, _ = cut_off(scene, False)
    time.sleep(2)
    machine.join()
    scene.cluster.settle()
    return scene.watch.faults([it for it in scene.watch.changes() if it.received >= began])


class Recipe(NamedTuple):
    """What differs from examples/cluster/, and what is looked for: it is there, or it can't be, as docs/CLUSTER.md
    says."""

    edits: Callable[[], Edits]
    look: Callable[[Scene], list[str]]
    is_shown: bool = True


# The one without quorum leaves a machine cut off, and two files, so nothing comes after it.
RECIPES = {
    "quorum": Recipe(without_quorum, two_while_cut),
    "hold": Recipe(without_hold, two_answer),
    "locks": Recipe(without_locks, two_after_join),
    "write-behind": Recipe(with_write_behind, lost, False),
    "attributes": Recipe(with_attributes, lambda scene: scene.cluster.stale_sizes()),
    "pages": Recipe(with_pages, lambda scene: scene.cluster.stale_pages()),
}


def try_wrong(scene: Scene, name: str) -> str:
    """What came of the recipe, with the machines as they are after it."""
    recipe = RECIPES[name]
    files = ("broker.conf", "broker-volume.service", "volume.options")
    scene.cluster.change({it: part_of(it) for it in files} | recipe.edits())
    found = recipe.look(scene)
    if bool(found) != recipe.is_shown:
        raise Wrong(f"the recipe without {name}: {found or 'nothing was lost'}")
    return found[0] if found else "nothing was lost"
