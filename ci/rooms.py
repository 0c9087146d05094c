"""The libraries of the crates, kept between runs, and rooms in which one crate is built or checked over them.

What is kept is a folder with the crates as they were when they were built, each with its `out/`. A room is a folder
with one crate's sources and with those below it as they are kept, as second names of the same files: the kit never
writes into a library that is built. So a change of one crate in a room is seen nowhere else, and many rooms can be in
use at once, where in one tree a command of `rt` would wait for another."""
import contextlib, fcntl, hashlib, os, re, shutil, tempfile, time
from functools import lru_cache

from definitions import TOP, crates_in, text_of
from kit import version

PARTS = "src", "specs", "proofs"


def home():
    """Where it is kept: $BUILD_COPY, or a folder in the user's cache, or, if that can't be written, in that of what is
    temporary."""
    cache = os.environ.get("XDG_CACHE_HOME") or os.path.expanduser("~/.cache")
    with contextlib.suppress(OSError):
        os.makedirs(cache, exist_ok=True)
    kept = cache if os.access(cache, os.W_OK) else tempfile.gettempdir()
    return os.environ.get("BUILD_COPY") or f"{kept}/holzhebo-build"


def files_in(folder):
    return sorted(f"{at}/{name}" for at, _, names in os.walk(folder) for name in names)


@lru_cache(None)
def listed():
    """The crates of crates.txt, each with those of this repository that it uses."""
    known = crates_in(text_of(f"{TOP}/crates.txt"))
    return {name: [it for it in below if it in known] for name, below in known.items()}


def line_of(name):
    """The crate's line in crates.txt."""
    return re.search(rf"(?m)^{name}\b.*$", text_of(f"{TOP}/crates.txt"))[0]


@lru_cache(None)
def below(name):
    """The crates below this one, lowest first."""
    return tuple(dict.fromkeys(it for dep in listed()[name] for it in (*below(dep), dep)))


@lru_cache(None)
def sum_of(name):
    """A sum of all that the crate's library is made of: the kit, its line, its sources, and those below it."""
    own = hashlib.sha256(repr((version(), line_of(name), [sum_of(it) for it in listed()[name]])).encode())
    for part in PARTS:
        for file in files_in(f"{TOP}/crates/{name}/{part}"):
            own.update(repr((os.path.relpath(file, TOP), text_of(file))).encode())
    return own.hexdigest()


class Kept:
    def __init__(self):
        self.at = home()
        os.makedirs(f"{self.at}/crates", exist_ok=True)
        self.lock = open(f"{self.at}/lock", "a")
        try:
            fcntl.flock(self.lock, fcntl.LOCK_EX | fcntl.LOCK_NB)
        except BlockingIOError:
            print(f"waiting for another build, which has {self.at}", flush=True)
            fcntl.flock(self.lock, fcntl.LOCK_EX)
        shutil.rmtree(f"{self.at}/rooms", ignore_errors=True)
        os.mkdir(f"{self.at}/rooms")

    def lines(self, name):
        """What is written beside a library: its sum, when it was built, and these two of each that it was built over."""
        with contextlib.suppress(FileNotFoundError), open(f"{self.at}/{name}.sum", encoding="ascii") as it:
            return it.read().splitlines()
        return []

    def over(self, name):
        """Which builds of the crates that it uses are kept now."""
        return [line for dep in listed()[name] for line in self.lines(dep)[:2]]

    def is_built(self, name):
        """Whether it is built of these sources, and over what is kept now: the kit refuses it over another build, even
        over one of the same sources."""
        found = self.lines(name)
        return found[:1] == [sum_of(name)] and found[2:] == self.over(name)

    @contextlib.contextmanager
    def room(self, name, begins_with_own=False):
        """The folder of the crate in a room of its own, with what an earlier build left of it, if that is asked for."""
        with tempfile.TemporaryDirectory(prefix=f"{name}-", dir=f"{self.at}/rooms", ignore_cleanup_errors=True) as at:
            with open(f"{at}/crates.txt", "w", encoding="utf-8") as it:
                it.writelines(f"{line_of(crate)}\n" for crate in (*below(name), name))
            shutil.copy(f"{TOP}/HANDLES", at)
            for dep in below(name):
                shutil.copytree(f"{self.at}/crates/{dep}", f"{at}/crates/{dep}", copy_function=os.link)
            if begins_with_own and os.path.isdir(f"{self.at}/crates/{name}/out"):
                shutil.copytree(f"{self.at}/crates/{name}/out", f"{at}/crates/{name}/out")
            lay(name, f"{at}/crates/{name}")
            yield f"{at}/crates/{name}"

    def forget(self, names):
        """These have to be built again, from nothing."""
        for name in names:
            with contextlib.suppress(FileNotFoundError):
                os.remove(f"{self.at}/{name}.sum")
            shutil.rmtree(f"{self.at}/crates/{name}", ignore_errors=True)

    def keep(self, name, folder):
        """Keeps the crate as it is in its room, now that it is built. The sum is away meanwhile, and comes last."""
        with contextlib.suppress(FileNotFoundError):
            os.remove(f"{self.at}/{name}.sum")
        shutil.rmtree(f"{self.at}/crates/{name}", ignore_errors=True)
        os.rename(folder, f"{self.at}/crates/{name}")
        with open(f"{self.at}/{name}.sum", "w", encoding="ascii") as it:
            it.write("\n".join([sum_of(name), str(time.time_ns()), *self.over(name)]))


def lay(name, folder):
    """Lays the crate's sources into the folder, in the place of what is there of them."""
    for part in PARTS:
        shutil.rmtree(f"{folder}/{part}", ignore_errors=True)
        if os.path.isdir(f"{TOP}/crates/{name}/{part}"):
            shutil.copytree(f"{TOP}/crates/{name}/{part}", f"{folder}/{part}")
