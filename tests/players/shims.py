"""The small libraries of tests/faults/, which come before the C library's own calls in a program: compiled once."""
import functools, os, shutil, subprocess, tempfile
from tests.process import TOP
from tests.wire import NotRun

# In memory, where that is a folder: else each sync waits for the machine's disk.
MEMORY = "/dev/shm" if os.access("/dev/shm", os.W_OK) else None


@functools.cache
def folder() -> "tempfile.TemporaryDirectory[str]":
    return tempfile.TemporaryDirectory(prefix="shims-")


@functools.cache
def library(name: str) -> str:
    """The path of the library of this name, for LD_PRELOAD."""
    if not shutil.which("cc"):
        raise NotRun("cc isn't installed (ci/needs)")
    path = f"{folder().name}/{name}.so"
    words = ["cc", "-O2", "-shared", "-fPIC", "-o", path, f"{TOP}/tests/faults/{name}.c", "-ldl"]
    subprocess.run(words, check=True)
    return path
