"""What is in the package of packaging/deb: read by lintian, the Python that it needs, the files that it names."""
import glob, os, re, shutil
import pytest
from tests.operate.packed import MOMENT, packages  # the last is a fixture
from tests.process import TOP, bytes_of, ran, run, text_of
from tests.wire import same

__all__ = ["packages"]
pytestmark = [pytest.mark.first, pytest.mark.needs("dh_python3", "dpkg-deb"), pytest.mark.xdist_group("package")]


def test_made_again(program: str, packages: str, room: str) -> None:
    """It is the same file, beside the program if no folder is said, and has the program byte for byte."""
    shutil.copy(program, f"{room}/broker")
    run(["env", "-C", room, f"{TOP}/packaging/deb", "broker"], env=MOMENT)
    made, = glob.glob(f"{room}/*.deb")
    same("the package", bytes_of(made) == bytes_of(f"{packages}/new.deb"), True)
    same("the program in it", bytes_of(f"{packages}/tree/usr/bin/broker") == bytes_of(program), True)


@pytest.mark.needs("lintian")
def test_lintian(packages: str) -> None:
    said = ran(["lintian", "--allow-root", f"{packages}/new.deb"])
    faults = [it for it in said.output.split("\n") if it.startswith(("E:", "W:"))]
    same("what lintian says", (said.status, faults), (0, []))


def test_python(packages: str) -> None:
    """It needs the Python that the client runs by, and its modules are compiled and cleaned by the lines of dh_python3,
    one block in each script. The one file for builds keeps its first line, which takes any Python."""
    needs = run(["dpkg-deb", "-f", f"{packages}/new.deb", "Depends"])
    same("what it needs", needs, "libc6 (>= 2.34), adduser, python3:any (>= 3.9~)\n")
    for name, line in ("postinst", "py3compile -p holzhebo:amd64 -V 3.9-"), ("prerm", "py3clean -p holzhebo:amd64"):
        text = text_of(f"{packages}/tree/DEBIAN/{name}")
        blocks = re.findall(r"(?ms)^# Automatically added by dh_python3$(.*?)^# End automatically added section$", text)
        same(f"{name} has its block, and nothing else for Python", (len(blocks), "DEBHELPER" in text), (1, False))
        same(f"the line of {name}", re.findall(r"(?m)^\t(py3\w+ .*?) *$", text), [line])
    with open(f"{packages}/tree/usr/share/holzhebo/desk/holzhebo", "rb") as one_file:
        same("its first line", one_file.readline(), b"#!/usr/bin/env python3\n")


def test_places(packages: str) -> None:
    """Each file that a document leads to is there, and so is each of the package's own that an example names."""
    tree, dead = f"{packages}/tree", []
    share = f"{tree}/usr/share"
    documents = glob.glob(f"{share}/doc/holzhebo/**/*.md", recursive=True)
    same("documents", len(documents) > 10, True)
    for path in documents:
        links = re.findall(r"\]\(([^)#\s]+)(?:#[^)]*)?\)", text_of(path))
        dead += [(path, it) for it in links if "://" not in it and not os.path.exists(f"{os.path.dirname(path)}/{it}")]
    examples = [it for it in glob.glob(f"{share}/holzhebo/examples/**", recursive=True) if os.path.isfile(it)]
    every = {*os.listdir(f"{TOP}/examples")} - {"broker.service", "__pycache__"}
    same("examples", {*os.listdir(f"{share}/holzhebo/examples")}, every)
    for path in examples:
        named = re.findall(r"/usr/share/holzhebo/[\w./-]*\w", text_of(path))
        dead += [(path, it) for it in named if not os.path.lexists(f"{tree}{it}")]
    same("what isn't there", dead, [])
