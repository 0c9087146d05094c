"""The package that packaging/deb makes of the program, for its tests."""
import os, re
import pytest
from tests.process import run, text_of
from tests.wire import same

# By which the package is the same each time.
MOMENT = {"SOURCE_DATE_EPOCH": "1700000000"}


def packed(program: str, folder: str) -> str:
    """The path of the package, made in this folder."""
    run(["packaging/deb", program, folder], env=MOMENT)
    name, = os.listdir(folder)
    same("its name", name, f"holzhebo_{version_of(program)}_amd64.deb")
    return f"{folder}/{name}"


@pytest.fixture(scope="module")
def packages(program: str, tmp_path_factory: pytest.TempPathFactory) -> str:
    """The folder with the package, new.deb, and what is in it, tree; and an earlier one with the same files, old.deb."""
    room = str(tmp_path_factory.mktemp("packages"))
    os.rename(packed(program, room), f"{room}/new.deb")
    run(["dpkg-deb", "-R", f"{room}/new.deb", f"{room}/tree"])
    age(room)
    return room


def version_of(program: str) -> str:
    return run([program, "--version"]).split()[1]


def age(room: str) -> None:
    """A package of an earlier version, with the same files."""
    text = text_of(f"{room}/tree/DEBIAN/control")
    with open(f"{room}/tree/DEBIAN/control", "w", encoding="utf-8") as it:
        it.write(re.sub(r"(?m)^Version: .*", "Version: 0.0.1", text))
    run(["dpkg-deb", "--root-owner-group", "-Znone", "--build", f"{room}/tree", f"{room}/old.deb"])
