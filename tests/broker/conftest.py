"""What the tests of the program share beside tests/conftest.py."""
import os, shutil, tempfile
from collections.abc import Iterator
import pytest
from tests.broker.filled import fill
from tests.broker.parts import Broker
from tests.process import Server, bytes_of
from tests.world import fleet_file, folded


@pytest.fixture
def broker(program: str) -> Broker:
    """The program, run by words: broker("init", "--file", ..)."""
    return Broker(program)


@pytest.fixture
def by_nobody(program: str) -> Iterator[tuple[Broker, str]]:
    """The program, run as the user nobody if this is root, whom nothing is refused to; and a folder that nobody may
    write to."""
    with tempfile.TemporaryDirectory() as home, tempfile.TemporaryDirectory() as room:
        os.chmod(home, 0o755)
        os.chmod(room, 0o777)
        copy = shutil.copy(program, f"{home}/broker")
        os.chmod(copy, 0o755)
        who = {"user": 65534, "group": 65534, "extra_groups": []} if os.geteuid() == 0 else {}
        yield Broker(copy, **who), room


@pytest.fixture(scope="session")
def filled(program: str, tmp_path_factory: pytest.TempPathFactory) -> bytes:
    """What the file of a broker holds after the requests of world.py and of filled.py."""
    file = fleet_file(program, str(tmp_path_factory.mktemp("filled")))
    with Server(program, file) as server:
        fill(server)
    folded(program, file)
    return bytes_of(file)


@pytest.fixture
def file(filled: bytes, room: str) -> str:
    """That file, in a folder of the test's own."""
    with open(f"{room}/broker.db", "wb") as it:
        it.write(filled)
    return f"{room}/broker.db"
