"""What tests of an operator's tools have: a folder that others may enter, and a broker as a service."""
import os, shutil, tempfile
from collections.abc import Iterator
import pytest
from tests.operate.front import ALIKE, LATEST, LEAKED, NEW, READER, Caddy, Front, Nginx
from tests.operate.service import Service
from tests.process import Server
from tests.wire import OFFICE, Wrong
from tests.world import BLUE, RED, register, verify

KINDS = {"nginx": Nginx, "caddy": Caddy}


@pytest.fixture
def open_room() -> Iterator[str]:
    """A folder that every user may enter."""
    it = tempfile.mkdtemp()
    os.chmod(it, 0o755)
    yield it
    shutil.rmtree(it)


@pytest.fixture
def memory() -> Iterator[str]:
    """A folder that no sync waits for."""
    with tempfile.TemporaryDirectory(dir="/dev/shm") as it:
        yield it


@pytest.fixture
def open_program(program: str, open_room: str) -> str:
    """The program where every user may run it."""
    path = shutil.copy(program, f"{open_room}/broker")
    os.chmod(path, 0o755)
    return str(path)


@pytest.fixture
def stopped(open_program: str, open_room: str) -> Iterator[Service]:
    """A service with a new file, which isn't started."""
    it = Service(open_program, open_room)
    yield it
    it.systemctl("stop")


@pytest.fixture
def service(stopped: Service) -> Service:
    """A service with the fleet of world.py."""
    stopped.start()
    register(stopped)
    verify(stopped)
    return stopped


@pytest.fixture(params=[pytest.param(it, marks=pytest.mark.needs(it)) for it in KINDS])
def front(request: pytest.FixtureRequest, fleet: Server, tmp_path_factory: pytest.TempPathFactory) -> Iterator[Front]:
    """Each of the proxies, before the broker of `fleet`. At the end no line of a log has a token."""
    room = str(tmp_path_factory.mktemp("front"))
    it = KINDS[request.param](room, f"127.0.0.1:{fleet.port}")
    yield it
    it.stop()
    newest = it.log("newest").split()[-1:]
    for name in "errors", "access", "log":
        for token in OFFICE, RED, BLUE, LEAKED, NEW, LATEST, READER, *newest, *ALIKE:
            if token in it.log(name):
                raise Wrong(f"a token, {token}, is in {name}")
