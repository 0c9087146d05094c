"""What every test has: the program that is tried, brokers over new files, proxies, a browser, a machine; the marks.

    /usr/bin/python3 -m pytest tests --program PATH -k WORD

PATH is a build of `broker` (crates/broker/out/broker if none is given); PATH.by-rattle is the build by Rattle's own
compiler, which tests that are marked by_both are run on too. Marks: needs("nginx", ..) says which commands a test
needs; root that it needs to be root; timing that it measures times, so ./test lets it come before others at the
processors; by_hand that it takes minutes, and is run with --by-hand; first that it takes long, and is begun before the
others. What can't be run fails, or with --allow-not-run is skipped and said."""
import os, shutil, signal, sys
from collections.abc import Iterator
from typing import Any
import pytest

# What is compiled of the tests is kept in out/, and nowhere beside them.
sys.pycache_prefix = os.path.join(os.path.dirname(os.path.dirname(os.path.abspath(__file__))), "out/pycache")
sys.dont_write_bytecode = False

from tests import plays
from tests.client.tools import Client, Stock
from tests.desk.browser import Browser
from tests.operate.machine import in_own_machine
from tests.process import TOP, Server
from tests.proxy import Caddy, Nginx
from tests.wire import NotRun
from tests.world import new_file, register, verify

MARKS = {
    "needs(*commands)": "commands that have to be installed (ci/needs has their packages)",
    "root": "it needs to be root",
    "timing": "it measures times, so it comes before others at the processors",
    "by_both": "it is run on the builds of both compilers",
    "by_hand": "it takes minutes, and is run with --by-hand",
    "first": "it takes long, so it is begun before the others",
}

# How long a test may take, in seconds: one that waits for ever fails, and says where it waits.
LONGEST = 600


def pytest_addoption(parser: pytest.Parser) -> None:
    usual = {"type": os.path.abspath, "default": os.path.join(TOP, "crates/broker/out/broker")}
    parser.addoption("--program", metavar="PATH", **usual, help="the build of broker to try")
    parser.addoption("--by-hand", action="store_true", help="also what takes minutes, and only it")
    parser.addoption("--allow-not-run", action="store_true", help="what can't be run is skipped, and doesn't fail")


def pytest_configure(config: pytest.Config) -> None:
    for name, meaning in MARKS.items():
        config.addinivalue_line("markers", f"{name}: {meaning}")


def pytest_itemcollected(item: pytest.Item) -> None:
    """There is one machine at a time, since each runs a systemd and much else."""
    if "machine" in getattr(item, "fixturenames", ()):
        item.add_marker(pytest.mark.xdist_group("machine"))


def pytest_collection_modifyitems(config: pytest.Config, items: list[pytest.Item]) -> None:
    """Leaves out what is run by hand, or all else; and begins with what takes long."""
    wanted = bool(config.getoption("by_hand"))
    left = [it for it in items if bool(it.get_closest_marker("by_hand")) != wanted]
    if left:
        config.hook.pytest_deselected(items=left)
        items[:] = [it for it in items if bool(it.get_closest_marker("by_hand")) == wanted]
    items.sort(key=lambda it: it.get_closest_marker("first") is None)


def pytest_collect_file(file_path: Any, parent: pytest.Collector) -> pytest.Collector | None:
    return plays.file_of(file_path, parent)


def pytest_generate_tests(metafunc: pytest.Metafunc) -> None:
    if "program" in metafunc.fixturenames and metafunc.definition.get_closest_marker("by_both"):
        metafunc.parametrize("program", plays.BUILDS.values(), ids=plays.BUILDS, indirect=True, scope="session")


def pytest_runtest_setup(item: pytest.Item) -> None:
    lost = [name for mark in item.iter_markers("needs") for name in mark.args if not shutil.which(name)]
    if lost:
        raise NotRun(f"{' and '.join(lost)} isn't installed (ci/needs)")
    if item.get_closest_marker("root") and os.geteuid() != 0:
        raise NotRun("it needs to be root")


@pytest.hookimpl(hookwrapper=True)  # type: ignore[misc]
def pytest_runtest_call(item: pytest.Item) -> Iterator[None]:
    """Ends a test that takes too long; what is run by hand may take as long as it likes."""

    def end(*_: object) -> None:
        pytest.fail(f"it isn't done after {LONGEST} seconds")

    signal.signal(signal.SIGALRM, end)
    signal.alarm(0 if item.config.getoption("by_hand") else LONGEST)
    yield
    signal.alarm(0)


@pytest.hookimpl(hookwrapper=True)  # type: ignore[misc]
def pytest_runtest_makereport(item: pytest.Item, call: "pytest.CallInfo[None]") -> Iterator[None]:
    """What can't be run here is a failure, or skipped if that is allowed."""
    made: Any = yield
    if call.excinfo and call.excinfo.errisinstance(NotRun):
        report, why = made.get_result(), f"not run: {call.excinfo.value}"
        report.longrepr = why
        if item.config.getoption("allow_not_run"):
            report.outcome, report.longrepr = "skipped", (str(item.path), item.location[1], why)


# The program


@pytest.fixture(scope="session")
def program(request: pytest.FixtureRequest) -> str:
    """The path of the built program."""
    return plays.built(request.config, getattr(request, "param", ""))


@pytest.fixture
def room(tmp_path: Any) -> str:
    """A folder of the test's own."""
    return str(tmp_path)


@pytest.fixture
def broker_file(program: str, room: str) -> str:
    """The file of a new broker, whose office has wire.OFFICE."""
    return new_file(program, room)


@pytest.fixture
def server(program: str, broker_file: str) -> Iterator[Server]:
    """A broker that serves a new file."""
    with Server(program, broker_file) as it:
        yield it


@pytest.fixture
def fleet(server: Server) -> Server:
    """A broker with the teams, services and contracts of world.py."""
    register(server)
    verify(server)
    return server


# What stands beside it


@pytest.fixture
def client(fleet: Server, room: str) -> Client:
    """The command `holzhebo`, for the broker of `fleet`."""
    return Client(room, fleet.url)


@pytest.fixture
def provider() -> Iterator[Stock]:
    """A provider that answers by its table `answers`, and keeps what it was asked in `asked`."""
    with Stock({}) as it:
        yield it


@pytest.fixture
def nginx(tmp_path_factory: pytest.TempPathFactory) -> Iterator[Nginx]:
    """An nginx that isn't started yet: nginx.start(TEXT)."""
    it = Nginx(str(tmp_path_factory.mktemp("nginx")))
    yield it
    it.stop()


@pytest.fixture
def caddy(tmp_path_factory: pytest.TempPathFactory) -> Iterator[Caddy]:
    """A Caddy that isn't started yet: caddy.start(TEXT)."""
    it = Caddy(str(tmp_path_factory.mktemp("caddy")))
    yield it
    it.stop()


@pytest.fixture
def browser(tmp_path_factory: pytest.TempPathFactory) -> Iterator[Browser]:
    """A Chromium without a window."""
    if not shutil.which("chromium"):
        raise NotRun("chromium isn't installed (ci/needs)")
    with Browser(str(tmp_path_factory.mktemp("browser"))) as it:
        yield it


@pytest.fixture
def machine() -> Any:
    """A machine of its own, with systemd: machine(TEXT, FOLDERS, SECONDS) gives the status, the output and the errors
    of the shell text there."""
    return in_own_machine
