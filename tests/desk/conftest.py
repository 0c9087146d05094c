"""What tests of the page and of ./run have beside the fixtures of all: the demo, and the program that is started."""
from collections.abc import Iterator

import pytest

from tests.desk.running import Running
from tests.desk.world import World


@pytest.fixture(scope="module")
def world(program: str, tmp_path_factory: pytest.TempPathFactory) -> Iterator[World]:
    """The demo, served to the page."""
    with World(program, str(tmp_path_factory.mktemp("world"))) as it:
        yield it


@pytest.fixture(scope="module")
def usual(program: str) -> Iterator[None]:
    """./run is given the program that is tried."""
    Running.usual = program
    yield
    Running.usual = ""
