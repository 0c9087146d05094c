"""That test_slow_peers.py sees a broker which waits for its peers otherwise than it has to (edge.c): each of these ends
otherwise. It takes two minutes, and is run by hand: --by-hand."""
import os
import pytest
from tests.faults.test_slow_peers import test_another_is_answered_in_time as held
from tests.players.shims import library
from tests.process import Server
from tests.world import new_file

pytestmark = [pytest.mark.by_hand, pytest.mark.needs("cc")]
# How the broker waits, and the peer by which that is seen.
SEEN_BY = {
    "nobody-waits": "idle after an answer",
    "each-write-waits-anew": "answers of which 2,000 bytes are read now and then",
    "reads-without-a-limit": "half a head",
    "writes-without-a-limit": "answers that aren't read",
}


@pytest.mark.parametrize("wait", SEEN_BY)
def test_it_is_seen(program: str, room: str, wait: str) -> None:
    env = {**os.environ, "WRONG_EDGE": wait, "LD_PRELOAD": library("edge")}
    with Server(program, new_file(program, room), env=env) as broker:
        with pytest.raises((AssertionError, TimeoutError)):
            held(broker, SEEN_BY[wait])
