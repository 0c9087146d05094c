"""Floods of several kinds at once, as test_floods.py has them one by one: two to four, drawn by a seed, with as many peers
together as one of them has by itself. Ten minutes of them, a seed each ten seconds, are run by hand: --by-hand."""
import math, random
import pytest
from tests.faults.test_floods import KINDS, MOST, Kind, held_up
from tests.process import Server

pytestmark = [pytest.mark.by_hand, pytest.mark.timing]
SEEDS, LASTS = range(60), 10.0


def drawn(seed: int) -> dict[str, Kind]:
    chance = random.Random(seed)
    names = chance.sample(sorted(KINDS), chance.randint(2, 4))
    return {it: KINDS[it]._replace(many=math.ceil(KINDS[it].many / len(names))) for it in names}


@pytest.mark.parametrize("seed", SEEDS)
def test_each_answer_comes_in_time(server: Server, seed: int) -> None:
    kinds = drawn(seed)
    longest = held_up(server, *kinds.values(), lasts=LASTS)
    assert longest <= MOST, f"{longest:.1f} s beside {', '.join(kinds)}"
