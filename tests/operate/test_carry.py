"""`holzhebo carry`: a smaller file from a copy of a broker's file. Random histories are made by a broker and carried,
and two brokers answer over both files; which rows have to be there is computed from sets."""
import collections, itertools, os, random
import pytest
from tests.operate.carry_fleet import make
from tests.operate.carry_pair import Broker, Pair, played
from tests.operate.carry_state import branches_of, carried, read_tables
from tests.operate.carry_world import Ask, Dice, questions, text_of
from tests.operate.service import content
from tests.wire import same
from tests.world import new_file

from holzhebo import carry
from holzhebo.report.copy import Copy

HISTORIES, EACH = 300, 25


def plain(dice: Dice, pair: Pair, count: int) -> list[Ask]:
    """Random commands that name nothing dropped."""
    it, texts = pair.carried, {text_of(text) for text in pair.carried.texts}
    some = itertools.islice(dice.commands(), count)
    return [a for a in some if not set(a.versions) & it.dropped and a.run not in it.runs and a.text not in texts]


def one_history(program: str, room: str, seed: int) -> dict[str, int]:
    """Makes a history, carries it, and asks both. What was seen is counted."""
    rng, dice = random.Random(seed), Dice(f"carry {seed}")
    old_file, new = new_file(program, room, "old.db"), f"{room}/new.db"
    played(program, old_file, dice, 60 + seed % 5 * 60)
    before, schema = read_tables(old_file)
    named: list[list[str]] = [[], [], ["main"], ["main", "next"], ["none"]]
    keep, only = rng.choice([0, 1, 1, 2, 3]), rng.choice(named)
    bytes_before = content(room)["old.db"]
    carry.carry(old_file, new, keep, only)
    same("the copy", content(room)["old.db"] == bytes_before, True)
    it = carried(before, keep, only)
    after, new_schema = read_tables(new)
    same("what declares the tables", new_schema, schema)
    same(f"the tables, keep {keep}, branches {only}", after, it.tables)
    # A second reader, that of `holzhebo report`, refuses a file that breaks the broker's rules.
    Copy(new, room).base.close()
    pair = Pair(it, Broker(program, old_file), Broker(program, new))
    asked = list(questions(sorted(it.kept), branches_of(before)))
    pair.test(asked)
    done = pair.counts["faults"], pair.counts["permitted"]
    pair.test(plain(dice, pair, 80))
    pair.test(asked)
    pair.test_texts()
    pair.end()
    return {**pair.counts, "faults": done[0], "permitted": done[1], "kept": len(it.kept), "dropped": len(it.dropped)}


@pytest.mark.first
@pytest.mark.parametrize("first", range(0, HISTORIES, EACH))
def test_histories(program: str, memory: str, first: int) -> None:
    counts: dict[str, int] = collections.Counter()
    for seed in range(first, first + EACH):
        os.mkdir(f"{memory}/{seed}")
        try:
            counts.update(one_history(program, f"{memory}/{seed}", seed))
        except AssertionError as why:
            raise AssertionError(f"history {seed}: {why}") from None
    print(dict(counts))
    # These histories have something of everything.
    for what in "kept", "dropped", "faults", "permitted", "rows that go", "a dropped text again", "GET can-i-deploy":
        assert counts[what] > EACH // 2, (what, counts)


def test_fleet(program: str, memory: str) -> None:
    """Two days of a fleet of 60 services: what is kept is what was computed, and the file gets small."""
    old, new = f"{memory}/old.db", f"{memory}/new.db"
    builds = make(program, old, 2)
    carry.carry(old, new, 5, ["main"])
    before, after = read_tables(old)[0], read_tables(new)[0]
    it = carried(before, 5, ["main"])
    same("the tables", after == it.tables, True)
    assert 300 < len(it.kept) < 700 and len(it.kept) + len(it.dropped) == builds == 2400, len(it.kept)
    assert os.path.getsize(new) < 0.45 * os.path.getsize(old), os.path.getsize(new)
    broker = Broker(program, new)
    broker.end()
