"""What machines_watch.py makes of what was answered: when a machine served surely, and which two did so at one time."""
from tests.operate.machines_watch import Sent, Serving, overlaps, servings


def probes(*answers: tuple[float, float, int]) -> list[Sent]:
    """Questions by when they were sent, when the answer came, and its status."""
    return [Sent("probe", "", sent, received, status) for sent, received, status in answers]


def test_a_machine_served_from_its_first_answer_to_its_last_question() -> None:
    found = servings("a", probes((1, 2, 404), (3, 4, 404), (5, 6, 404)))
    assert found == [Serving("a", 2, 5)]


def test_a_question_without_an_answer_parts_two_times() -> None:
    found = servings("a", probes((1, 2, 404), (3, 4, 404), (5, 6, 0), (7, 8, 404), (9, 10, 404)))
    assert found == [Serving("a", 2, 3), Serving("a", 8, 9)]


def test_two_at_one_time() -> None:
    one, other = Serving("a", 1, 4), Serving("b", 3, 6)
    assert overlaps([one, other], []) == ["a and b served at one time, for 1.00 s"]
    assert overlaps([one, Serving("b", 4, 6)], []) == []
    assert overlaps([one, Serving("a", 3, 6)], []) == []


def test_who_was_paused_is_excused_for_a_moment_only() -> None:
    one, other = Serving("a", 3, 3.5), Serving("b", 1, 6)
    assert overlaps([one, other], [Serving("a", 2.9, 3.9)]) == []
    assert overlaps([one, other], [Serving("b", 2.9, 3.9)]) == []
    for excused in Serving("c", 2.9, 3.9), Serving("a", 3.1, 4.1), Serving("a", 2.4, 3.4):
        assert overlaps([one, other], [excused]) == ["a and b served at one time, for 0.50 s"]
