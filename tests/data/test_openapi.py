"""docs/openapi.json is true of all requests and answers of scenarios and stops, and each of its operations is met with
each status that it has. The requests of command lines with their answers, and the pact files and replies of cases that
the program reads, are tried as they are played (players/lines.py, players/questions.py)."""
from collections import Counter
from typing import Any
import pytest
from tests.players.exchanges import exchanges, exchanges_in, named
from tests.players.interface import FAILURES, document, fits, schema, try_exchange
from tests.players.lines import CommandLine, steps_of
from tests.players.texts import DATA
from tests.wire import Wrong, answer, request

# How many requests of each scenario, by its rule, are refused since their heads are wrong: the document says nothing of
# them but the answer.
REFUSED = {"refused-heads": 23, "head-requests": 3, "long-heads": 2, "longest-head": 2, "sixty-four-fields": 2}


def test_each_exchange_is_as_the_document_says() -> None:
    met = {try_exchange(it) for it in exchanges()} - {None}
    said = {
        (method.upper(), path, int(status))
        for path, its in document()["paths"].items()
        for method in its.keys() & {"get", "put", "post", "delete"}
        for status in its[method]["responses"].keys() - {"default"}
    }
    assert said - met == set(), "no scenario has these"
    assert {it for it in met if it and it[2] not in FAILURES} - said == set(), "the document hasn't these"
    assert len(exchanges()) > 1700


def test_which_requests_are_refused() -> None:
    wrong = Counter(it.place.partition(".scenario")[0].rpartition("/")[2] for it in exchanges() if it.is_refused())
    assert wrong == REFUSED


def test_which_answers_of_command_lines_are_tried() -> None:
    """All to a file of requests, but where the words are no command line, or no answer is whole."""
    steps = [it for file in sorted((DATA / "lines").glob("*.lines")) for it in steps_of(file)]
    lines = [it for it in steps if isinstance(it, CommandLine) and it.input.endswith(".http")]
    left = [f"{it.input} to {it.words[0]}, {it.status}" for it in lines if not it.are_answered()]
    assert left == ["lost.http to rewind, 2", "first.http to replay, 3", "first.http to replay, 3"]
    assert len(lines) >= 8 and sum(it.text.endswith(".http") for it in steps) >= 10


def test_a_wrong_answer_is_seen() -> None:
    """An answer with a key too many, one of another kind, and a fault of no name."""
    judged: dict[str, Any] = {"answer": "shown", "environment": "live", "faults": [], "gated": True, "permitted": True}
    fits(judged, schema("Judgement"), "the answer")
    for wrong in {**judged, "more": 1}, {**judged, "gated": "true"}, {**judged, "faults": [{"kind": "odd"}]}:
        with pytest.raises(Wrong):
            fits(wrong, schema("Judgement"), "the answer")


DONE = answer(200, '{"answer":"done"}')
CLOSED = answer(400, '{"answer":"refused","status":400}', ["connection: close"])
TEAM, MARKED = (request("PUT", "/teams/red", body=it) for it in ('{"token":"red-team-token-01"}', "{}"))
# A request that names no token, one that is no operation, a status that its operation hasn't, a field that is missing;
# and streams in which something else is answered than exchanges.py says.
WRONG = {
    "'token' is a required": (MARKED, DONE),
    "no operation": (request("PUT", "/teams"), DONE),
    "the answer 404": (MARKED, answer(404, '{"answer":"unknown","what":"team"}')),
    "www-authenticate": (TEAM, answer(401, '{"answer":"denied","rule":"A1"}').replace(b"www-authenticate", b"x")),
    "isn't answered": (TEAM + TEAM, DONE),
    "what is no request": (TEAM + b"PUT x", DONE + DONE),
    "the connection is closed": (TEAM + TEAM, CLOSED + DONE),
    "the answer 400": (TEAM, CLOSED.replace(b"refused", b"unknown")),
}


@pytest.mark.parametrize("why", WRONG)
def test_a_wrong_exchange_is_seen(why: str) -> None:
    sent, answered = WRONG[why]
    with pytest.raises(Wrong, match=why):
        for it in exchanges_in(sent, named("it", answered)):
            try_exchange(it)
