"""Names of all kinds: what is a name, by docs/LIMITS.md, is taken and shown as it is; what isn't one is 422."""
import json
from urllib.parse import quote
from hypothesis import example, given, strategies as st
from tests.process import ran
from tests.properties.state import text
from tests.wire import OFFICE, answers_in, request, same
from tests.world import RED

FIRST = [
    request("PUT", "/teams/red", body=text({"token": RED})),
    request("PUT", "/environments/open", body=text({"gated": False})),
    request("PUT", "/grants/team/red/environment/open"),
]
BAD_NAME = 422, '{"answer":"bad form","fault":"name"}'
# Signs of names that paths, queries, JSON, SQL, shells and pages take for something else, and all others.
SIGNS = st.sampled_from("/%?#&+=;:'\"`\\ .~*|<>{}[]()@!$^,-_é中\U0001f600\x7f\x1f\x00\t\n")
TEXTS = st.text(st.one_of(SIGNS, st.characters(blacklist_categories=["Cs"])), min_size=1, max_size=105)


def is_name(it: str) -> bool:
    """1 to 100 bytes of UTF-8, none below U+0020, not U+007F."""
    return 1 <= len(it.encode()) <= 100 and all(sign >= " " and sign != "\x7f" for sign in it)


def answers(program: str, *messages: bytes) -> list[tuple[int, str]]:
    """What comes of these after FIRST, by a replay."""
    done = ran([program, "replay", "--office-token", OFFICE], b"".join([*FIRST, *messages]))
    same("the end", (done.status, done.errors), (0, ""))
    return [(it.status, it.body) for it in answers_in(done.output.encode())][len(FIRST) :]


@given(TEXTS)
@example("x" * 100)
@example("x" * 101)
@example("é" * 50)
@example("é" * 50 + "x")
@example("..")
@example("%2F/%2f")
def test_a_name_is_taken_and_shown(program: str, name: str) -> None:
    path, body = quote(name, safe=""), text({"pacticipant": name, "version": name})
    got = answers(
        program,
        request("PUT", f"/pacticipants/{path}", body='{"team":"red"}'),
        request("PUT", f"/pacticipants/{path}/versions/{path}", RED, text({"branch": name})),
        request("POST", "/environments/open/deployments", RED, body),
        request("GET", "/environments/open", RED),
        request("GET", f"/can-i-deploy?pacticipant={path}&version={path}&environment=open", RED),
    )
    listed: dict[str, object] = {"answer": "shown", "deployed": [], "environment": "open", "gated": False}
    listed["released"] = []
    if not is_name(name):
        field, query = ({"answer": "bad form", "fault": f"{it} pacticipant"} for it in ("field", "query"))
        same(repr(name), got, [BAD_NAME, BAD_NAME, (422, text(field)), (200, text(listed)), (422, text(query))])
        return
    listed["deployed"] = [{"instance": "", "pacticipant": name, "version": name}]
    gate = {"answer": "shown", "environment": "open", "faults": [], "gated": False, "permitted": True}
    done, shown = (200, '{"answer":"done"}'), [spelled(listed), spelled(gate)]
    same(repr(name), got, [done, done, done, *((200, it) for it in shown)])


def spelled(value: object) -> str:
    """JSON as the broker writes it: with no sign escaped but those that have to be."""
    return json.dumps(value, separators=(",", ":"), sort_keys=True, ensure_ascii=False)
