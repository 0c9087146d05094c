"""Histories of commands: each answer of the program is that of the model (model.py), and so is each answer to a
question after all, by every caller."""
import itertools, json
from collections.abc import Callable
from typing import Any, NamedTuple
from urllib.parse import quote
from hypothesis import given, strategies as st
from tests.process import ran
from tests.properties.model import Model
from tests.properties.state import Refused, Said, pact, text
from tests.wire import OFFICE, answers_in, request, same
from tests.world import BLUE, RED

TOKENS = {"O": OFFICE, "R": RED, "B": BLUE}
TEAMS, NAMES, VERSIONS = ["red", "blue"], ["shop", "stock", "till"], ["1", "2"]
BOOKS, INSTANCES, RUNS = ["a book", "a cup"], ["", "east"], [None, "run-1", "run-2"]
ENVIRONMENTS = {"open": (False, False), "live": (True, False), "vault": (True, True)}
team, name, version = st.sampled_from(TEAMS), st.sampled_from(NAMES), st.sampled_from(VERSIONS)
environment, instance = st.sampled_from([*ENVIRONMENTS]), st.sampled_from(INSTANCES)
book, branch = st.sampled_from(BOOKS), st.sampled_from([None, "main"])
sides = st.permutations(NAMES).map(lambda it: it[:2])


class Command(NamedTuple):
    """A command of the model, by its name, what it is given, and by whom."""

    name: str
    given: tuple[Any, ...]
    caller: str

    def message(self) -> bytes:
        method, path, body = ROUTES[self.name](*self.given)
        return request(method, path, TOKENS[self.caller], "" if body is None else text(body))

    def said(self, model: Model) -> Said:
        """The model's answer."""
        try:
            found: Said = getattr(model, self.name)(model.caller(TOKENS[self.caller]), *self.given)
            return found
        except Refused as it:
            return it.said


Asked = tuple[str, str, Any]


def contract(consumer: str, version: str, provider: str) -> str:
    return f"/pacts/provider/{provider}/consumer/{consumer}/version/{version}"


def query(path: str, **fields: str) -> Asked:
    return "GET", path + "?" + "&".join(f"{key}={quote(it)}" for key, it in fields.items()), None


def marks(gated: bool, strict: bool) -> dict[str, bool]:
    return {"gated": gated, **({"strict": True} if strict else {})}


def run_of(run: str | None) -> dict[str, str]:
    return {"run": run} if run else {}


def replies_of(status: int, book: str) -> list[dict[str, Any]]:
    return [{"description": book, "response": {"status": status}}]


def entering(kind: str, *names: str) -> Callable[..., Asked]:
    """The request of a command on an environment, whose body has these fields; an instance without a name has none."""

    def ask(environment: str, *its: str) -> Asked:
        return "POST", f"/environments/{environment}/{kind}", {key: it for key, it in zip(names, its) if it}

    return ask


PLACED, RELEASED = ("pacticipant", "version", "instance"), ("pacticipant", "version")
ROUTES: dict[str, Callable[..., Asked]] = {
    "put_team": lambda team, token: ("PUT", f"/teams/{team}", {"token": token}),
    "put_pacticipant": lambda name, team: ("PUT", f"/pacticipants/{name}", {"team": team}),
    "put_environment": lambda name, gated, strict: ("PUT", f"/environments/{name}", marks(gated, strict)),
    "put_grant": lambda team, environment: ("PUT", f"/grants/team/{team}/environment/{environment}", None),
    "delete_grant": lambda team, environment: ("DELETE", f"/grants/team/{team}/environment/{environment}", None),
    "put_version": lambda name, its, branch: ("PUT", f"/pacticipants/{name}/versions/{its}", {"branch": branch}),
    "put_pact": lambda c, v, p, book: ("PUT", contract(c, v, p), PACTS[c, p, book]),
    "get_pact": lambda c, v, p: ("GET", contract(c, v, p), None),
    "get_branch": lambda c, b, p: ("GET", f"/pacts/provider/{p}/consumer/{c}/branch/{b}", None),
    "post_result": lambda c, v, p, by, success, run: (
        "POST", f"{contract(c, v, p)}/results", {"providerApplicationVersion": by, "success": success, **run_of(run)}),
    "post_replies": lambda c, v, p, by, status, book: (
        "POST",
        f"{contract(c, v, p)}/replies",
        {"providerApplicationVersion": by, "replies": replies_of(status, book)},
    ),
    "deploy": entering("deployments", *PLACED),
    "undeploy": entering("undeployments", *PLACED),
    "release": entering("releases", *RELEASED),
    "end_support": entering("support-ended", *RELEASED),
    "get_environment": lambda environment: ("GET", f"/environments/{environment}", None),
    "get_gate": lambda name, its, at: query("/can-i-deploy", pacticipant=name, version=its, environment=at),
    "get_matrix": lambda name, its: query("/matrix", pacticipant=name, version=its),
}
PACTS: dict[tuple[str, str, str], Any] = {it: json.loads(pact(*it)) for it in itertools.product(NAMES, NAMES, BOOKS)}


def of(name: str, *parts: st.SearchStrategy[Any]) -> st.SearchStrategy[tuple[str, tuple[Any, ...]]]:
    return st.tuples(st.just(name), st.tuples(*parts))


def of_contract(name: str, *parts: st.SearchStrategy[Any]) -> st.SearchStrategy[tuple[str, tuple[Any, ...]]]:
    """A command on a contract: the consumer, its version, the provider, and these."""
    made = st.tuples(sides, version, st.tuples(*parts))
    return made.map(lambda it: (name, (it[0][0], it[1], it[0][1], *it[2])))


token = st.sampled_from([RED, BLUE, OFFICE])
COMMANDS = st.one_of(
    of("put_team", team, token),
    of("put_pacticipant", name, team),
    environment.map(lambda it: ("put_environment", (it, *ENVIRONMENTS[it]))),
    of("put_environment", environment, st.just(True), st.booleans()),
    of("put_grant", team, environment),
    of("delete_grant", team, environment),
    of("put_version", name, version, branch),
    *[of_contract("put_pact", book)] * 3,
    of_contract("get_pact"),
    sides.map(lambda it: ("get_branch", (it[0], "main", it[1]))),
    *[of_contract("post_result", version, st.booleans(), st.sampled_from(RUNS))] * 3,
    *[of_contract("post_replies", version, st.sampled_from([200, 500]), book)] * 2,
    *[of("deploy", environment, name, version, instance)] * 4,
    of("undeploy", environment, name, version, instance),
    *[of("release", environment, name, version)] * 2,
    of("end_support", environment, name, version),
    of("get_gate", name, version, environment),
    of("get_matrix", name, version),
)
# What comes first: two teams, of which one owns shop and till and the other one stock, and may deploy.
FIRST = [
    *(Command("put_team", (its, TOKENS[by]), "O") for its, by in (("red", "R"), ("blue", "B"))),
    *(Command("put_pacticipant", (its, by), "O") for its, by in (("shop", "red"), ("stock", "blue"), ("till", "red"))),
    *(Command("put_environment", (its, *ENVIRONMENTS[its]), "O") for its in ENVIRONMENTS),
    *(Command("put_grant", (its, where), "O") for its in TEAMS for where in ENVIRONMENTS),
]
# All that is asked after all.
LAST = [
    *(Command("get_environment", (its,), by) for its in ENVIRONMENTS for by in TOKENS),
    *(Command("get_gate", (its, at, where), "O") for its in NAMES for at in VERSIONS for where in ENVIRONMENTS),
    *(Command("get_matrix", (its, at), "O") for its in NAMES for at in VERSIONS),
]


# The commands whose first word is an environment, and whose second is a pacticipant.
ENTERING = "deploy", "undeploy", "release", "end_support"
BY_OFFICE = "put_team", "put_pacticipant", "put_environment", "put_grant", "delete_grant"


def owner_first(drawn: tuple[str, tuple[Any, ...]], other: str) -> Command:
    """The command, mostly by who may do it."""
    command, its = drawn
    at = 2 if command.startswith("post_") else 1 if command in ENTERING else 0
    usual = "O" if command in BY_OFFICE else "B" if its[at] == "stock" else "R"
    return Command(command, its, other or usual)


CALLS = st.builds(owner_first, COMMANDS, st.sampled_from(["", "", "", "", "", "", "O", "R", "B"]))


@given(st.booleans(), st.lists(CALLS, min_size=1, max_size=40))
def test_each_answer_is_the_models(program: str, is_made: bool, drawn: list[Command]) -> None:
    commands, model = [*(FIRST if is_made else []), *drawn, *LAST], Model()
    done = ran([program, "replay", "--office-token", OFFICE], b"".join(it.message() for it in commands))
    same("the end", (done.status, done.errors), (0, ""))
    got = [(it.status, it.body) for it in answers_in(done.output.encode())]
    same("how many answers", len(got), len(commands))
    for command, answer in zip(commands, got):
        same(f"{command.name}{command.given} by {command.caller}", answer, command.said(model))
