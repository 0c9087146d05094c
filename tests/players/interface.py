"""docs/openapi.json as what requests and answers are tried by: each is one of its operations, and fits what that
says."""
import copy, json, re
from functools import cache
from typing import Any, NamedTuple
from urllib.parse import parse_qsl, unquote, urlsplit
import jsonschema  # type: ignore[import]
from tests.players.exchanges import Exchange
from tests.process import TOP
from tests.wire import Wrong

# What is answered to a request that is no operation.
ELSEWHERE = {404: {"answer": "no route"}, 405: {"answer": "no method"}}
# How the broker fails: by no operation's own doing.
FAILURES = 500, 503
# The answers that come after the request was read, so that it has its form.
READ = 200, 403, 404, 409


@cache
def document() -> dict[str, Any]:
    with open(f"{TOP}/docs/openapi.json", encoding="utf-8") as it:
        found: dict[str, Any] = json.load(it)
    return found


def as_json_schema(value: Any) -> Any:
    """A schema of OpenAPI 3.0 as JSON Schema has it: what is nullable may be null."""
    if isinstance(value, list):
        return [as_json_schema(it) for it in value]
    if not isinstance(value, dict):
        return value
    found = {key: as_json_schema(it) for key, it in value.items()}
    if found.pop("nullable", False):
        found["type"] = [found["type"], "null"]
    return found


@cache
def resolver() -> Any:
    return jsonschema.RefResolver.from_schema(as_json_schema(copy.deepcopy(document())))


def schema(name: str) -> dict[str, Any]:
    """The schema of this name."""
    found: dict[str, Any] = document()["components"]["schemas"][name]
    return found


def fits(value: Any, wanted: dict[str, Any], what: str) -> None:
    """Fails unless the value fits the schema."""
    checker = jsonschema.Draft4Validator(as_json_schema(wanted), resolver=resolver())
    faults = [f"{'/'.join(map(str, it.path)) or 'it'}: {it.message:.300}" for it in checker.iter_errors(value)]
    if faults:
        raise Wrong(f"{what}: {'; '.join(faults)}")


class Operation(NamedTuple):
    """An operation, its parameters by their names, and those of a request."""

    method: str
    path: str
    said: dict[str, Any]
    parameters: list[dict[str, Any]]
    given: dict[str, str]

    def response(self, status: int) -> dict[str, Any]:
        """What is said of an answer with this status."""
        found = self.said["responses"].get(str(status)) or self.said["responses"]["default"]
        name = found.get("$ref", "").rsplit("/", 1)[-1]
        response: dict[str, Any] = document()["components"]["responses"][name] if name else found
        return response


def operation_of(method: str, target: str) -> Operation | None:
    """The operation that a request asks for, if there is one."""
    parts = urlsplit(target)
    for path, its in document()["paths"].items():
        names = re.findall(r"\{(\w+)\}", path)
        found = re.fullmatch(re.sub(r"\{\w+\}", "([^/]+)", path), parts.path)
        if found and method.lower() in its:
            said = its[method.lower()]
            given = dict(zip(names, map(unquote, found.groups()))) | dict(parse_qsl(parts.query))
            return Operation(method, path, said, its.get("parameters", []) + said.get("parameters", []), given)
    return None


def try_exchange(it: Exchange) -> tuple[str, str, int] | None:
    """Tries a request and its answer, and says which operation was met with which status; None if its head was refused
    or it is no operation."""
    status, answer = it.answer.status, f"{it.place}: the answer {it.answer.status}"
    if it.method == "HEAD" and it.is_refused():
        return None
    body, operation = json.loads(it.answer.body), operation_of(it.method, it.path)
    if it.is_refused():
        fits(body, schema("Refused"), answer)
        return None
    if operation is None:
        if body != ELSEWHERE.get(status):
            raise Wrong(f"{answer} to {it.method} {it.path}, which is no operation: {body}")
        return None
    response = operation.response(status)
    fits(body, response["content"]["application/json"]["schema"], answer)
    for name, said in response.get("headers", {}).items():
        fits(it.answer.headers.get(name), said["schema"], f"{answer}: {name}")
    if status in READ:
        try_request(operation, it)
    return operation.method, operation.path, status


def try_request(operation: Operation, it: Exchange) -> None:
    for parameter in operation.parameters:
        name = parameter["name"]
        if name not in operation.given:
            raise Wrong(f"{it.place}: there is no {name}")
        fits(operation.given[name], parameter["schema"], f"{it.place}: {name}")
    asked = operation.said.get("requestBody")
    if asked and (it.body or asked["required"]):
        fits(json.loads(it.body), asked["content"]["application/json"]["schema"], f"{it.place}: the request")
