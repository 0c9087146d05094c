"""The request of an interaction, as the pact has it."""
import json, re, urllib.parse
from typing import Dict, Iterator, Optional

from holzhebo.api.address import Address, in_path, in_query
from holzhebo.api.http import Request
from holzhebo.faults import Json
from holzhebo.pact.faults import is_header_value
from holzhebo.pact.json import ascii_lower, children, member


class Unplayable(Exception):
    """Why a request can't be played, or a reply can't be recorded."""


OWN_HEADERS = ("content-length", "transfer-encoding", "connection")
BINARY = re.compile(r"(image|audio|video|font)/.*|application/(octet-stream|pdf|zip|gzip|protobuf|x-protobuf|grpc.*)")
NEEDS = {"ProviderState": "values injected from states", "MockServerURL": "the address of a mock server"}


def segment(text: str) -> str:
    return urllib.parse.quote(text, safe="")


def query_of(query: Json) -> str:
    """A query as the pact has it: a text, or lists of values by name."""
    if isinstance(query, str):
        return in_query(query.lstrip("?"))
    if not isinstance(query, dict):
        raise Unplayable("its query is no text and no object")
    pairs = [(key, it) for key, values in query.items() for it in (values if isinstance(values, list) else [values])]
    if not all(isinstance(it, str) for _, it in pairs):
        raise Unplayable("its query has a value that isn't a text")
    return "&".join(f"{segment(key)}={segment(it)}" for key, it in pairs)


def headers_of(headers: Json) -> Dict[str, str]:
    """The headers that the pact has; the length of the body and the way of the connection are this client's own."""
    if not isinstance(headers, dict):
        raise Unplayable("its headers are no object")
    if not all(is_header_value(it) for it in headers.values()):
        raise Unplayable("it has a header that is no text")
    texts = {key: ", ".join(it) if isinstance(it, list) else it for key, it in headers.items()}
    return {key: it for key, it in texts.items() if ascii_lower(key) not in OWN_HEADERS}


def kind_of_body(headers: Dict[str, str]) -> str:
    """The content type, without parameters."""
    found = [it for key, it in headers.items() if ascii_lower(key) == "content-type"]
    return found[0].partition(";")[0].strip().lower() if found else ""


def is_json(content_type: str) -> bool:
    kind = content_type.partition(";")[0].strip().lower()
    return re.fullmatch(r"(application/|text/|.*\+)json", kind) is not None


def body_of(request: Json, headers: Dict[str, str]) -> Optional[bytes]:
    """The body: a text as it is, unless it is sent as JSON and isn't such a text; any other value as JSON."""
    body, kind = request.get("body"), kind_of_body(headers)
    if body is None:
        return None
    if isinstance(body, str):
        if BINARY.fullmatch(kind):
            raise Unplayable(f"its body is of {kind}, which a pact has in base64")
        if not is_json(kind) or is_text_of_json(body):
            return body.encode()
    elif not kind:
        headers["content-type"] = "application/json"
    return json.dumps(body, ensure_ascii=False).encode()


def is_text_of_json(text: str) -> bool:
    """Whether a text is that of an object or a list: the Rust core keeps a body of JSON so."""
    try:
        return isinstance(json.loads(text), (dict, list))
    except (ValueError, RecursionError):
        return False


def types_in(generators: Json) -> Iterator[str]:
    """The types of generators, wherever they are."""
    found = member(generators, "type")
    if isinstance(found, str):
        yield found
    for _, it in children(generators):
        yield from types_in(it)


def request_of(interaction: Json, base: Address, own: Dict[str, str]) -> Request:
    """The request of an interaction, to a provider at this address, with headers of this build's own. What a generator
    would make is the example, unless it needs more."""
    request = interaction["request"]
    for it in types_in(request.get("generators")):
        if it in NEEDS:
            raise Unplayable(f"its request has generators and {NEEDS[it]}")
    method, path = request.get("method") or "GET", request.get("path") or "/"
    if not isinstance(method, str) or not re.fullmatch(r"[A-Za-z]+", method):
        raise Unplayable("its method isn't one")
    if not isinstance(path, str) or not path.startswith("/"):
        raise Unplayable("its path isn't one")
    target = base.path.rstrip("/") + in_path(path)
    query = query_of(request["query"]) if request.get("query") else ""
    headers = headers_of(request.get("headers") or {})
    body = body_of(request, headers)
    names = {ascii_lower(it) for it in own}
    headers = {**{key: it for key, it in headers.items() if ascii_lower(key) not in names}, **own}
    return Request(method.upper(), f"{target}?{query}" if query else target, headers, body)
