"""The broker as the caller of a token sees it: one method for each route of docs/API.md."""
import contextlib, json, time, urllib.parse
from typing import Any, Callable, Iterator, List, Optional, Tuple, Type, TypeVar

from holzhebo.api import answers, policy
from holzhebo.api.address import Address, Way
from holzhebo.api.http import Answer, Line, NoAnswer, Request
from holzhebo.api.sentences import NOT_KNOWN, Names, member, sentence_of
from holzhebo.api.shapes import BadShape, shaped
from holzhebo.faults import Json, Stop
from holzhebo.text import note

T = TypeVar("T")
Look = Optional[Callable[[], None]]  # a look at what is there, before a request is repeated that may have arrived
ANSWER_SECONDS = 120.0
MOST_BYTES = 1 << 28
NOT_ONE = "the address answers, but not as a broker"


class Refused(Stop):
    """The broker answers something else than what is asked for; `status` is that of HTTP."""

    def __init__(self, answer: Answer, names: Optional[Names] = None) -> None:
        super().__init__(sentence_of(answer, names), answer.json())
        self.http_status = answer.status

    def is_unknown(self, *kinds: str) -> bool:
        """Whether the broker doesn't know one of these."""
        return self.http_status == 404 and member(self.answer, "what") in kinds


class NotPermitted(Refused):
    """The gate refuses a deployment or a release, and nothing changed."""

    def __init__(self, answer: Answer) -> None:
        super().__init__(answer)
        self.faults: List[answers.Lack] = read(answers.Refusal, answer).faults


def read(cls: Type[T], answer: Answer) -> T:
    """What an answer says, by its shape."""
    try:
        found = shaped(cls, answer.json())
    except BadShape as why:
        raise Stop(f"{NOT_ONE}: {why}" if str(why) != "$" else NOT_ONE) from None
    if isinstance(found, answers.Changed) and found.answer not in ("done", "already"):
        raise Stop(f"{NOT_ONE}: $.answer")
    return found


def segment(name: str) -> str:
    """The name as a segment of a path."""
    return urllib.parse.quote(name, safe="")


def pair_path(consumer: str, provider: str) -> str:
    return f"/pacts/provider/{segment(provider)}/consumer/{segment(consumer)}"


def contract_path(consumer: str, version: str, provider: str) -> str:
    return f"{pair_path(consumer, provider)}/version/{segment(version)}"


def fields(**given: Any) -> Json:
    """The fields of a body; one that isn't given is left out."""
    return {key: it for key, it in given.items() if it is not None}


class Broker:
    """A broker, asked over one kept connection. What may be sent twice is sent again while nobody answers, for so many
    seconds. Each method gives what was answered with 200; another answer is `Refused`, none at all is `Stop`."""

    def __init__(self, url: str, token: str, patience: float = 60.0, way: Way = Way(), is_plain: bool = False) -> None:
        self.address, self.patience = Address(url), patience
        if not (self.address.is_https or self.address.is_loopback or is_plain):
            raise Stop(f"over http the token is read on the way to {self.address.host}: use https, or give --plain")
        self.line = Line(self.address, way)
        self.headers = {"authorization": f"Bearer {token}", "content-type": "application/json"}
        self.last: Optional[Answer] = None  # the last answer, as it came

    # Requests

    def ask(
        self, method: str, path: str, body: Optional[bytes] = None, is_idempotent: bool = True, look: Look = None
    ) -> Answer:
        """The answer to a request. It is repeated while nobody answers it, if it may be. With a look before that each
        attempt has a connection of its own, since over a kept one it may be sent twice."""
        ends, number, arrived = time.monotonic() + self.patience, 1, False
        request = Request(method, self.address.path.rstrip("/") + path, self.headers, body)
        is_once = not is_idempotent or look is not None
        while True:
            answer, why = self.attempt(request, is_once)
            pause = policy.pause_before(number, answer)
            goes_on = policy.may_repeat(is_idempotent, answer, why) and time.monotonic() + pause <= ends
            is_open = method == "POST" and (arrived or policy.may_have_arrived(answer, why))
            if answer is not None and not goes_on:
                self.last = answer._replace(was_repeated=arrived or answer.was_repeated, is_open=is_open)
                return self.last
            if not goes_on:
                raise Stop(f"the broker {why}{NOT_KNOWN if is_open else ''}")
            if number == 1:
                said = why or f"answers {answer and answer.status}"
                note(f"the broker {said}, and is asked again for up to {self.patience:g} seconds")
            arrived = arrived or policy.may_have_arrived(answer, why)
            time.sleep(pause)
            number += 1
            if arrived and look is not None:
                look()

    def attempt(self, request: Request, is_once: bool) -> Tuple[Optional[Answer], Optional[NoAnswer]]:
        try:
            return self.line.exchange(request, ANSWER_SECONDS, MOST_BYTES, is_once), None
        except NoAnswer as why:
            return None, why

    def get(self, cls: Type[T], path: str, names: Names, **query: str) -> T:
        answer = self.ask("GET", path + ("?" + urllib.parse.urlencode(query) if query else ""))
        return self.wanted(cls, answer, names)

    def send(self, cls: Type[T], method: str, path: str, body: Json, names: Names, is_idempotent: bool = True) -> T:
        answer = self.ask(method, path, json.dumps(body).encode(), is_idempotent)
        return self.wanted(cls, answer, names)

    def wanted(self, cls: Type[T], answer: Answer, names: Names) -> T:
        if answer.status != 200:
            raise Refused(answer, names)
        return read(cls, answer)

    @contextlib.contextmanager
    def one_of_several(self) -> Iterator[None]:
        """For one request of several: after one that nobody answers, or only a proxy, each other is tried once."""
        try:
            yield
        except Stop as why:
            if not isinstance(why, Refused) or why.http_status in policy.BY_A_PROXY:
                self.patience = 0
            raise

    def close(self) -> None:
        self.line.close()

    # What the office makes

    def make_team(self, team: str, token: str) -> answers.Changed:
        names = {"team": [team], "made": ["team"]}
        return self.send(answers.Changed, "PUT", f"/teams/{segment(team)}", {"token": token}, names)

    def make_pacticipant(self, pacticipant: str, team: str) -> answers.Changed:
        names = {"pacticipant": [pacticipant], "team": [team], "made": ["pacticipant"]}
        return self.send(answers.Changed, "PUT", f"/pacticipants/{segment(pacticipant)}", {"team": team}, names)

    def make_environment(self, environment: str, gated: bool = True, strict: bool = False) -> answers.Changed:
        names = {"environment": [environment], "made": ["environment"]}
        body = {"gated": gated, "strict": strict}
        return self.send(answers.Changed, "PUT", f"/environments/{segment(environment)}", body, names)

    def grant(self, team: str, environment: str) -> answers.Changed:
        path = f"/grants/team/{segment(team)}/environment/{segment(environment)}"
        return self.send(answers.Changed, "PUT", path, {}, {"team": [team], "environment": [environment]})

    def take_grant(self, team: str, environment: str) -> answers.Changed:
        path = f"/grants/team/{segment(team)}/environment/{segment(environment)}"
        try:
            return self.send(answers.Changed, "DELETE", path, {}, {"team": [team], "environment": [environment]})
        except Refused as why:
            if not why.is_unknown("grant"):
                raise
            return answers.Changed("already")

    # Versions, contracts, results

    def name_version(self, pacticipant: str, version: str, branch: Optional[str] = None) -> answers.Changed:
        path = f"/pacticipants/{segment(pacticipant)}/versions/{segment(version)}"
        names = {"pacticipant": [pacticipant]}
        return self.send(answers.Changed, "PUT", path, fields(branch=branch), names)

    def publish(self, consumer: str, version: str, provider: str, pact: bytes) -> answers.Published:
        answer = self.ask("PUT", contract_path(consumer, version, provider), pact)
        return self.wanted(answers.Published, answer, {"pacticipant": [consumer, provider]})

    def contract(self, consumer: str, version: str, provider: str) -> str:
        """The normal text of a version's contract."""
        return self.text_at(contract_path(consumer, version, provider), consumer, version, provider)

    def newest_contract(self, consumer: str, branch: str, provider: str) -> str:
        """The normal text of the newest contract on a branch."""
        return self.text_at(f"{pair_path(consumer, provider)}/branch/{segment(branch)}", consumer, None, provider)

    def text_at(self, path: str, consumer: str, version: Optional[str], provider: str) -> str:
        answer = self.ask("GET", path)
        if answer.status != 200:
            versions = [f"{version} of {consumer}"] if version is not None else []
            raise Refused(answer, {"pacticipant": [consumer, provider], "version": versions})
        found = answer.json()
        if not isinstance(member(found, "interactions"), list):
            raise Stop(f"{NOT_ONE}: $.interactions")
        return answer.content.decode()

    def claim(
        self, consumer: str, version: str, provider: str, own: str, success: bool, run: Optional[str] = None
    ) -> answers.Claimed:
        """Claims a result of the provider's own version. Without a run it is sent again only if nobody got it."""
        body = fields(providerApplicationVersion=own, success=success, run=run)
        path = contract_path(consumer, version, provider) + "/results"
        names = {"pacticipant": [consumer, provider], "version": [f"{version} of {consumer}"]}
        return self.send(answers.Claimed, "POST", path, body, names, run is not None)

    def send_replies(
        self, consumer: str, version: str, provider: str, own: str, replies: Json, run: Optional[str] = None
    ) -> answers.Checked:
        """Sends the recorded replies of the provider's own version, which the broker checks."""
        body = fields(providerApplicationVersion=own, replies=replies, run=run)
        path = contract_path(consumer, version, provider) + "/replies"
        names = {"pacticipant": [consumer, provider], "version": [f"{version} of {consumer}"]}
        return self.send(answers.Checked, "POST", path, body, names, run is not None)

    # Environments

    def environment(self, environment: str) -> answers.Environment:
        return self.get(answers.Environment, f"/environments/{segment(environment)}", {"environment": [environment]})

    def change(
        self, resource: str, environment: str, body: Json, may_be_gone: bool = False, look: Look = None
    ) -> answers.Changed:
        """Sends a change of an environment. What ends may be gone by an earlier attempt of the same request."""
        path = f"/environments/{segment(environment)}/{resource}"
        answer = self.ask("POST", path, json.dumps(body).encode(), True, look)
        said = answer.json()
        if answer.status == 409 and member(said, "answer") == "not permitted":
            raise NotPermitted(answer)
        is_gone = answer.status == 404 and member(said, "what") in ("deployed", "released")
        if is_gone and (answer.was_repeated or may_be_gone):
            return answers.Changed("already")
        version = [f"{body['version']} of {body['pacticipant']}"]
        names = {"environment": [environment], "pacticipant": [body["pacticipant"]], "version": version}
        return self.wanted(answers.Changed, answer, names)

    def deploy(self, pacticipant: str, version: str, environment: str, instance: str = "") -> answers.Changed:
        """Asks the gate, and records a deployment if it permits it; else `NotPermitted`. If an attempt has no answer,
        it is repeated only if nothing else was deployed in this instance meanwhile."""
        before = self.environment(environment).version_in(pacticipant, instance)
        unknown = f"whether {pacticipant} {version} was deployed isn't known"

        def look() -> None:
            try:
                now = self.environment(environment).version_in(pacticipant, instance)
            except Stop as why:
                raise Stop(f"{unknown}; {why}", why.answer) from None
            if now not in (before, version):
                raise Stop(f"{unknown}; meanwhile {f'{pacticipant} {now}' if now is not None else 'nothing'} is there")

        body = {"pacticipant": pacticipant, "version": version, **({"instance": instance} if instance else {})}
        return self.change("deployments", environment, body, look=look)

    def undeploy(
        self, pacticipant: str, version: str, environment: str, instance: str = "", may_be_gone: bool = False
    ) -> answers.Changed:
        body = {"pacticipant": pacticipant, "version": version, **({"instance": instance} if instance else {})}
        return self.change("undeployments", environment, body, may_be_gone)

    def release(self, pacticipant: str, version: str, environment: str) -> answers.Changed:
        """Asks the gate, and records a release if it permits it; else `NotPermitted`."""
        return self.change("releases", environment, {"pacticipant": pacticipant, "version": version})

    def end_support(self, pacticipant: str, version: str, environment: str) -> answers.Changed:
        return self.change("support-ended", environment, {"pacticipant": pacticipant, "version": version})

    # Questions

    def can_i_deploy(self, pacticipant: str, version: str, environment: str) -> answers.Permission:
        query = {"pacticipant": pacticipant, "version": version, "environment": environment}
        names = {"pacticipant": [pacticipant], "version": [f"{version} of {pacticipant}"], "environment": [environment]}
        return self.get(answers.Permission, "/can-i-deploy", names, **query)

    def matrix(self, pacticipant: str, version: str) -> answers.Matrix:
        names = {"pacticipant": [pacticipant], "version": [f"{version} of {pacticipant}"]}
        return self.get(answers.Matrix, "/matrix", names, pacticipant=pacticipant, version=version)

    def knows_token(self) -> None:
        """Refused unless the broker knows the token."""
        answer = self.ask("GET", "/environments/-")
        if answer.status == 404 and member(answer.json(), "what") == "environment":
            return
        self.wanted(answers.Environment, answer, {})

    def knows_pacticipant(self, pacticipant: str) -> bool:
        """Whether there is such a pacticipant, which everybody with a token may ask."""
        answer = self.ask("GET", "/matrix?" + urllib.parse.urlencode({"pacticipant": pacticipant, "version": "-"}))
        word = member(answer.json(), "answer")
        if answer.status == 404 and word == "unknown":
            return bool(member(answer.json(), "what") != "pacticipant")
        if answer.status == 403 and word == "denied":
            return True
        self.wanted(answers.Matrix, answer, {})
        return True
