"""A running provider: where it is, whether it is there, and its answers."""
import contextlib, http.client, json, re, threading, time
from typing import Dict, Iterator, List, NamedTuple, Optional

from holzhebo.api.address import Address
from holzhebo.api.http import NoAnswer, Request, connect, exchange, line_to
from holzhebo.faults import Json, Stop
from holzhebo.files import read_text
from holzhebo.text import reason, shown
from holzhebo.verify.contracts import Contract
from holzhebo.verify.reply import recorded
from holzhebo.verify.request import Unplayable, request_of

PLAYED, NOT_PLAYED, SILENT = "played", "not played", "silent"


class Played(NamedTuple):
    """An interaction, and the reply that the provider gave, None if it gave none; and why, if that is known. Of an
    interaction that differs `lines` say where; `gone` are places of the body that were left out."""

    interaction: Json
    outcome: str  # played or not played; once judged, passed or failed
    reply: Json
    why: str
    lines: List[str] = []
    gone: List[str] = []


def header_lines(path: Optional[str]) -> Dict[str, str]:
    """The headers of a file, a line each: `name: value`."""
    found: Dict[str, str] = {}
    for number, line in enumerate(read_text(path).splitlines() if path else [], 1):
        name, colon, value = line.partition(":")
        if line.strip() and not (colon and re.fullmatch(r"[!#$%&'*+.^_`|~0-9A-Za-z-]+", name) and value.isprintable()):
            raise Stop(f"{shown(path)}: line {number} is no header, as name: value")
        found.update({name: value.strip()} if line.strip() else {})
    return found


class Provider:
    """A running provider, and where its states are set. `states` without an address: they are set by nobody, and an
    interaction that has one isn't played unless they are ignored."""

    def __init__(
        self,
        url: str,
        seconds: float,
        states_url: Optional[str] = None,
        has_teardown: bool = False,
        ignores_states: bool = False,
        header_file: Optional[str] = None,
        ready_url: Optional[str] = None,
    ) -> None:
        self.url, self.seconds = Address(url), seconds
        self.states = Address(states_url) if states_url else None
        self.ready = Address(ready_url) if ready_url else None
        self.has_teardown, self.ignores_states = has_teardown, ignores_states
        self.headers = header_lines(header_file)
        self.was_heard = threading.Event()  # it has answered something
        self.gave_up = False  # it was waited for once

    def wait(self) -> None:
        """Waits until the provider listens, or answers at the address that says so, for as long as an answer may
        take."""
        ends = time.monotonic() + self.seconds
        while True:
            try:
                self.look(max(0.1, ends - time.monotonic()))
                return
            except NoAnswer as why:
                if time.monotonic() > ends:
                    raise Stop(f"the provider doesn't {'answer' if self.ready else 'listen'}: {said_of(why)}") from None
            time.sleep(min(0.1, self.seconds / 10))

    def look(self, seconds: float) -> None:
        if self.ready is not None:
            target = (self.ready.path or "/") + (f"?{self.ready.query}" if self.ready.query else "")
            exchange(self.ready, Request("GET", target, dict(self.headers), None), seconds)
            return
        with contextlib.closing(line_to(self.url, seconds)) as line:
            connect(line)

    def ask(self, address: Address, request: Request) -> Json:
        """The answer to a request. Before the first answer of all a provider may still be starting, with something
        before it that takes connections and closes them: then it is asked again, for as long as an answer may take."""
        ends = time.monotonic() + self.seconds
        while True:
            try:
                answer = exchange(address, request, self.seconds)
                if address.name() == self.url.name():
                    self.was_heard.set()
                return answer
            except NoAnswer as why:
                is_starting = why.is_closed or not why.was_sent
                if self.was_heard.is_set() or self.gave_up or not is_starting or time.monotonic() > ends:
                    self.gave_up = self.gave_up or is_starting
                    raise
            time.sleep(min(0.1, self.seconds / 10))

    def set_state(self, contract: Contract, state: Json, action: str) -> None:
        """By the usual state-change request of Pact's verifiers."""
        assert self.states is not None
        sent = {"consumer": contract.consumer, "action": action, "state": state["name"]}
        body = json.dumps({**sent, "params": state.get("params", {})}).encode()
        target = (self.states.path or "/") + (f"?{self.states.query}" if self.states.query else "")
        request = Request("POST", target, {"content-type": "application/json", **self.headers}, body)
        verb = "set" if action == "setup" else "taken back"
        try:
            answer = self.ask(self.states, request)
        except NoAnswer as why:
            raise Unplayable(f"the state {shown(state['name'])} can't be {verb}: the states' address {why}") from None
        if not 200 <= answer.status < 300:
            raise Unplayable(f"the state {shown(state['name'])} can't be {verb}: {answer.status}")

    @contextlib.contextmanager
    def in_states(self, contract: Contract, states: List[Json]) -> Iterator[None]:
        """Sets the states, and takes those back that were set, however what is done in them ends."""
        stand: List[Json] = []
        try:
            for it in states:
                self.set_state(contract, it, "setup")
                stand.insert(0, it)
            yield
        finally:
            self.take_back(contract, stand if self.has_teardown else [])

    def take_back(self, contract: Contract, states: List[Json]) -> None:
        """Takes the states back, also those after one that can't be."""
        faults = []
        for it in states:
            try:
                self.set_state(contract, it, "teardown")
            except Unplayable as why:
                faults.append(why)
        if faults:
            raise faults[0]

    def play(self, contract: Contract, interaction: Json) -> Played:
        """Plays a request, between the states that it asks for. A provider that is there and gives no answer fails the
        interaction; one that isn't there, or that answers more than is read, doesn't."""
        states = interaction["providerStates"]
        if states and self.states is None and not self.ignores_states:
            why = "it has a state: give --states-url, or --ignore-states"
            return Played(interaction, NOT_PLAYED, None, why)
        try:
            request = request_of(interaction, self.url, self.headers)
            with self.in_states(contract, states if self.states else []):
                return self.answered(interaction, request)
        except Unplayable as why:
            return Played(interaction, NOT_PLAYED, None, str(why))
        except (ValueError, http.client.HTTPException) as why:
            return Played(interaction, NOT_PLAYED, None, f"its request can't be sent: {reason(why)}")

    def answered(self, interaction: Json, request: Request) -> Played:
        try:
            found = recorded(interaction, self.ask(self.url, request))
            return Played(interaction, PLAYED, found.response, "", gone=found.gone)
        except NoAnswer as why:
            said = f"the provider {why}"
            return Played(interaction, NOT_PLAYED if why.is_limit or not why.was_sent else SILENT, None, said)

    def settled(self, played: List[Played]) -> List[Played]:
        """What got no answer fails an interaction only if the provider has answered something at all."""
        outcome = PLAYED if self.was_heard.is_set() else NOT_PLAYED
        return [it._replace(outcome=outcome) if it.outcome == SILENT else it for it in played]


def said_of(why: NoAnswer) -> str:
    return "Connection refused" if str(why) == "refuses the connection" else str(why)
