"""Plays contracts against a provider, and has the replies judged. What fails for one contract doesn't stop the
others."""
import json
from typing import Callable, Iterator, List, NamedTuple, Optional

from holzhebo.api import Broker, Refused, Stop
from holzhebo.api.sentences import member
from holzhebo.faults import DONE, NO, UNDONE, Json
from holzhebo.pact.program import Program
from holzhebo.text import counted, shown
from holzhebo.threads import in_threads
from holzhebo.verify.contracts import Contract, run_of
from holzhebo.verify.differs import explained
from holzhebo.verify.provider import NOT_PLAYED, Played, Provider

KEYS = ("description", "providerStates")
# Of a contract without a verdict: nobody got the replies; or who did couldn't compare them with it.
NOT_SENT, NOT_JUDGED = "not sent", "not judged"


class Verdict(NamedTuple):
    """What became of a contract: passed, failed, not sent or not judged; the number of the result, or why there is
    none. `disagrees`: what this client finds surely isn't what the broker says."""

    name: str
    contract: Optional[Contract]
    played: List[Played]
    outcome: str
    result: Optional[int]
    why: str
    disagrees: bool = False


def replies_of(played: List[Played]) -> List[Json]:
    return [{**{key: it.interaction[key] for key in KEYS}, "response": it.reply} for it in played if it.reply]


def judged(contract: Contract, played: List[Played], failing: List[int], number: Optional[int], why: str) -> Verdict:
    """The verdict, where these interactions fail by their places; and what differs in them."""
    told, disagrees = [], False
    for at, it in enumerate(played):
        fails, found = at in failing, explained(it.interaction, it.reply, at in failing) if it.reply else None
        lines = found.lines if found else []
        disagrees = disagrees or bool(found and found.disagrees)
        told.append(it._replace(outcome="failed" if fails else "passed", why=(lines or [it.why])[0], lines=lines))
    outcome = "failed" if failing else "passed"
    return Verdict(contract.name(), contract, told, outcome, number, why, disagrees)


class Session:
    """A run of `holzhebo verify`."""

    def __init__(
        self,
        broker: Broker,
        provider: Provider,
        version: str,
        run: Optional[str] = None,
        jobs: int = 1,
        text: Optional[str] = None,
        program: Optional[Program] = None,
    ) -> None:
        self.broker, self.provider, self.version, self.run = broker, provider, version, run
        self.jobs, self.text, self.program = jobs, text, program

    def chosen(self, contract: Contract) -> List[Json]:
        interactions: List[Json] = json.loads(contract.text)["interactions"]
        return [it for it in interactions if self.text is None or self.text in it["description"]]

    def played(self, contract: Contract) -> List[Played]:
        """Plays the interactions. Those without states may go on beside one another."""
        interactions = self.chosen(contract)
        alone = [at for at, it in enumerate(interactions) if it["providerStates"] or self.jobs == 1]
        beside = [at for at in range(len(interactions)) if at not in alone]
        play: Callable[[int], Played] = lambda at: self.provider.play(contract, interactions[at])
        found = {at: play(at) for at in alone}
        found.update(zip(beside, in_threads(self.jobs, play, beside)))
        return self.provider.settled([found[at] for at in range(len(interactions))])

    def verdict(self, contract: Contract, played: List[Played]) -> Verdict:
        """What the broker says of the replies; of those to a part of a contract, or to one whose version isn't known,
        what the program says, which isn't sent."""
        unplayed = [it for it in played if it.outcome == NOT_PLAYED]
        name = contract.name()
        if unplayed:
            why = f"{counted(len(unplayed), 'interaction')} can't be played"
            return Verdict(name, contract, played, NOT_SENT, None, why)
        if self.text is not None:
            return self.judged_here(contract, played, f"only {counted(len(played), 'interaction')} by --filter")
        if not contract.versions:
            why = "the broker doesn't say which version has it: name it by --contract"
            return self.judged_here(contract, played, f"{why} {shown(contract.consumer)} VERSION")
        try:
            run = run_of(self.run, contract.digest())
            one = (contract.consumer, contract.versions[0], contract.provider)
            with self.broker.one_of_several():
                said = self.broker.send_replies(*one, self.version, replies_of(played), run)
            if not all(0 <= at < len(played) for at in said.failing):
                raise Stop("the address answers, but not as a broker: $.failing")
        except Refused as why:
            outcome = NOT_JUDGED if member(why.answer, "answer") == "pattern" else NOT_SENT
            return Verdict(name, contract, played, outcome, None, str(why))
        except Stop as why:
            return Verdict(name, contract, played, NOT_SENT, None, str(why))
        before = "" if said.is_new else "the same run sent it before"
        return judged(contract, played, said.failing, said.result, before)

    def judged_here(self, contract: Contract, played: List[Played], why: str) -> Verdict:
        if self.program is None:
            return Verdict(contract.name(), contract, played, NOT_SENT, None, why)
        pact = json.dumps({**json.loads(contract.text), "interactions": [it.interaction for it in played]})
        try:
            failing = self.program.failing(pact, json.dumps({"replies": replies_of(played)}))
        except Stop as fault:
            return Verdict(contract.name(), contract, played, NOT_JUDGED, None, str(fault))
        return judged(contract, played, failing, None, why)

    def verdicts(
        self, contracts: List[Contract], record: Callable[[Contract, List[Played]], None]
    ) -> Iterator[Verdict]:
        if contracts:
            self.provider.wait()
        for contract in contracts:
            played = self.played(contract)
            if not played and self.text is not None:
                continue
            record(contract, played)
            yield self.verdict(contract, played)


def status_of(verdicts: List[Verdict]) -> int:
    """What isn't understood decides; then a failure, and then what has no verdict."""
    outcomes = {it.outcome for it in verdicts}
    if any(it.disagrees for it in verdicts):
        return UNDONE
    return NO if "failed" in outcomes else UNDONE if {NOT_SENT, NOT_JUDGED} & outcomes else DONE


def left_out(verdict: Verdict) -> List[str]:
    """The places of bodies that were left out of what is recorded."""
    return [shown(f"{it.interaction['description']}: {path}") for it in verdict.played for path in it.gone]


def verdict_json(verdict: Verdict) -> Json:
    rows = [(it, {key: it.interaction[key] for key in KEYS}) for it in verdict.played]
    played = [
        {**about, "outcome": it.outcome, "why": it.why, "differences": it.lines, "leftOut": it.gone}
        for it, about in rows
    ]
    contract = {key: it for key, it in verdict.contract._asdict().items() if key != "text"} if verdict.contract else {}
    said = {"outcome": verdict.outcome, "result": verdict.result, "why": verdict.why, "disagrees": verdict.disagrees}
    return {**contract, **said, "contract": verdict.name, "played": played}
