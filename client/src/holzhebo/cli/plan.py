"""plan: what of one environment may go to another, in which order."""
import threading
from typing import Any, Dict

from holzhebo.api import Broker, Environment, Matrix, Permission, Refused
from holzhebo.api.broker import NOT_ONE
from holzhebo.api.broker import read as shaped
from holzhebo.cli.context import brokers_of, tell_json
from holzhebo.cli.parser import Arguments
from holzhebo.desk.names import named_in
from holzhebo.faults import DONE, NO, Json, Stop
from holzhebo.gate.sentences import FAULTS
from holzhebo.plan import Plan
from holzhebo.plan_steps import read
from holzhebo.plan_tell import Teller, as_json
from holzhebo.text import shown, tell

NOT_HERS = "this token may not ask for each service: take the office's, or one that only reads"
# What is answered with 200, by the first part of a path.
SHAPES: Dict[str, Any] = {"environments": Environment, "can-i-deploy": Permission, "matrix": Matrix}


class Asking:
    """Asks a broker, each thread over a connection of its own."""

    def __init__(self, args: Arguments) -> None:
        self.args, self.own, self.make = args, threading.local(), brokers_of(args)

    def broker(self) -> Broker:
        if not hasattr(self.own, "broker"):
            self.own.broker = self.make()
        found: Broker = self.own.broker
        return found

    def get(self, target: str) -> Json:
        answer = self.broker().ask("GET", target)
        if answer.status == 403:
            raise Stop(NOT_HERS, answer.json())
        if answer.status != 200:
            raise Refused(answer, {"environment": [self.args.source, self.args.target]})
        found = shaped(SHAPES[target.split("/")[1].split("?")[0]], answer)
        if not {it.kind for it in getattr(found, "faults", [])} <= {*FAULTS}:
            raise Stop(f"{NOT_ONE}: a fault of another kind")
        return answer.json()


def contacts_in(path: str) -> Dict[str, Any]:
    found = named_in(path, "contacts")
    if not isinstance(found, dict):
        raise Stop(f"{shown(path)} can't be read, or has no contacts")
    return found


def plan(args: Arguments) -> int:
    contacts = contacts_in(args.contacts) if args.contacts else {}
    found = Plan(read(Asking(args), args.source, args.target, args.without, args.gone))
    if args.json:
        tell_json(as_json(found))
    else:
        tell("\n".join(Teller(found, contacts, args.whole).lines()))
    return DONE if len(found.largest()[0]) == len(found.all) else NO
