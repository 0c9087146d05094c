"""can-i-deploy, deploy, undeploy, release and end-support."""
import contextlib, time
from typing import Iterator, List, Optional

from holzhebo.api import Broker, Lack, NotPermitted, Permission
from holzhebo.cli.context import broker_of
from holzhebo.cli.parser import Arguments, named
from holzhebo.faults import DONE, NO, USAGE, Stop
from holzhebo.gate.sentences import sentence_of
from holzhebo.text import counted, note, shown, tell

LONGEST_PAUSE = 10.0


def tell_faults(faults: List[Lack], environment: str) -> None:
    for fault in faults:
        tell(f"  {sentence_of(fault, environment)}")


def tell_answer(broker: Broker) -> None:
    """The broker's answer as it came."""
    if broker.last is not None:
        tell(broker.last.text())


def can_i_deploy(args: Arguments) -> int:
    """Asks, and while only results are missing asks again, first each two seconds and then more seldom."""
    pacticipant, version, environment = named(args, "pacticipant", "version", "environment")
    wait = args.wait if args.retry_while_unknown is None else args.retry_while_unknown * args.retry_interval
    broker, ends, pause = broker_of(args), time.monotonic() + wait, 2.0
    while True:
        said = broker.can_i_deploy(pacticipant, version, environment)
        left = ends - time.monotonic()
        if said.permitted or {it.kind for it in said.faults} != {"missing"} or left <= 0:
            break
        if pause == 2.0:
            note(f"waits for {counted(len(said.faults), 'result')}")
        time.sleep(min(pause, left))
        pause = min(pause * 1.25, LONGEST_PAUSE)
    if args.json:
        tell_answer(broker)
    else:
        tell_permission(said, f"{shown(pacticipant)} {shown(version)}", environment)
    return DONE if said.permitted else NO


def tell_permission(said: Permission, what: str, environment: str) -> None:
    if not said.permitted:
        tell(f"{what} may not be deployed to {shown(environment)}:")
    elif said.faults:
        tell(f"{what} may be deployed to {shown(environment)}, which isn't gated. A gate would refuse it:")
    else:
        tell(f"{what} may be deployed to {shown(environment)}.")
    tell_faults(said.faults, environment)


class Change:
    """A change of what a version does in an environment, and how it is reported."""

    def __init__(self, args: Arguments, words: "List[str]", broker: Optional[Broker] = None) -> None:
        self.args, self.broker = args, broker or broker_of(args, words[0])
        self.pacticipant, self.version, self.environment = words
        self.what = f"{shown(self.pacticipant)} {shown(self.version)}"

    def place(self, instance: Optional[str]) -> str:
        return shown(self.environment) + (f", instance {shown(instance)}" if instance else "")

    @contextlib.contextmanager
    def on_its_way(self, place: str) -> Iterator[None]:
        """While a change is on its way: if it is interrupted then, nobody knows whether it is done."""
        try:
            yield
        except (KeyboardInterrupt, SystemExit):
            note(f"{self.what}, {place}: it was interrupted, and whether the broker took it is not known")
            raise

    def told(self, sentence: str, place: str) -> None:
        if self.args.json:
            tell_answer(self.broker)
        else:
            tell(f"{self.what} {sentence} {place}.")

    def refused(self, why: NotPermitted, place: str) -> int:
        if self.args.json:
            tell_answer(self.broker)
        else:
            tell(f"{self.what} isn't permitted in {place}, and nothing changed:")
            tell_faults(why.faults, self.environment)
        return NO

    def deploy(self, instance: Optional[str]) -> Optional[bool]:
        """Whether it is new; None if the gate refuses it."""
        try:
            with self.on_its_way(self.place(instance)):
                said = self.broker.deploy(self.pacticipant, self.version, self.environment, instance or "")
        except NotPermitted as why:
            self.refused(why, self.place(instance))
            return None
        self.told("is deployed in" if said.is_new else "was deployed already in", self.place(instance))
        return said.is_new

    def undeploy(self, instance: Optional[str], may_be_gone: bool) -> None:
        one = (self.pacticipant, self.version, self.environment, instance or "")
        with self.on_its_way(self.place(instance)):
            self.broker.undeploy(*one, may_be_gone=may_be_gone)
        self.told("is no longer deployed in", self.place(instance))


def deploy(args: Arguments) -> int:
    """Deploys, and then takes another instance out, if that is asked for; what was done is said in any case."""
    if args.then_undeploy == (args.instance or ""):
        raise Stop("--then-undeploy names the instance that is deployed to", status=USAGE)
    it = Change(args, named(args, "pacticipant", "version", "environment"))
    is_new = it.deploy(args.instance)
    if is_new is None:
        return NO
    if args.then_undeploy is not None:
        it.undeploy(args.then_undeploy, not is_new)
    return DONE


def undeploy(args: Arguments) -> int:
    Change(args, named(args, "pacticipant", "version", "environment")).undeploy(args.instance, False)
    return DONE


def record_undeployment(args: Arguments) -> int:
    """As the Pact Broker's client does, without a version: of what is deployed in the instance."""
    pacticipant, environment = named(args, "pacticipant", "environment")
    broker = broker_of(args, pacticipant)
    found = broker.environment(environment).version_in(pacticipant, args.instance or "")
    if found is None:
        raise Stop(f"no version of {shown(pacticipant)} is deployed there in this instance")
    Change(args, [pacticipant, found, environment], broker).undeploy(args.instance, False)
    return DONE


def release(args: Arguments) -> int:
    it = Change(args, named(args, "pacticipant", "version", "environment"))
    try:
        with it.on_its_way(it.place(None)):
            said = it.broker.release(it.pacticipant, it.version, it.environment)
    except NotPermitted as why:
        return it.refused(why, it.place(None))
    it.told("is released in" if said.is_new else "was released already in", it.place(None))
    return DONE


def end_support(args: Arguments) -> int:
    it = Change(args, named(args, "pacticipant", "version", "environment"))
    with it.on_its_way(it.place(None)):
        it.broker.end_support(it.pacticipant, it.version, it.environment)
    it.told("is no longer released in", it.place(None))
    return DONE
