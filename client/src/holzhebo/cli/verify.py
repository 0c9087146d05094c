"""verify, check, fetch and result."""
import hashlib, json, os
from typing import List

from holzhebo.api import Broker
from holzhebo.api.broker import segment
from holzhebo.cli.context import broker_of, tell_json
from holzhebo.cli.parser import Arguments
from holzhebo.cli.publish import sent_of, sides_of
from holzhebo.faults import DONE, NO, UNDONE, Json, Stop
from holzhebo.files import read_file, write_file
from holzhebo.pact.json import NotJson, compact, member, read_json
from holzhebo.pact.program import program_at
from holzhebo.text import counted, listed, note, shown, tell, tell_table
from holzhebo.verify.contracts import Contract, Wanted, contracts_of, run_of
from holzhebo.verify.provider import Played, Provider
from holzhebo.verify.session import NOT_JUDGED, NOT_SENT, Session, Verdict, left_out, replies_of, status_of
from holzhebo.verify.session import verdict_json


def wanted_of(args: Arguments) -> Wanted:
    versions = [(consumer, version) for consumer, version in args.contract]
    found = Wanted(args.provider, args.environment, versions, args.branch, args.consumer)
    found.test()
    return found


class Reports:
    """Files beside the verdicts. One that can't be written is said, and stops nothing."""

    def __init__(self, args: Arguments) -> None:
        self.args, self.are_whole = args, True

    def write(self, path: str, text: str) -> None:
        try:
            write_file(path, text)
        except Stop as why:
            note(str(why))
            self.are_whole = False

    def record(self, contract: Contract, played: List[Played]) -> None:
        """Files for `broker check` and `holzhebo check`: the contract and the replies to it."""
        if self.args.record is not None:
            name = os.path.join(self.args.record, f"{segment(contract.consumer)[:60]}-{contract.digest()}")
            self.write(f"{name}.pact.json", contract.text)
            self.write(f"{name}.replies.json", json.dumps({"replies": replies_of(played)}, ensure_ascii=False))

    def end(self, verdicts: List[Verdict], ended_by: str) -> None:
        if self.args.junit is not None:
            from holzhebo.verify.junit import junit

            self.write(self.args.junit, junit(verdicts, ended_by))
        if self.args.json and (verdicts or not ended_by):
            tell_json([verdict_json(it) for it in verdicts])


def verify(args: Arguments) -> int:
    wanted, verdicts, ended_by = wanted_of(args), [], "it was interrupted"  # type: Wanted, List[Verdict], str
    reports = Reports(args)
    try:
        status = verify_each(args, wanted, verdicts, reports)
        ended_by = ""
    except Stop as why:
        ended_by = str(why)
        raise
    finally:
        reports.end(verdicts, ended_by)
    return status if reports.are_whole else status or UNDONE


def verify_each(args: Arguments, wanted: Wanted, verdicts: List[Verdict], reports: Reports) -> int:
    """Plays and sends one contract after another, and says of each what became of it."""
    broker = broker_of(args)
    how = (args.states_url, args.states_teardown, args.ignore_states, args.header_file, args.ready)
    provider = Provider(args.url, args.timeout, *how)
    search = contracts_of(broker, wanted)
    session = Session(broker, provider, args.version, args.run, args.jobs, args.filter, program_at(args.program))
    for name, why in search.failed:
        verdicts.append(Verdict(name, None, [], NOT_SENT, None, why))
        tell_verdict(args, verdicts[-1])
    for it in session.verdicts(list(search.found.values()), reports.record):
        verdicts.append(it)
        tell_verdict(args, it)
    if not search.found and not verdicts:
        if not args.json:
            tell(f"there is no contract with {shown(wanted.provider)}")
        return UNDONE if args.fail_if_none else DONE
    if not verdicts:
        raise Stop(f"no interaction has {shown(args.filter)} in its description")
    tell_end(args, verdicts)
    return status_of(verdicts)


def tell_end(args: Arguments, verdicts: List[Verdict]) -> None:
    """Says at the end which contracts have a result and which haven't, if one hasn't."""
    sent = [it for it in verdicts if it.result is not None]
    if len(sent) < len(verdicts) and len(verdicts) > 1 and not args.json:
        unjudged = [it.name for it in verdicts if it.outcome == NOT_JUDGED]
        left = [it.name for it in verdicts if it.result is None and it.outcome != NOT_JUDGED]
        lists = {"not sent": left, NOT_JUDGED: unjudged}
        more = "".join(f"; {what}: {listed(names)}" for what, names in lists.items() if names)
        tell(f"sent: {len(sent)} of {counted(len(verdicts), 'contract')}{more}")
    for it in verdicts:
        if it.disagrees:
            note(f"{it.name}: the broker and this client disagree; the broker's verdict counts")


def tell_verdict(args: Arguments, verdict: Verdict) -> None:
    if args.json:
        return
    number = f", result {verdict.result}" if verdict.result is not None else ""
    why = f": {verdict.why}" if verdict.why else ""
    places = f" ({listed(verdict.contract.places)})" if verdict.contract else ""
    tell(f"{verdict.name}{places}: {verdict.outcome}{number}{why}")
    tell_played(verdict.played)
    gone = left_out(verdict)
    if gone:
        more = f", and {len(gone) - 5} more" if gone[5:] else ""
        why = "left out, since the contract doesn't ask for it and the broker can't take it"
        tell(f"  {why}: {'; '.join(gone[:5])}{more}")


def tell_played(played: List[Played]) -> None:
    """A line an interaction; below one that differs in several places, the others."""
    from holzhebo.verify.junit import title

    if not any(it.lines[1:] for it in played):
        tell_table([[it.outcome, title(it.interaction), shown(it.why)] for it in played], "  ")
        return
    for it in played:
        tell_table([[it.outcome, title(it.interaction), shown(it.why)]], "  ")
        for line in it.lines[1:]:
            tell(f"      {line}")


# check


def check(args: Arguments) -> int:
    return check_content(args, args.contract, sent_of(args.contract, False)[0])


def check_content(args: Arguments, pact: str, content: bytes) -> int:
    """Recorded replies beside what is published of a pact file: by the program if there is one, else as this client
    reads the rules."""
    from holzhebo.verify.check import contract_in, paired, replies_in
    from holzhebo.verify.differs import explained

    program, interactions = program_at(args.program), contract_in(content, pact)
    given = read_file(args.replies)
    pairs = paired(
        json.loads(program.normal(content))["interactions"] if program else interactions, replies_in(given, args.replies)
    )
    failing = program.failing(content.decode(), given.decode()) if program else None
    played, disagrees = [], False
    for at, (one, reply) in enumerate(pairs):
        own = explained(one, reply, True) if reply is not None else None
        fails = at in failing if failing is not None else own is None or bool(own.lines) and not is_silent(own.lines)
        found = explained(one, reply, fails) if reply is not None else None
        lines = found.lines if found else ["no reply is recorded"]
        disagrees = disagrees or bool(found and found.disagrees and program)
        played.append(Played(one, "failed" if fails else "passed", reply, (lines or [""])[0], lines))
    if args.json:
        rows = [
            {"description": it.interaction["description"], "outcome": it.outcome, "differences": it.lines}
            for it in played
        ]
        tell_json(rows)
    else:
        tell_played(played)
        tell("by the program" if program else "as this client reads the rules; --program asks the program")
    if disagrees:
        note("the program and this client disagree; the program's verdict counts")
        return UNDONE
    return NO if any(it.outcome == "failed" for it in played) else DONE


def is_silent(lines: List[str]) -> bool:
    """Whether nothing differs that this client is sure of, or nearly so."""
    return lines[0].startswith("the broker says it fails; this client finds no difference")


# fetch and result


LIST = ".holzhebo-files"  # no file of JSON, since a library reads those of a folder


def fetch(args: Arguments) -> int:
    """Writes the contracts, with a list of the files; those that an earlier list has and this one hasn't go."""
    wanted = wanted_of(args)
    search = contracts_of(broker_of(args), wanted)
    contracts, names = list(search.found.values()), []
    if search.failed:
        raise Stop("; ".join(f"{name}: {why}" for name, why in search.failed))
    place = os.path.join(args.into, LIST)
    before = listed_in(place)
    write_file(place, compact(sorted({*before, *map(name_of, contracts)})) + "\n")
    for it in contracts:
        names.append(name_of(it))
        own = {"consumerVersion": it.versions[0]} if it.versions else {}
        metadata = {"pactSpecification": {"version": "3.0.0"}, "holzhebo": own}
        pact = {"metadata": metadata, **json.loads(it.text)}
        write_file(os.path.join(args.into, names[-1]), json.dumps(pact, ensure_ascii=False, indent=2) + "\n")
    for name in before:
        if name not in names and os.path.exists(os.path.join(args.into, name)):
            os.remove(os.path.join(args.into, name))
    write_file(place, compact(sorted(names)) + "\n")
    files = [os.path.join(args.into, it) for it in names]
    if args.json:
        tell_json([{**it._asdict(), "text": None, "file": file} for file, it in zip(files, contracts)])
    for file, it in zip([] if args.json else files, contracts):
        tell(f"{shown(file)}: {it.name()} ({listed(it.places)})")
    return UNDONE if args.fail_if_none and not contracts else DONE


def name_of(it: Contract) -> str:
    return f"{segment(it.consumer)[:60]}-{segment(it.provider)[:60]}-{it.digest()}.json"


def listed_in(place: str) -> List[str]:
    """The names of files that an earlier fetch wrote."""
    if not os.path.exists(place):
        return []
    try:
        found = read_json(read_file(place))
    except NotJson:
        found = None
    if not isinstance(found, list) or not all(isinstance(it, str) and os.path.basename(it) == it for it in found):
        raise Stop(f"{shown(place)} isn't the list of an earlier fetch: give another folder")
    return found


def fetched(paths: List[str]) -> List[str]:
    """The files; of a folder those that the last fetch wrote there."""
    found = []
    for path in paths:
        is_folder = os.path.isdir(path)
        if is_folder and not os.path.exists(os.path.join(path, LIST)):
            raise Stop(f"{shown(path)} has no {LIST}: fetch writes it")
        found += [os.path.join(path, it) for it in listed_in(os.path.join(path, LIST))] if is_folder else [path]
    return found


def result(args: Arguments) -> int:
    """Claims one result after another; one that can't be sent doesn't stop the others."""
    broker, told, files = broker_of(args), [], fetched(args.file)  # type: Broker, List[Json], List[str]
    try:
        for path in files:
            try:
                told.append(send_result(broker, args, path))
                tell_claimed(args, path, told[-1])
            except Stop as why:
                told.append({"answer": NOT_SENT, "file": path, "why": str(why)})
                names_it = len(files) == 1 or str(why).startswith(shown(path))
                note(str(why) if names_it else f"{shown(path)}: {why}")
    finally:  # if it is interrupted, nobody knows whether the one on its way is stored
        for at, path in enumerate(files[len(told) :]):
            told.append({"answer": NOT_SENT if at else "not known", "file": path, "why": "it was interrupted"})
            note(f"{shown(path)}: {told[-1]['answer']}: it was interrupted")
        if args.json:
            tell_json(told)
    return UNDONE if any(it["answer"] == NOT_SENT for it in told) else DONE


def tell_claimed(args: Arguments, path: str, said: Json) -> None:
    line = f"{args.outcome} is claimed, result {said['result']}"
    if said["answer"] == "already":
        line = f"{args.outcome} was claimed by this run before, as result {said['result']}: a later result counts"
    if not args.json:
        tell(f"{shown(path)}: {line}")


def send_result(broker: Broker, args: Arguments, path: str) -> Json:
    """Claims the result of a fetched file."""
    content = read_file(path)
    names = sides_of(content)
    file = read_json(content) if names else {}
    version = member(member(member(file, "metadata"), "holzhebo"), "consumerVersion")
    if names is None or not isinstance(version, str):
        raise Stop(f"{shown(path)} doesn't say whose contract it is: fetch it by --for or --contract")
    text = compact({key: it for key, it in file.items() if key != "metadata"})
    run = run_of(args.run, hashlib.sha256(text.encode()).hexdigest()[:16])
    with broker.one_of_several():
        said = broker.claim(names[0], version, names[1], args.version, args.outcome == "pass", run)
    return {"answer": said.answer, "result": said.result}
