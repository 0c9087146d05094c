"""publish, register, explain and check."""
import glob, os
from typing import List, NamedTuple, Optional, Tuple

from holzhebo.api.broker import Broker, Refused
from holzhebo.cli.context import broker_of, tell_json
from holzhebo.cli.parser import Arguments, Parser, named
from holzhebo.faults import DONE, NO, UNDONE, USAGE, Json, Stop
from holzhebo.files import read_file
from holzhebo.pact.faults import findings_of, is_name
from holzhebo.pact.findings import Findings
from holzhebo.pact.json import NotJson, member, read_json
from holzhebo.pact.plain import plain
from holzhebo.pact.program import Program, program_at, with_first
from holzhebo.pact.rules import is_surely_refused
from holzhebo.text import counted, note, shown, tell


def tell_findings(found: Findings, indent: str = "") -> None:
    for fault in found.faults:
        tell(f"{indent}{shown(fault.line)}  {fault.path}")
        tell(f"{indent}    {fault.what}")
        tell(f"{indent}    {fault.remedy}")
    if found.unjudged:
        what = f"{counted(len(found.unjudged), 'pattern')}: only the program knows whether it takes them"
        tell(f"{indent}not judged  {what}: give --program")
    for path, why in found.idle:
        tell(f"{indent}no effect  {path}")
        tell(f"{indent}    {why}")


def findings_json(found: Findings, left_out: List[str]) -> Json:
    unjudged = [{"path": path, "pattern": pattern} for path, pattern in found.unjudged]
    idle = [path for path, _ in found.idle]
    return {
        "faults": [it._asdict() for it in found.faults],
        "notJudged": unjudged,
        "noEffect": idle,
        "leftOut": left_out,
    }


def found_in(content: bytes, program: Optional[Program]) -> Findings:
    found = findings_of(content, program.judge if program else is_surely_refused)
    with_first(found, program.fault(content) if program else None)
    return found


def tell_left_out(left_out: List[str], indent: str) -> None:
    if left_out:
        more = f", and {len(left_out) - 3} more" if left_out[3:] else ""
        tell(f"{indent}written for the broker: {'; '.join(left_out[:3])}{more} (--as-it-is sends the file's bytes)")


def sent_of(path: str, as_it_is: bool) -> Tuple[bytes, List[str]]:
    """What of a file is sent, and what was left out of it."""
    whole = read_file(path)
    return (whole, []) if as_it_is else plain(whole)


def explain(args: Arguments) -> int:
    if args.replies is not None and len(set(args.pact)) != 1:
        raise Stop("--replies are to one pact file", status=USAGE)
    program, files, has_fault, paths = program_at(args.program), {}, False, list(dict.fromkeys(args.pact))
    for path in paths:
        try:
            content, left_out = sent_of(path, args.as_it_is)
        except Stop as why:
            note(str(why))
            continue
        found = found_in(content, program)
        files[path] = findings_json(found, left_out)
        has_fault = has_fault or bool(found.faults)
        if not args.json:
            tell(f"{shown(path)}: {counted(len(found.faults), 'fault') if found.faults else 'no fault is found'}")
            tell_findings(found, "  ")
            tell_left_out(left_out, "  ")
    if args.json:
        tell_json(files)
    status = NO if has_fault else UNDONE if len(files) < len(paths) else DONE
    if args.replies is None or status != DONE:
        return status
    from holzhebo.cli.verify import check_content

    return check_content(args, path, content)


# publish


class Publication(NamedTuple):
    """What became of a file."""

    path: str
    outcome: str  # new, known, refused, or not sent
    sides: str
    why: str
    found: Optional[Findings]


class File(NamedTuple):
    """A pact file that is to be published: what of it is sent, whose contract it is, and its faults."""

    path: str
    content: bytes
    names: Optional[Tuple[str, str]]
    found: Findings
    left_out: List[str]

    def sides(self, version: str) -> str:
        return f"{shown(self.names[0])} {shown(version)} with {shown(self.names[1])}" if self.names else ""


def sides_of(content: bytes) -> Optional[Tuple[str, str]]:
    """The consumer and the provider that a pact file names."""
    try:
        file = read_json(content)
    except NotJson:
        return None
    names = [member(member(file, side), "name") for side in ("consumer", "provider")]
    return (names[0], names[1]) if all(isinstance(it, str) and is_name(it) for it in names) else None


def files_in(paths: List[str]) -> List[str]:
    """The files; of a folder its files of JSON."""
    found: List[str] = []
    for path in paths:
        inner = sorted(glob.glob(os.path.join(glob.escape(path), "*.json"))) if os.path.isdir(path) else [path]
        if not inner:
            raise Stop(f"{shown(path)} has no file of JSON")
        found += inner
    return list(dict.fromkeys(found))


def looked_at(path: str, program: Optional[Program], as_it_is: bool) -> File:
    content, left_out = sent_of(path, as_it_is)
    return File(path, content, sides_of(content), found_in(content, program), left_out)


def refused(it: File, version: str, line: Optional[str], why: str) -> Publication:
    """A refused file, with its faults if it was refused for one."""
    found = None
    if line is None or line.startswith("pact "):
        found = it.found
        with_first(found, line)
        why = f"it has {counted(len(found.faults), 'fault')}"
    return Publication(it.path, "refused", it.sides(version), why, found)


def publish_file(broker: Broker, it: File, version: str) -> Publication:
    assert it.names is not None
    sides = it.sides(version)
    try:
        with broker.one_of_several():
            said = broker.publish(it.names[0], version, it.names[1], it.content)
    except Refused as why:
        fault = member(why.answer, "fault")
        if why.http_status in (409, 413, 422):
            return refused(it, version, fault if isinstance(fault, str) else "", str(why))
        return Publication(it.path, "not sent", sides, which_of(broker, it.names, why), None)
    except Stop as why:
        return Publication(it.path, "not sent", sides, str(why), None)
    return Publication(it.path, "new" if said.is_new else "known", sides, f"content {said.content}", None)


def which_of(broker: Broker, names: Tuple[str, str], why: Refused) -> str:
    """Which of the two pacticipants the broker doesn't know."""
    if why.is_unknown("pacticipant"):
        try:
            unknown = [shown(it) for it in names if not broker.knows_pacticipant(it)]
        except Stop:
            unknown = []
        if unknown:
            return f"the broker doesn't know the pacticipant {' and '.join(unknown)}"
    return str(why)


def publish(args: Arguments) -> int:
    """Looks at all files before the first is sent: a version with half of its contracts would pass the gate."""
    words = list(args.word)
    version = args.version if args.version is not None else words.pop(0)
    if not words:
        Parser(prog="holzhebo publish").error("the following arguments are required: PACT")
    broker, program = broker_of(args), program_at(args.program)
    files = [looked_at(path, program, args.as_it_is) for path in files_in(words)]
    clashes = {it.path: clash_of(files[:at], it) for at, it in enumerate(files)}
    if any(it.found.faults or clashes[it.path] for it in files):
        tell_all(args, [unsent(it, version, clashes[it.path]) for it in files], files)
        return NO
    if args.branch is not None:
        for consumer in sorted({it.names[0] for it in files if it.names}):
            broker.name_version(consumer, version, args.branch)
    done: List[Publication] = []
    try:
        for it in files:
            done.append(publish_file(broker, it, version))
    finally:  # if it is interrupted, nobody knows whether the file on its way is stored
        for at, it in enumerate(files[len(done) :]):
            outcome = "not sent" if at else "not known"
            done.append(Publication(it.path, outcome, it.sides(version), "it was interrupted", None))
        tell_all(args, done, files)
    outcomes = {it.outcome for it in done}
    return UNDONE if "not sent" in outcomes else NO if "refused" in outcomes else DONE


def clash_of(before: List[File], it: File) -> str:
    """Which of the files before is another contract of the same two, since a version has one."""
    found = [other.path for other in before if it.names and other.names == it.names and other.content != it.content]
    return f"{shown(found[0])} is another contract of the same two, and a version has one" if found else ""


def unsent(it: File, version: str, clash: str) -> Publication:
    """What becomes of a file if one of them is refused before anything is sent."""
    if it.found.faults or it.names is None:
        return refused(it, version, None, "")
    if clash:
        return Publication(it.path, "refused", it.sides(version), clash, None)
    return Publication(it.path, "not sent", it.sides(version), "another file is refused, and nothing is sent", None)


def tell_all(args: Arguments, done: List[Publication], files: List[File]) -> None:
    if args.json:
        rows = [
            {**it._asdict(), "found": findings_json(it.found, file.left_out) if it.found else None}
            for it, file in zip(done, files)
        ]
        tell_json(rows)
        return
    for it, file in zip(done, files):
        tell(f"{it.outcome:8}  {shown(it.path)}: {it.sides}{': ' if it.sides else ''}{it.why}")
        if it.found:
            tell_findings(it.found, "    ")
        tell_left_out(file.left_out, "    ")
    standing = [it for it in done if it.outcome in ("new", "known")]
    if len(standing) < len(done):
        tell(f"stored, and this stays: {len(standing)} of {counted(len(done), 'contract')}")


def register(args: Arguments) -> int:
    pacticipant, version = named(args, "pacticipant", "version")
    broker = broker_of(args)
    said = broker.name_version(pacticipant, version, args.branch)
    what = f"{shown(pacticipant)} {shown(version)}"
    tell(broker.last.text() if args.json and broker.last else f"{what} is {'new' if said.is_new else 'known'}")
    return DONE
