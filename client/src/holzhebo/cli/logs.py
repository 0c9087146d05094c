"""who and report: what needs no broker."""
import os, sqlite3, sys

from holzhebo.cli.context import tell_json, tell_rows
from holzhebo.cli.parser import Arguments
from holzhebo.faults import DONE, NO, USAGE, Stop
from holzhebo.files import replace_file
from holzhebo.proxy.log import change_of, logs_of, requests_of
from holzhebo.text import note, shown, tell

# The page's desk.json, where the package of Debian has it.
NAMES = "/etc/holzhebo/desk.json"
# The fields of what is done in an environment; the log may not have the last ones.
FIELDS = ("time", "team", "change", "pacticipant", "version", "instance")


def who(args: Arguments) -> int:
    if args.page is not None:
        from holzhebo.proxy.page import write_who

        return write_who(args.page, requests_of(logs_of(args.log, True)))
    if args.environment is None and args.since is None:
        raise Stop("what: give an environment, --since or --page", status=USAGE)
    rows, first = [], ""
    for it in requests_of(logs_of(args.log, True)):
        first = first or it.time
        is_wanted = it.status == (409 if args.refused else 200) and it.method != "GET"
        is_change = is_wanted and (args.since is None or it.at >= args.since)
        told = change_of(it, args.environment) if is_change else {}
        if not told:
            continue
        if args.json or args.format is not None:
            rows.append(told)
        else:
            tell(shown(" ".join(text for text in told.values() if text)))
    if args.json:
        tell_json(rows)
    elif args.format is not None:
        fields = dict.fromkeys(FIELDS if args.environment is not None else (), "")
        tell_rows(args, [{**fields, **it} for it in rows])
    if not args.log:
        note(f"the log that is there begins at {shown(first)}" if first else "the log that is there has no request")
    return DONE


def written(args: Arguments, text: str) -> int:
    """Prints a text, or puts it in the place of a file at once."""
    if args.output is None:
        tell(text)
    else:
        replace_file(args.output, (text + "\n").encode())
    return DONE


def report(args: Arguments) -> int:
    from holzhebo.report.copy import Refused
    from holzhebo.report.page import report as made

    paths = [args.copy, *([args.earlier] if args.earlier is not None else [])]
    names = args.names or (NAMES if os.path.exists(NAMES) else None)
    try:
        text = made(paths, args.json, names).rstrip("\n")
    except (Refused, OSError, sqlite3.Error) as why:
        note(shown(why))
        return NO
    if args.output is not None:
        return written(args, text)
    sys.stdout.flush()
    sys.stdout.buffer.write((text + "\n").encode())
    sys.stdout.buffer.flush()
    return DONE
