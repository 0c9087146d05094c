"""`holzhebo`: which command, its words, and how it ends."""
import contextlib, importlib, io, os, signal, sys
from typing import List, Optional, Tuple

from holzhebo import VERSION
from holzhebo.cli.commands import COMMANDS
from holzhebo.cli.parser import COMMON, SPELLINGS, Arguments, Command, Parser
from holzhebo.faults import DONE, UNDONE, USAGE, Stop
from holzhebo.text import note, shown, tell

ABOUT = "Asks a broker of consumer contracts, for builds and for people"
AFTER = """\
Example: holzhebo can-i-deploy shop 1.4.2 live

The token is never a word of a command line. What may be sent twice is sent again while the broker is restarted: on 502,
503, 504, a refused or a closed connection; and all of it if nothing was sent, or a proxy answers 429.
Each command ends with a status. 0: done, passed, permitted. 1: failed, refused, not permitted.
2: invalid command line. 3: it couldn't be done; one line on standard error says why."""
EPIPE, TERMINATED = 141, 143


def get_parser() -> Parser:
    """The whole command line, for the man page and the completions."""
    parser = Parser(prog="holzhebo", description=ABOUT, epilog=AFTER)
    parser.add_argument("-V", "--version", action="version", version=f"holzhebo {VERSION}")
    subparsers = parser.add_subparsers(metavar="COMMAND", title="commands", parser_class=Parser)
    for it in COMMANDS.values():
        it.fill_in(subparsers.add_parser(it.name, help=it.about))
    return parser


def parser_of(command: Command) -> Parser:
    parser = Parser(prog=f"holzhebo {command.name}")
    command.fill_in(parser)
    return parser


def split(words: List[str]) -> Tuple[Optional[str], List[str]]:
    """The command, and the other words; options that all commands have may come before it."""
    spellings = {other: name for name, others in SPELLINGS.items() for other in others}
    at = 0
    while at < len(words) and words[at].startswith("-"):
        name, equals, _ = words[at].partition("=")
        how = COMMON.get(spellings.get(name, name))
        if how is None:
            return None, words
        at += 1 if equals or "action" in how else 2
    return (words[at], words[:at] + words[at + 1 :]) if at < len(words) else (None, words)


def usage(why: str) -> int:
    print(f"error: {why}\n\nFor more information, try '--help'.", file=sys.stderr)
    return USAGE


def run(words: List[str]) -> int:
    try:
        words = [os.fsencode(it).decode() for it in words]
    except (UnicodeDecodeError, UnicodeEncodeError):
        return usage("a word of the command line isn't UTF-8")
    if words[:1] in ([], ["help"], ["-h"], ["--help"]):
        if not words[1:]:
            tell(get_parser().format_help().rstrip("\n"))
            return DONE if words else USAGE
        words = [words[1], "--help"]
    if words[0] in ("-V", "--version"):
        tell(f"holzhebo {VERSION}")
        return DONE
    name, rest = split(words)
    if name is None:
        return usage(f"there is no command: {shown(' '.join(words[:1]))} is none, and no option of all commands")
    if name not in COMMANDS:
        return usage(f"there is no command {shown(name)}")
    command = COMMANDS[name]
    args = parser_of(command).parse_intermixed_args(rest, Arguments(command=name))
    return attempt(command, args)


def attempt(command: Command, args: Arguments) -> int:
    module, _, function = command.place.partition(":")
    try:
        if getattr(args, "token_word", None) is not None:
            raise Stop("the token is never a word of a command line: give --token-file or HOLZHEBO_TOKEN", status=USAGE)
        args.json = getattr(args, "json", False) or getattr(args, "output", None) == "json"
        status: int = getattr(importlib.import_module(f"holzhebo.cli.{module}"), function)(args)
        return status
    except Stop as why:
        if args.json and why.answer is not None:
            from holzhebo.pact.json import compact

            tell(compact(why.answer))
        note(str(why))
        return why.status


def end(*_: object) -> None:
    """Ends the program as SIGTERM asks, by which builds are cancelled: what was done is still said."""
    sys.exit(TERMINATED)


def main() -> int:
    with contextlib.suppress(ValueError):  # only the first thread may
        signal.signal(signal.SIGTERM, end)
    for stream in sys.stdout, sys.stderr:
        if isinstance(stream, io.TextIOWrapper):
            stream.reconfigure(errors="backslashreplace")
    try:
        return run(sys.argv[1:])
    except BrokenPipeError:
        os.dup2(os.open(os.devnull, os.O_WRONLY), sys.stdout.fileno())
        return EPIPE
    except KeyboardInterrupt:
        return 130
    except Exception as why:  # a fault of this program, which is no verdict
        if os.environ.get("HOLZHEBO_TRACEBACK"):
            sys.excepthook(*sys.exc_info())
        note(f"a fault of this program, which is no verdict: {type(why).__name__}: {shown(why)}")
        return UNDONE
