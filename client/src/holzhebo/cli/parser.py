"""What the commands' words have in common."""
import argparse, os, sys
from typing import Any, Callable, Dict, List, NamedTuple, NoReturn

from holzhebo.faults import USAGE
from holzhebo.text import shown

Arguments = argparse.Namespace


def given(text: str) -> str:
    if not text:
        raise argparse.ArgumentTypeError("it is empty")
    return text


class Parser(argparse.ArgumentParser):
    """The parser of a command's words; what is wrong with them ends the program with 2."""

    def __init__(self, **how: Any) -> None:
        how.setdefault("formatter_class", argparse.RawDescriptionHelpFormatter)
        super().__init__(**how, allow_abbrev=False)

    def add_argument(self, *names: Any, **how: Any) -> argparse.Action:
        """Adds a word or an option. None may be empty, as a variable that isn't set makes it, unless its type is
        another."""
        if how.get("action", "append") == "append":
            how.setdefault("type", given)
        return super().add_argument(*names, **how)

    def error(self, message: str) -> NoReturn:
        print(f"error: {shown(message)}\n\nFor more information, try '--help'.", file=sys.stderr)
        sys.exit(USAGE)


class Command(NamedTuple):
    """A command: its name, what it is for, its words and options, where it is done, and its example and statuses."""

    name: str
    about: str
    fill: Callable[[Parser], None]
    place: str  # the module below holzhebo.cli, and the function in it
    after: str

    def fill_in(self, parser: argparse.ArgumentParser) -> None:
        parser.description, parser.epilog = self.about, self.after
        self.fill(parser)  # type: ignore[arg-type]


def seconds(text: str) -> float:
    value = float(text)
    if not 0 <= value <= 86400:
        raise ValueError
    return value


def some_seconds(text: str) -> float:
    value = seconds(text)
    if value == 0:
        raise ValueError
    return value


def number(text: str) -> int:
    value = int(text)
    if not 1 <= value <= 64:
        raise ValueError
    return value


def size(text: str) -> int:
    value = int(text)
    if not 1 <= value < 2**63:
        raise ValueError
    return value


def count(text: str) -> int:
    value = int(text)
    if not 0 <= value < 2**63:
        raise ValueError
    return value


def port(text: str) -> int:
    value = int(text)
    if not 1 <= value <= 65535:
        raise ValueError
    return value


def moment(text: str) -> Any:
    from holzhebo.proxy.log import moment as read

    return read(text)


def several(parser: Parser, name: str, value: Any, text: str, into: str = "") -> None:
    """An option that may be given several times."""
    how: Dict[str, Any] = {"nargs": len(value)} if isinstance(value, tuple) else {}
    how["dest"] = into or name.replace("-", "_")
    parser.add_argument(f"--{name}", action="append", default=[], metavar=value, help=f"{text} (several times)", **how)


# Words and options that several commands have. Those of `COMMON` may also come before the command.
COMMON: Dict[str, Dict[str, Any]] = {
    "--broker": {"metavar": "URL", "help": "The broker's address or its name in the configuration; or HOLZHEBO_BROKER"},
    "--token-file": {"metavar": "FILE", "help": "A file with the token, or HOLZHEBO_TOKEN_FILE; or HOLZHEBO_TOKEN"},
    "--patience": {"metavar": "SECONDS", "type": seconds, "help": "How long a broker that doesn't answer is asked"
                   " again; 60 if not given, or HOLZHEBO_PATIENCE"},
    "--cacert": {"metavar": "FILE", "help": "Certificates that are trusted beside the system's"},
    "--plain": {"action": "store_true", "help": "Send the token over http to another machine"},
    "--json": {"action": "store_true", "help": "Print JSON"},
}  # fmt: skip
SPELLINGS = {"--broker": ["-b", "--broker-base-url"]}  # those of the Pact Broker's client


def asks(parser: Parser) -> None:
    """The options of a command that asks the broker."""
    for name, how in COMMON.items():
        parser.add_argument(name, *SPELLINGS.get(name, []), **how)
    refused = {"dest": "token_word", "metavar": "TOKEN", "help": argparse.SUPPRESS}
    parser.add_argument("-k", "--broker-token", **refused)
    parser.add_argument("-o", "--output", choices=["json", "table"], help=argparse.SUPPRESS)


def says_json(parser: Parser) -> None:
    parser.add_argument("--json", **COMMON["--json"])


def lists(parser: Parser) -> None:
    """An option of a command that prints a list."""
    text = "Print each item so, as '{pacticipant} {version}'; \\t and \\n are a tab and a new line"
    parser.add_argument("--format", metavar="TEXT", type=str, help=text)


def which(parser: Parser) -> None:
    """Which contracts of a provider."""
    parser.add_argument("--provider", metavar="PROVIDER", required=True, help="The provider's name")
    several(parser, "for", "ENVIRONMENT", "Contracts of what is deployed or released there", "environment")
    several(parser, "contract", ("CONSUMER", "VERSION"), "The contract of this version")
    several(parser, "branch", "BRANCH", "The newest contract of each consumer on this branch")
    several(parser, "consumer", "CONSUMER", "A consumer to look for on the branches")
    parser.add_argument("--fail-if-none", action="store_true", help="End with 3 if there is no contract")


def names(parser: Parser, *words: str) -> None:
    """Names as words, or by the options of the Pact Broker's client."""
    options = {
        "pacticipant": (["-a", "--pacticipant"], "The pacticipant's name"),
        "version": (["-e", "--version"], "The version's name"),
        "environment": (["--environment", "--to-environment"], "The environment's name"),
    }
    for word in words:
        spellings, text = options[word]
        parser.add_argument(word, metavar=word.upper(), nargs="?", help=text)
        parser.add_argument(*spellings, dest=f"{word}_option", metavar=word.upper(), help=argparse.SUPPRESS)


def named(args: Arguments, *words: str) -> List[str]:
    """The names that are given, as words in their order or by options; each exactly once."""
    given = [it for word in words for it in [getattr(args, word)] if it is not None]
    found = []
    for word in words:
        by_option = getattr(args, f"{word}_option")
        if by_option is None and not given:
            Parser(prog="holzhebo").error(f"the following arguments are required: {word.upper()}")
        found.append(by_option if by_option is not None else given.pop(0))
    if given:
        Parser(prog="holzhebo").error(f"unrecognized arguments: {' '.join(given)}")
    return found


def environ(name: str, other: str = "") -> str:
    """A variable of the environment, which may also have the name that the Pact Broker's client gives it."""
    return os.environ.get(name, "") or (os.environ.get(other, "") if other else "")
