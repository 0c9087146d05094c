"""The broker that a command asks: by its options, the environment, and ~/.config/holzhebo/config.ini."""
import atexit, os, re
from typing import Callable, Dict, List, Optional, Sequence

from holzhebo.api.address import Address, Way, proxy_of
from holzhebo.api.broker import Broker, segment
from holzhebo.api.token import token_in
from holzhebo.cli.parser import Arguments, environ
from holzhebo.faults import USAGE, Json, Stop
from holzhebo.files import read_text
from holzhebo.pact.json import compact
from holzhebo.text import shown, table, tell


def config_path() -> str:
    folder = os.environ.get("XDG_CONFIG_HOME") or os.path.expanduser("~/.config")
    return os.path.join(folder, "holzhebo", "config.ini")


def config_of(name: Optional[str]) -> Dict[str, str]:
    """What the configuration says of the broker of this name; of its default one, if none is named."""
    path = config_path()
    if not os.path.exists(path):
        return {}
    import configparser

    found = configparser.ConfigParser(interpolation=None)
    try:
        found.read_string(read_text(path), path)
    except configparser.Error as why:
        raise Stop(f"{shown(path)}: {shown(str(why).splitlines()[0])}") from None
    name = name or found.get("holzhebo", "default", fallback=None)
    if name is None or not found.has_section(name):
        return {}
    known = {"url", "token-file", "tokens", "cacert", "plain", "patience"}
    unknown = sorted(set(found[name]) - known)
    if unknown:
        raise Stop(f"{shown(path)}: [{shown(name)}] has {shown(unknown[0])}, and not {', '.join(sorted(known))}")
    return {**dict(found[name]), "": name}


def url_and_config(args: Arguments) -> "tuple[str, Dict[str, str]]":
    given = args.broker or environ("HOLZHEBO_BROKER", "PACT_BROKER_BASE_URL")
    config = config_of(given or None) if "://" not in given else {}
    url = config.get("url", given if not config else "")
    if not url:
        raise Stop("no broker: give --broker or HOLZHEBO_BROKER, as https://broker.example.org")
    return url, config


def file_in(config: Dict[str, str], key: str) -> Optional[str]:
    """A file that the configuration names, perhaps by ~."""
    return os.path.expanduser(config[key]) if key in config else None


def token_of(args: Arguments, config: Dict[str, str]) -> str:
    """The caller's token, from a file or from the environment."""
    own = file_in(config, "token-file")
    path = args.token_file or (None if args.broker and own else environ("HOLZHEBO_TOKEN_FILE")) or own
    text = read_text(path) if path else environ("HOLZHEBO_TOKEN", "PACT_BROKER_TOKEN")
    if not text.strip():
        raise Stop("no token: give --token-file, HOLZHEBO_TOKEN_FILE or HOLZHEBO_TOKEN")
    return token_in(text)


def patience_of(args: Arguments, config: Dict[str, str]) -> float:
    text = config.get("patience", environ("HOLZHEBO_PATIENCE") or "60")
    if args.patience is not None:
        return float(args.patience)
    if not re.fullmatch(r"[0-9]{1,5}(\.[0-9]+)?", text):
        raise Stop(f"patience: {shown(text)} is no number of seconds")
    return float(text)


def brokers_of(args: Arguments, owned: Optional[str] = None) -> Callable[[], Broker]:
    """What makes the broker, with a connection of its own each time. For what only the owner of a pacticipant may do,
    the token is that of the pacticipant, if the configuration has a folder of these. Files are read now and not again,
    since one of a shell's <(..) can be read only once."""
    url, config = url_and_config(args)
    cacert = args.cacert or file_in(config, "cacert") or os.environ.get("HOLZHEBO_CACERT")
    is_plain = args.plain or config.get("plain") == "yes" or os.environ.get("HOLZHEBO_PLAIN") == "1"
    way = Way(cacert, proxy_of(Address(url)))
    if owned is not None and "tokens" in config:
        config["token-file"] = os.path.join(config["tokens"], f"{segment(owned)}.token")
    token, patience = token_of(args, config), patience_of(args, config)

    def made() -> Broker:
        found = Broker(url, token, patience, way, is_plain)
        atexit.register(found.close)
        return found

    return made


def broker_of(args: Arguments, owned: Optional[str] = None) -> Broker:
    return brokers_of(args, owned)()


# Lists


def formatted(text: str, row: Dict[str, str]) -> str:
    """The text with the fields of a row in the places {field}."""

    def field(it: "re.Match[str]") -> str:
        if it[1] not in row:
            raise Stop(f"--format: there is no field {shown(it[1])}, but {', '.join(row)}", status=USAGE)
        return shown(row[it[1]])

    text = text.replace("\\t", "\t").replace("\\n", "\n")
    return re.sub(r"\{([A-Za-z]*)\}", field, text)


def listing(args: Arguments, rows: Sequence[Dict[str, str]], indent: str = "", empty: Sequence[str] = ()) -> str:
    """A list by --format, or as a table."""
    if args.format is not None:
        return "\n".join(formatted(args.format, row) for row in rows)
    found: List[Sequence[str]] = [[shown(it) for it in row.values()] for row in rows]
    return table(found or ([empty] if empty else []), indent)


def tell_rows(args: Arguments, rows: Sequence[Dict[str, str]]) -> None:
    text = listing(args, rows)
    if text:
        tell(text)


def tell_json(value: Json) -> None:
    tell(compact(value))
