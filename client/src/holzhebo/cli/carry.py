"""carry: a smaller file of a broker, from a copy."""
import sqlite3

from holzhebo.carry import carry as carried
from holzhebo.carry_pages import Refused
from holzhebo.cli.parser import Arguments
from holzhebo.faults import DONE, Stop
from holzhebo.text import shown, tell


def carry(args: Arguments) -> int:
    try:
        lines = carried(args.copy, args.new, args.keep, args.branch)
    except (Refused, OSError, sqlite3.Error) as why:
        raise Stop(shown(why)) from None
    tell("\n".join(shown(it) for it in lines))
    return DONE
