"""Pages of the documents that a script of ci/ writes from the sources."""
import os, sys

from definitions import TOP, text_of


def kept(wanted, what, command):
    """How such a script ends: of each path whose text isn't the wanted one it says so, or writes it by --fix. If all of
    them are, it says `what`."""
    stale = [it for it in wanted if not os.path.exists(it) or text_of(it) != wanted[it]]
    if "--fix" in sys.argv[1:]:
        for it in stale:
            with open(it, "w", encoding="utf-8") as file:
                file.write(wanted[it])
        return 0
    told = [f"{os.path.relpath(it, TOP)}: not as the sources are: {command} --fix writes it" for it in stale]
    print("\n".join(told) or what)
    return 1 if stale else 0
