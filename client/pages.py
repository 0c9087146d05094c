#!/usr/bin/env python3
"""Writes the man pages and the completions of the client and of the program into a folder.

    client/pages.py FOLDER BROKER     writes holzhebo.1, holzhebo.bash and _holzhebo there, and the same of the program
                                      `broker` at this path

Those of the client are made of its parser by argparse-manpage and shtab (Debian's python3-argparse-manpage and
python3-shtab), those of the program of what its `--help` says. The package is made with them. To use them without it:
`man FOLDER/holzhebo.1`; `source FOLDER/holzhebo.bash` in ~/.bashrc; for zsh copy `_holzhebo` to a folder of `fpath`."""
import os, re, subprocess, sys
from typing import Dict, List, NamedTuple, Set, Tuple

SOURCES = os.path.join(os.path.dirname(os.path.abspath(__file__)), "src")
PARSER = "holzhebo.cli.main", "get_parser"
Rows = List[Tuple[str, str]]  # what is in the left column of a help, and its text
FILES = ("FILE", "PACT", "REPLIES", "PATH", "DIR")  # the values that are names of files


class Help(NamedTuple):
    """What a program or a command says of itself: what it is, its usage, its columns by their heading, and the rest."""

    about: str
    usage: str
    columns: Dict[str, Rows]
    rest: str


def help_of(words: List[str]) -> str:
    return subprocess.run([*words, "--help"], check=True, capture_output=True, text=True).stdout


def parse(text: str) -> Help:
    """Reads a help: paragraphs, of which those with a heading have two columns."""
    about, _, after = text.partition("\n\nUsage: ")
    usage, _, after = after.partition("\n\n")
    columns: Dict[str, Rows] = {}
    while True:
        head = re.match(r"(Commands|Arguments|Options):\n((?:  +.*\n?)+)\n?", after)
        if not head:
            return Help(about, usage, columns, after.strip("\n"))
        rows = [re.split(r"  +", it.strip(), maxsplit=1) for it in head[2].splitlines()]
        columns[head[1]] = [(row[0], row[1] if row[1:] else "") for row in rows]
        after = after[head.end() :]


class Program(NamedTuple):
    name: str
    help: Help
    commands: Dict[str, Help]


def read(path: str) -> Program:
    whole = parse(help_of([path]))
    names = [name for name, _ in whole.columns["Commands"] if name != "help"]
    return Program(os.path.basename(path), whole, {name: parse(help_of([path, name])) for name in names})


def options(help: Help) -> List[Tuple[str, List[str], str]]:
    """The long options: name, names of values, text."""
    found = []
    for left, text in help.columns["Options"]:
        name = re.search(r"--[a-z-]+", left)
        if name:
            found.append((name[0], [it.upper() for it in re.findall(r"<([A-Za-z-]+)>", left)], text))
    return found


def takes_file(values: List[str]) -> bool:
    return any(it in FILES for it in values)


# The man page


def roff(text: str) -> str:
    """The text as roff has it."""
    lines = text.replace("\\", "\\e").replace("-", "\\-").split("\n")
    return "\n".join(f"\\&{it}" if it[:1] in (".", "'") else it for it in lines)


def rows_page(rows: Rows) -> str:
    return "".join(f".TP\n\\fB{roff(left)}\\fR\n{roff(text)}\n" for left, text in rows)


def rest_page(text: str) -> str:
    """The rest of a help, with its lines as they are."""
    return f".nf\n{roff(text)}\n.fi\n"


def man_page(program: Program) -> str:
    about = re.sub(r"\s+", " ", program.help.about)
    parts = [f'.TH {program.name.upper()} 1 "" "{program.name}" ""\n.SH NAME\n{program.name} \\- {roff(about)}\n']
    parts.append(f".SH SYNOPSIS\n.B {roff(program.help.usage)}\n.SH DESCRIPTION\n{rest_page(program.help.rest)}")
    parts.append(f".SH OPTIONS\n{rows_page(program.help.columns['Options'])}.SH COMMANDS\n")
    for name, help in program.commands.items():
        columns = "".join(rows_page(help.columns.get(it, [])) for it in ("Arguments", "Options"))
        parts.append(f".SS {roff(name)}\n{roff(help.about)}\n.PP\n.B {roff(help.usage)}\n{columns}.PP\n")
        parts.append(rest_page(help.rest))
    return "".join(parts)


# Completions


def bash(program: Program) -> str:
    """Completes commands, the options of a command, and names of files."""
    names = " ".join([*program.commands, "help", "--help", "--version"])
    cases, files = "", set()  # type: str, Set[str]
    for name, help in program.commands.items():
        own = options(help)
        files.update(it for it, values, _ in own if takes_file(values))
        cases += f'    {name}) words="{" ".join(it for it, _, _ in own)}" ;;\n'
    return f"""# Completion of {program.name} for bash; made by client/pages.py
_{program.name}() {{
  local word=${{COMP_WORDS[COMP_CWORD]}} before=${{COMP_WORDS[COMP_CWORD - 1]}} words=
  case ${{COMP_WORDS[1]}} in
{cases}    help) words="{" ".join(program.commands)}" ;;
  esac
  [ "$COMP_CWORD" = 1 ] && words="{names}"
  case $before in {"|".join(sorted(files)) or "--"}) words= ;; esac
  COMPREPLY=()
  [[ -n $words && ( $word == -* || $COMP_CWORD = 1 || ${{COMP_WORDS[1]}} = help ) ]] &&
    mapfile -t COMPREPLY < <(compgen -W "$words" -- "$word")
  [ ${{#COMPREPLY[@]}} -gt 0 ] || mapfile -t COMPREPLY < <(compgen -f -- "$word")
}}
complete -o filenames -F _{program.name} {program.name}
"""


def zsh_text(text: str) -> str:
    return re.sub(r"([\[\]:\\])", r"\\\1", text).replace("'", "'\\''")


def zsh(program: Program) -> str:
    commands = "\n".join(f"    '{name}:{zsh_text(help.about)}'" for name, help in program.commands.items())
    cases = ""
    for name, help in program.commands.items():
        lines = []
        for option, values, text in options(help):
            ends = "".join(f":{it.lower()}:{'_files' if it in FILES else ' '}" for it in values)
            lines.append(f"        '*{option}[{zsh_text(text)}]{ends}'")
        cases += f"    {name})\n      _arguments -S \\\n" + " \\\n".join([*lines, "        '*:file:_files' ;;\n"])
    return f"""#compdef {program.name}
# Completion of {program.name} for zsh; made by client/pages.py
_{program.name}() {{
  local -a commands=(
{commands}
    'help:Print help'
  )
  if (( CURRENT == 2 )); then
    _describe command commands
    return
  fi
  local command=$words[2]
  shift words
  (( CURRENT-- ))
  case $command in
{cases}    help) _describe command commands ;;
  esac
}}
_{program.name} "$@"
"""


# The client


def said_by(words: List[str]) -> str:
    """What Debian's Python prints by these words, with the client's sources at hand."""
    env = {**os.environ, "PYTHONPATH": SOURCES, "PYTHONDONTWRITEBYTECODE": "1", "COLUMNS": "100"}
    return subprocess.run(words, check=True, stdout=subprocess.PIPE, text=True, env=env).stdout


def page_of_client(page: str) -> str:
    """The page without what is asked of authors, with what the program is for, and the examples and the statuses."""
    sys.path.insert(0, SOURCES)
    from holzhebo.cli.commands import COMMANDS
    from holzhebo.cli.main import ABOUT, AFTER

    page = re.sub(r"(?m)^\.TH .*$", '.TH HOLZHEBO 1 "" "holzhebo" ""', page.partition(".SH AUTHORS")[0], count=1)
    page = page.replace(".SH NAME\nholzhebo\n", f".SH NAME\nholzhebo \\- {roff(ABOUT)}\n", 1)
    after = "".join(f".SS {roff(it.name)}\n{rest_page(it.after)}" for it in COMMANDS.values())
    return f"{page}.SH EXAMPLES AND STATUSES\n{rest_page(AFTER)}{after}"


def of_client() -> Dict[str, str]:
    module, function = PARSER
    words = ["argparse-manpage", "--module", module, "--function", function, "--project-name", "holzhebo"]
    texts = {"holzhebo.1": page_of_client(said_by(words))}
    for shell, name in ("bash", "holzhebo.bash"), ("zsh", "_holzhebo"):
        texts[name] = with_all_choices(
            said_by(["shtab", "--shell", shell, "--prog", "holzhebo", f"{module}.{function}"])
        )
    return texts


def with_all_choices(text: str) -> str:
    """The completion for bash of shtab 1.5, which takes the first of several choices only, with all of them."""
    text = text.replace('_choices_var="${current_action}_choices"', '_choices_var="${current_action}_choices[@]"')
    lines = "$(printf '%s\\n' \"${!current_action_choices_var}\")"
    return text.replace('"${!current_action_choices_var}"', f'"{lines}"', 1) if "_choices[@]" in text else text


def of_program(path: str) -> Dict[str, str]:
    it = read(path)
    return {f"{it.name}.1": man_page(it), f"{it.name}.bash": bash(it), f"_{it.name}": zsh(it)}


def main(words: List[str]) -> int:
    if len(words) != 2:
        print("usage: client/pages.py FOLDER BROKER", file=sys.stderr)
        return 2
    os.makedirs(words[0], exist_ok=True)
    for name, text in {**of_client(), **of_program(words[1])}.items():
        with open(os.path.join(words[0], name), "w", encoding="utf-8") as it:
            it.write(text)
    return 0


if __name__ == "__main__":
    sys.exit(main(sys.argv[1:]))
