"""`./run`: files that it serves, command lines without a token, and where it is started from."""
from __future__ import annotations

import json, os, re, shutil, signal, tempfile

import pytest

from tests.broker.parts import former_file
from tests.desk import served
from tests.desk.running import SHELL, Running, asks, by, made
from tests.desk.world import READER, RED, write
from tests.process import TOP, Server, text_of
from tests.process import run as outcome
from tests.wire import OFFICE, same
from tests.world import new_file

pytestmark = [pytest.mark.needs("curl", "sqlite3", "strace"), pytest.mark.usefixtures("usual")]


# Files


def test_a_file(room: str) -> None:
    """One that stays from the demo, by the tokens that are typed, and by one that is made for the page."""
    file, office = f"{room}/kept.db", f"{room}/office.token"
    with Running(room) as it:
        it.serves().broken_off(0)
        for each in it.files():
            shutil.copy(each, f"{room}/kept.db{each.partition('broker.db')[2]}")
    names = {
        "environments": ["dev", "live", "staging"],
        "contacts": json.loads(text_of("examples/demo-desk.json"))["contacts"],
    }
    write(office, f"{OFFICE}\n")
    with Running(room, file) as it:
        same("its token", it.serves().lines[-4], "its token:   type a team's, or the office's")
        for token, status in (OFFICE, 200), (RED, 200), (READER, 401), ("", 401):
            same(f"the listing by {token}", asks(it.page, served.LISTING, by(token))[0], status)
        same("desk.json", json.loads(asks(it.page, "GET /desk/desk.json")[2]), names)
        it.broken_off(0)
    made_up = set()
    for text in f"{OFFICE}\n", f"authorization: Bearer {OFFICE}\n":
        write(office, text)
        with Running(room, "--token-file", office, "kept.db", before=["env", "-C", room]) as it:
            shown = re.search(r"(?m)^its token:   type ([0-9a-f]{48}), which only reads$", it.serves().said())
            token = shown[1] if shown else ""
            made_up.add(token)
            same("the listing by it", asks(it.page, served.LISTING, by(token))[0], 200)
            same("a change by it", asks(it.page, "PUT /teams/green", by(token))[0], 405)
            same("the demo's token", asks(it.page, served.LISTING, by(READER))[0], 401)
            same("whether the office's is said", OFFICE in it.broken_off(0), False)
            same("its files", it.files(), [])
    same("tokens that are made", len(made_up), 2)


def test_other_files(room: str) -> None:
    """What can't be served, with what the broker says of it; and tokens that can't be."""
    write(f"{room}/notes", "no database")
    outcome(["sqlite3", f"{room}/other.db", "CREATE TABLE notes (line TEXT)"])
    former_file(room)
    explained = "docs/OPERATING.md explains it"
    for name, line in ("notes", "file"), ("other.db", "open 2"), ("former.db", "open 3.1"):
        with Running(room, f"{room}/{name}") as it:
            wanted = f"run: the broker can't serve {room}/{name}: it ends with status 3, and says: {line} ({explained})"
            same(name, it.ends(1).split("\n")[-1], wanted)
    os.mkdir(f"{room}/own")
    file = new_file(Running.usual, f"{room}/own")
    with Server(Running.usual, file), Running(room, file) as it:
        same("a file in use", f"and says: file ({explained})" in it.ends(1), True)
    write(f"{room}/short", "short\n")
    write(f"{room}/unknown", "unknown-token-00001\n")
    for name, said in (
        ("short", "has no token: that is 16 to 128 ASCII letters, digits and -._~+/="),
        ("missing", "can't be read: No such file or directory"),
        ("own", "can't be read: Is a directory"),
    ):
        with Running(room, file, "--token-file", f"{room}/{name}") as it:
            same(f"the token of {name}", it.ends(1), f"run: {room}/{name} {said}")
    with Running(room, file, "--token-file", f"{room}/unknown") as it:
        wanted = f"run: the broker of {file} doesn't know the token of {room}/unknown"
        same("a token that nobody has", it.ends(1).split("\n")[-1], wanted)
    odd_name = f"{room}/-a 'b\" \\ é.db"
    shutil.copy(file, odd_name)
    with Running(room, "--", odd_name) as it:
        it.serves().broken_off(0)


def test_command_lines(room: str) -> None:
    """No token is a word of a command line, but the demo's for init, as strace sees it."""
    os.mkdir(f"{room}/traced")
    file = new_file(Running.usual, f"{room}/traced")
    write(f"{room}/office", OFFICE)
    trace = f"{room}/trace"
    strace = ["strace", "-f", "-qq", "-s", "100000", "-e", "trace=execve", "-o", trace]
    demo: list[str] = []
    for given in demo, [file, "--token-file", f"{room}/office"]:
        with Running(room, *given, before=strace) as it:
            said = it.serves().said()
            it.broken_off(0)
        with open(trace, encoding="utf-8") as rows:
            lines = re.findall(r'(?m)^\d+ +execve\("([^"]*)", \[(.*?)\], 0x.* = 0$', rows.read())
        same("whether the broker is started", any(path == Running.usual for path, _ in lines), True)
        read = re.findall(r"type (\S+), which", said)
        shown = [line for _, line in lines if re.search(r"-token-0*1", line) or read[0] in line]
        init = [line for line in shown if f'"{Running.usual}", "init"' in line and OFFICE in line]
        same("command lines with a token", (len(shown), len(init)), (0, 0) if given else (1, 1))


# Where it is


def copied(room: str, build: str) -> str:
    """The parts of the repository that it needs, in a folder with a blank, with another ./build."""
    top = f"{tempfile.mkdtemp(dir=room)}/a copy"
    for part in "tools", "desk", "examples", "client":
        shutil.copytree(f"{TOP}/{part}", f"{top}/{part}", ignore=shutil.ignore_patterns("__pycache__"))
    shutil.copy2(f"{TOP}/run", f"{top}/run")
    made(f"{top}/build", build)
    return top


def test_built_first(room: str) -> None:
    """Without a program it calls ./build, which may fail or be broken off; nothing is written into the folder."""
    out = "crates/broker/out"
    good = f'#!/bin/bash\ncd "${{0%/*}}"; echo building; mkdir -p {out}; cp "{Running.usual}" {out}/broker\n'
    yet = f"there is no program {out}/broker yet: ./build makes it, which takes about half an hour"
    top = copied(room, good)
    before = sorted(os.path.join(at, name) for at, _, names in os.walk(top) for name in names)
    for first in [yet, "building", "making a new"], ["making a new"]:
        with Running(room, program="", top=top) as it:
            it.serves().broken_off(0)
            same("its first lines", [row.startswith(begin) for row, begin in zip(it.lines, first)], [True] * len(first))
    after = sorted(os.path.join(at, name) for at, _, names in os.walk(top) for name in names)
    same("what is new beside the program", set(after) - set(before), {f"{top}/{out}/broker"})
    with Running(room, program="", top=copied(room, f"{SHELL}echo no kit; exit 4\n")) as it:
        wanted = "run: ./build ends with status 4, and there is no program; called again, ./run goes on from there"
        same("a build that fails", it.ends(1).split("\n")[1:], ["no kit", wanted])
    for ending in signal.SIGINT, signal.SIGTERM, signal.SIGHUP:
        with Running(room, program="", top=copied(room, f"{SHELL}echo building; sleep 600 & sleep 600\n")) as it:
            it.until("building").broken_off(128 + ending, ending=ending)


def test_by_a_link(room: str) -> None:
    os.symlink(f"{TOP}/run", f"{room}/look")
    with Running(room, before=["sh", "-c", f'shift; exec {room}/look "$@"', "sh"]) as it:
        it.serves().broken_off(0)


def test_tools_that_are_missing(room: str) -> None:
    """tools/need: as root it installs by apt-get; else, or if that fails, it says the line to type."""
    folder, log = f"{room}/bin", f"{room}/log"
    os.mkdir(folder)
    for tool in "mktemp", "rm", "tail", "env", "touch", "chmod":
        os.symlink(str(shutil.which(tool)), f"{folder}/{tool}")
    line = "    sudo apt-get update && sudo apt-get install --no-install-recommends python3 curl\n"
    why = "(python3 is 3.9 or later, with its modules)"
    lost = f"this needs what isn't installed: python3 curl {why}. On Debian, type\n{line}"

    def needs_both(status: int) -> str:
        text = f"PATH={folder} {TOP}/tools/need sh python3 curl 2>&1"
        return outcome(["/bin/sh", "-c", text], status)

    made(f"{folder}/sh", f"{SHELL}exit 0\n")
    made(f"{folder}/id", f"{SHELL}echo 1000\n")
    made(f"{folder}/apt-get", f'{SHELL}echo "$@" >>{log}\n')
    made(f"{folder}/dpkg", f'{SHELL}echo dpkg "$@" >>{log}\n')
    made(f"{folder}/python3", f"{SHELL}echo ModuleNotFoundError >&2; exit 1\n")
    same("a plain user", needs_both(1), lost)
    same("what apt-get did for it", os.path.exists(log), False)
    made(f"{folder}/id", f"{SHELL}echo 0\n")
    installing = "installing python3 curl by apt-get, for the first time only\n"
    same("an apt-get that does nothing", needs_both(1), installing + lost)
    made(f"{folder}/apt-get", f"{SHELL}case $1 in install) echo no network >&2 ;; esac; exit 100\n")
    same("one that fails", needs_both(1), f"{installing}no network\n{lost}")
    programs = f"{folder}/python3 {folder}/curl"
    installs = f"case $1 in install) rm -f {programs}; touch {programs}; chmod 755 {programs} ;; esac"
    made(f"{folder}/apt-get", f'{SHELL}echo "$@" >>{log}\n{installs}\n')
    os.remove(log)
    same("one that installs", needs_both(0), installing)
    with open(log, encoding="utf-8") as rows:
        installs = "install -y --no-install-recommends -o DPkg::Lock::Timeout=60 python3 curl"
        same("how", rows.read().splitlines(), ["dpkg --configure -a", "update", installs])
    same("if they are there", needs_both(0), "")
