"""`./run`: the page and the broker that it serves, what it refuses, and that all that it has started ends with it.
running.py has ./run while it runs, served.py what the page's server is asked."""
from __future__ import annotations

import contextlib, os, re, signal, socket, tempfile, time
from collections.abc import Callable, Iterator

import pytest

from tests.desk import served
from tests.desk.browser import Browser, Unseen
from tests.desk.running import ODD, Running, asks, by, instead, made
from tests.desk.scenes_good import board, questions
from tests.desk.world import BLUE, READER, RED, write
from tests.process import TOP, Server, free_port, text_of
from tests.wire import OFFICE, Wrong, same

pytestmark = [pytest.mark.needs("chromium", "curl"), pytest.mark.usefixtures("usual")]


# While it serves the demo


def says(it: Running) -> None:
    """Each thing that is needed, in the lines that it says last."""
    file = re.search(r"(?m)^the file: +(\S+)$", it.said())
    wanted = [
        f"the page:    http://127.0.0.1:{it.page}/desk/",
        f"its token:   type {READER}, which only reads",
        f"the broker:  http://127.0.0.1:{it.port}",
        f"its tokens:  {OFFICE} is the office's, {RED} is red's, {BLUE} is blue's",
        f"the file:    {file[1] if file else 'none'}",
        "to stop:     Ctrl-C; the file stays",
    ]
    same("its last lines", it.lines[-6:], wanted)
    same("its files", [each for each in it.files() if "broker.db-" not in each], [file[1] if file else ""])
    same("lines that name the file first", it.lines[0], f"making a new broker's file: {file[1] if file else ''}")


def in_a_browser(it: Running) -> None:
    """The demo's board and questions."""
    try:
        with Browser(tempfile.mkdtemp(dir=it.room)) as page:
            page.look(1000, "light")
            board(page, it)
            questions(page, it)
    except Unseen as why:
        raise Wrong(f"the page: {why}") from None


def again_beside(it: Running) -> None:
    """Another one by either port of this one: it says which, starts nothing and makes nothing."""
    for broker, page, said in (
        (it.port, 0, f"run: port {it.port}, for the broker, is taken: --port N takes another"),
        (0, it.page, f"run: port {it.page}, for the page, is taken: --page-port N takes another"),
    ):
        with Running(it.room, port=broker, page=page) as other:
            same("what the second one says", other.ends(1), said)
            same("what it has made", other.files(), [])
    same("whether the first one goes on", asks(it.page, served.LISTING, by(READER))[0], 200)


def stops(it: Running) -> None:
    """Ctrl-C: all of it ends, and the file is there, whole."""
    file = it.lines[-2].split()[-1]
    wanted = ["ending the page and the broker", f"the file stays; to serve it again: ./run {file}"]
    same("what it says at its end", it.broken_off(0).split("\n")[-2:], wanted)
    with Server(Running.usual, file) as server:
        same("the file afterwards", server.ask("GET", "/environments/live").status, 200)
    with contextlib.suppress(ConnectionRefusedError):
        asks(it.page, "GET /desk/")
        raise Wrong("the page is there afterwards")


# How it ends


def test_endings(room: str) -> None:
    """SIGTERM to it, SIGHUP to its group, and a signal at any moment of its first second."""
    for ending, group in (signal.SIGTERM, False), (signal.SIGHUP, True), (signal.SIGINT, False):
        with Running(room) as it:
            it.serves().broken_off(0, ending=ending, group=group)
    for hundredths in 0, 3, 6, 10, 15, 20, 30, 40, 60, 80, 100, 130:
        for ending in signal.SIGINT, signal.SIGTERM:
            with Running(room) as it:
                time.sleep(hundredths / 100)
                # before its first lines are read, it is the signal itself
                it.broken_off(128 + ending, -ending, 0, ending=ending)


def test_while_it_waits(room: str) -> None:
    """A signal while a step takes long: nothing is left of a file that isn't whole."""
    init = instead(room, 'case $1 in init) touch "${2#--file=}"; sleep 600 ;; esac')
    serve = instead(room, "case $1 in serve) sleep 600 ;; esac")
    deaf = instead(room, "case $1 in serve) trap '' TERM INT; while :; do sleep 1; done ;; esac")
    for ending in signal.SIGINT, signal.SIGTERM, signal.SIGHUP:
        with Running(room, program=init) as it:
            it.until("making a new").broken_off(128 + ending, ending=ending)
            same("files of an init that is broken off", it.files(), [])
        with Running(room, program=serve) as it:
            said = it.until("serving /").broken_off(128 + ending, ending=ending)
            same("whether the file is named", f"./run {it.files()[0]}" in said, True)
        with Running(room) as it:
            it.until("last month: ").broken_off(128 + ending, ending=ending)
            same("folders of the demo", [each for each in it.files() if "holzhebo-" not in each], [])
    with Running(room, program=deaf) as it:
        it.until("serving /")
        time.sleep(0.5)
        began = time.monotonic()
        os.kill(it.process.pid, signal.SIGINT)
        time.sleep(1)
        it.broken_off(130)
        same("whether a second Ctrl-C waits", time.monotonic() - began < 10, True)


def test_nobody_listens_to_it(room: str) -> None:
    """Its output is closed: it ends too. Under nohup it outlives its terminal."""
    with Running(room, before=["bash", "-c", '"$@" | head -n 2; exit "${PIPESTATUS[0]}"', "bash"]) as it:
        it.ends(141)
    with Running(room, before=["nohup"]) as it:
        it.serves()
        os.killpg(it.process.pid, signal.SIGHUP)
        time.sleep(0.5)
        same("the page after SIGHUP under nohup", asks(it.page, "GET /desk/")[0], 200)
        it.broken_off(0, ending=signal.SIGTERM)


def test_a_broker_that_ends(room: str) -> None:
    """It is killed, or says something before its end."""
    with Running(room) as it:
        os.kill(it.serves().broker(), signal.SIGKILL)
        said = it.ends(1)
        wanted = "run: the broker has ended by itself with signal SIGKILL, and says nothing"
        same("what is said of a killed one", wanted in said.split("\n"), True)
    few = f'case $1 in serve) exec "{Running.usual}" serve "$2" "$3" --connections=20 ;; esac'
    with Running(room, program=instead(room, few)) as it:
        wanted = "run: the broker has ended by itself with status 0, and says nothing"
        same("what is said of one that ends while it is filled", wanted in it.ends(1).split("\n"), True)
    with Running(room, program=instead(room, "case $1 in serve) echo first; echo last >&2; exit 4 ;; esac")) as it:
        same("what is said of one that never listens", "it ends with status 4, and says: last" in it.ends(1), True)
    with Running(room, program=instead(room, "case $1 in init) echo no; exit 3 ;; esac")) as it:
        same("what is said of an init that fails", "init ends with status 3, and says: no" in it.ends(1), True)
        same("its files", it.files(), [])


# Its words


def test_words(room: str) -> None:
    """What it doesn't know, and ports that can't be."""
    for line, said in (
        (["--nothing"], "unrecognized arguments: --nothing"),
        (["a", "b"], "unrecognized arguments: b"),
        (["--po=5"], "unrecognized arguments: --po=5"),
        (["--port", "0"], "argument --port: '0' isn't a port, 1 to 65535"),
        (["--port", "65536"], "argument --port: '65536' isn't a port, 1 to 65535"),
        (["--page-port", "x"], "argument --page-port: 'x' isn't a port, 1 to 65535"),
        (["--port"], "argument --port: expected one argument"),
        (["--token-file", "x"], "--token-file goes with a FILE, since the demo has tokens of its own"),
        (["--port=5", "--page-port=5"], "port 5 can't be both the broker's (--port) and the page's (--page-port)"),
    ):
        with Running(room, *line) as it:
            same(f"./run {' '.join(line)}", it.ends(2), f"run: {said}; ./run --help says what there is")
            same("its files", it.files(), [])
    text = text_of("run")
    for help in ["--help"], ["x", "--help"]:
        with Running(room, *help, program="") as it:
            shown = "".join(f"# {row}\n" if row else "#\n" for row in it.ends(0).split("\n"))
            same("the help is the text at its top", f"#!/bin/sh\n{shown}here=" in text, True)
    for file in "nowhere", ".":
        with Running(room, file) as it:
            same(f"./run {file}", it.ends(1), f"run: there is no file {file}")
    with Running(room, program="nowhere") as it:
        same("a program that isn't there", it.ends(1), "run: there is no program nowhere")


def test_a_taken_port(room: str) -> None:
    """Of something that isn't ./run, on this address or on all, and a port that is taken as the broker begins."""
    for address in "127.0.0.1", "0.0.0.0":
        with socket.create_server((address, 0)) as here:
            number = here.getsockname()[1]
            with Running(room, port=number) as it:
                wanted = f"run: port {number}, for the broker, is taken: --port N takes another"
                same("the broker's", (it.ends(1), it.files()), (wanted, []))
            with Running(room, page=number) as it:
                wanted = f"run: port {number}, for the page, is taken: --page-port N takes another"
                same("the page's", (it.ends(1), it.files()), (wanted, []))
    number = free_port()
    text = f"import socket, time; it = socket.create_server(('127.0.0.1', {number})); time.sleep(60)"
    first = instead(room, f'case $1 in serve) python3 -c "{text}" & sleep 2 ;; esac')
    with Running(room, port=number, program=first) as it:
        wanted = f"run: port {number}, for the broker, was taken meanwhile: --port N takes another"
        same("one that is taken late", wanted in it.ends(1).split("\n"), True)


# README


def test_readme(room: str) -> None:
    """Its line, pasted, on ports of its own."""
    block = re.search(r"(?ms)^```\n(# look at it[^`]*?\n)?\./run\n", text_of("README.md"))
    if not block:
        raise Wrong("README has no line ./run")
    with Running(room, before=["sh", "-c", f'cd {TOP}; shift; exec ./run "$@"', "sh"]) as it:
        in_a_browser(it.serves())
        it.broken_off(0)


# Over one ./run that serves the demo, in this order; and what is asked of one with a strange broker


@pytest.fixture(scope="module")
def one(tmp_path_factory: pytest.TempPathFactory) -> Iterator[Running]:
    with Running(str(tmp_path_factory.mktemp("one"))) as it:
        yield it.serves()


OVER_ONE: list[Callable[[Running], None]] = [says, served.alone_on_loopback, served.files, served.tokens]
OVER_ONE += [served.methods, served.strangers, served.heads, served.slow, in_a_browser, again_beside, stops]


@pytest.mark.xdist_group("one ./run")
@pytest.mark.parametrize("trial", OVER_ONE, ids=[it.__name__ for it in OVER_ONE])
def test_the_demo(trial: Callable[[Running], None], one: Running) -> None:
    trial(one)


# The last one waits for a minute.
STRANGE = [pytest.param(served.odd, id="odd"), pytest.param(served.a_silent_broker, id="silent", marks=pytest.mark.first)]


@pytest.mark.parametrize("trial", STRANGE)
def test_a_strange_broker(trial: Callable[[Running], None], room: str) -> None:
    write(f"{room}/any", "any file")
    with Running(room, f"{room}/any", program=made(f"{room}/strange", ODD)) as it:
        trial(it.serves())
