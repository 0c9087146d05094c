"""The client as it is shipped: the one file, the wheel, what the package has, and its pages."""
import glob, json, os, re, resource, shutil, subprocess, sys, urllib.request, zipfile
from typing import Dict, List
import pytest
from tests.client.books import KEPT, book_pact
from tests.client.tools import CLIENT, Client, Reply, Stock, told
from tests.process import TOP, Server, free_port, ran, run, slowness, text_of
from tests.wire import Wrong, same
from tests.world import RED


WHEN = {"SOURCE_DATE_EPOCH": "1790000000"}
DEBIAN = "/usr/bin/python3"


@pytest.fixture(scope="module")
def one_file(tmp_path_factory: pytest.TempPathFactory) -> str:
    path = str(tmp_path_factory.mktemp("one") / "holzhebo")
    run([DEBIAN, f"{TOP}/client/zip", path], env=WHEN)
    return path


def test_the_same_bytes_twice(one_file: str, room: str) -> None:
    """Also in another zone, under another mask, and by another Python."""
    for number, python in enumerate([DEBIAN, sys.executable]):
        line = f"umask 077; {python} {TOP}/client/zip {room}/{number}"
        run(["sh", "-c", line], env={**WHEN, "TZ": "Asia/Tokyo", "LC_ALL": "C"})
        with open(one_file, "rb") as it, open(f"{room}/{number}", "rb") as other:
            same(python, it.read() == other.read(), True)


def test_without_a_commit(room: str) -> None:
    """Sources without their repository: it is said what to give, and nothing is made."""
    env = {key: it for key, it in os.environ.items() if key != "SOURCE_DATE_EPOCH"}
    done = ran([DEBIAN, f"{sources(room)}/zip", f"{room}/made"], env=env, cwd=room)
    same("how it ends", done, (1, "", "there is no commit here: set SOURCE_DATE_EPOCH\n"))
    same("what is made", os.path.exists(f"{room}/made"), False)


def of_children() -> float:
    """The seconds that processes took which have ended."""
    it = resource.getrusage(resource.RUSAGE_CHILDREN)
    return it.ru_utime + it.ru_stime


@pytest.mark.timing
def test_how_fast_it_starts(one_file: str, room: str) -> None:
    """The best of seven starts of the one file, up to its first request, takes at most a quarter of a second of an
    ordinary processor."""
    took = []
    for _ in range(7):
        began = of_children()
        words = [DEBIAN, one_file, "status", "live", "--broker", "http://127.0.0.1:1", "--patience", "0"]
        done = ran(words, env={**os.environ, "HOLZHEBO_TOKEN": RED})
        took.append(of_children() - began)
        same("it asks", (done.status, done.errors), (3, "holzhebo: the broker refuses the connection\n"))
    if min(took) > 0.25 and min(took) > 0.25 * slowness():
        raise Wrong(f"it takes {min(took):.2f} seconds")


# A fleet's whole scenario, by each form in which the client is shipped


class Shipped(Client):
    """The client by these words."""

    def __init__(self, room: str, url: str, words: List[str], env: Dict[str, str]) -> None:
        super().__init__(room, url)
        self.words, self.more = words, env

    def out(self, caller: str, *words: str, status: int = 0) -> str:
        done = told([*self.words, *words], cwd=self.room, env={**self.env(caller), **self.more})
        same(f"{' '.join(words)}: {done.errors}", done.status, status)
        return done.output


def sources(room: str) -> str:
    """The client beside the page, as in the repository."""
    shutil.copytree(f"{TOP}/client", f"{room}/copy/client", ignore=shutil.ignore_patterns("__pycache__", "dist"))
    shutil.copytree(f"{TOP}/desk", f"{room}/copy/desk")
    return f"{room}/copy/client"


def built(kind: str, folder: str) -> str:
    """The file that is built of the client in this folder, a wheel or an sdist."""
    run([DEBIAN, "-m", "build", "--no-isolation", "--skip-dependency-check", f"--{kind}", folder], env=WHEN)
    (file,) = glob.glob(f"{folder}/dist/*.{'whl' if kind == 'wheel' else 'tar.gz'}")
    return file


def test_a_wheel_from_an_sdist(room: str) -> None:
    """An sdist has what the wheel needs: where nothing else of the repository is, it makes the same bytes. The modules
    and the page are in it; without the page nothing is built."""
    tree = sources(room)
    wheel = built("wheel", tree)
    os.mkdir(f"{room}/alone")
    run(["tar", "-C", f"{room}/alone", "-xzf", built("sdist", tree)])
    with open(wheel, "rb") as it, open(built("wheel", f"{room}/alone/holzhebo-1.0.0"), "rb") as other:
        same("the same bytes", it.read() == other.read(), True)
    modules = glob.glob("holzhebo/**/*.py", root_dir=f"{TOP}/client/src", recursive=True)
    page = [f"holzhebo/desk/page/{it}" for it in os.listdir(f"{TOP}/desk")]
    with zipfile.ZipFile(wheel) as archive:
        names = [it for it in archive.namelist() if ".dist-info/" not in it]
    same("what is in it", sorted(names), sorted([*modules, *page]))
    shutil.rmtree(f"{room}/copy/desk")
    done = ran([DEBIAN, "-m", "build", "--no-isolation", "--skip-dependency-check", "--wheel", tree])
    same("without the page", (done.status, "there is no page" in done.output + done.errors), (1, True))


def by_wheel(room: str) -> List[str]:
    """The client in a room of Python's own, by its wheel."""
    run([DEBIAN, "-m", "venv", f"{room}/venv"])
    file = built("wheel", sources(room))
    run([f"{room}/venv/bin/pip", "install", "--no-index", "--no-deps", "--disable-pip-version-check", file])
    return [f"{room}/venv/bin/holzhebo"]


def installed(program: str, room: str) -> List[str]:
    """The client of the package, with its folder of Python's packages."""
    os.mkdir(f"{room}/deb")
    run([f"{TOP}/packaging/deb", program, f"{room}/deb"], env=WHEN)
    (file,) = glob.glob(f"{room}/deb/*.deb")
    run(["dpkg-deb", "--extract", file, f"{room}/root"])
    return [DEBIAN, "-B", f"{room}/root/usr/bin/holzhebo"]


@pytest.mark.needs("dh_python3", "dpkg-deb", "argparse-manpage", "shtab")
@pytest.mark.parametrize("form", ["one file", "wheel", "package"])
def test_a_fleet_s_scenario(form: str, one_file: str, program: str, fleet: Server, room: str) -> None:
    """Publish, verify with states, deploy, a canary, a roll back."""
    env: Dict[str, str] = {}
    if form == "wheel":
        words = by_wheel(room)
    elif form == "package":
        words, env = installed(program, room), {"PYTHONPATH": f"{room}/root/usr/lib/python3/dist-packages"}
    else:
        words = [one_file]
    client = Shipped(room, fleet.url, words, env)
    same("its version", client.out("none", "--version"), "holzhebo 1.0.0\n")
    for version in "10", "11":
        with open(f"{room}/book.json", "w", encoding="utf-8") as it:
            json.dump(book_pact(), it)
        client.out("red", "publish", version, "--branch", "main", "book.json")
    answers = {**KEPT, "GET /books/1": Reply(), "POST /states": Reply(body=b"")}
    with Stock(answers) as stock:
        verify = ["verify", "--provider", "stock", "--version", "2", "--url", stock.url, "--contract", "shop", "10"]
        client.out("blue", *verify, "--states-url", f"{stock.url}/states", "--junit", "junit.xml", "--record", "kept")
    files = sorted(glob.glob(f"{room}/kept/*"))
    same("check", client.out("none", "check", *files, "--program", program).split("\n")[-2], "by the program")
    client.out("red", "deploy", "shop", "10", "live", status=1)
    client.out("blue", "deploy", "stock", "2", "live")
    client.out("red", "deploy", "shop", "10", "live")
    client.out("red", "deploy", "shop", "11", "live", "--instance", "canary")
    client.out("red", "deploy", "shop", "11", "live", "--then-undeploy", "canary")
    client.out("red", "can-i-deploy", "shop", "10", "vault", status=1)
    client.out("red", "record-deployment", "--pacticipant", "shop", "--version", "10", "--environment", "live")
    listed = client.out("red", "status", "live", "--format", "{pacticipant} {version}{instance}")
    same("what is live", listed, "shop 10\nstock 2\n")
    planned = client.out("office", "plan", "live", "vault")
    same("what may go to vault", re.findall(r"(?m)^ +\d  (.*\S)  +\S", planned), ["deploy stock 2 for 1", "deploy shop 10"])
    same("carry", "--keep N" in client.out("none", "carry", "--help"), True)
    has_the_page(client, room)


def has_the_page(client: Shipped, room: str) -> None:
    """`holzhebo desk` has each file of the page with it; of the package the files are where that places them."""
    folder, port = f"{room}/root/usr/share/holzhebo/desk", free_port()
    own = ["--page", folder] if os.path.isdir(folder) else []
    if own:
        os.remove(f"{folder}/desk.json")  # it is a link to /etc, which is another root's here
        shutil.copy(f"{TOP}/desk/desk.json", folder)
    words = [*client.words, "desk", "--page-port", str(port), *own]
    with subprocess.Popen(words, env={**client.env("office"), **client.more}, stdout=subprocess.PIPE) as process:
        assert process.stdout
        key = process.stdout.readline().decode().strip().partition("?")[2]
        for name in os.listdir(f"{TOP}/desk"):
            address = urllib.request.Request(f"http://127.0.0.1:{port}/desk/{name}", headers={"cookie": f"desk-{port}={key}"})
            with urllib.request.urlopen(address) as got, open(f"{TOP}/desk/{name}", "rb") as it:
                same(name, name == "desk.json" or got.read() == it.read(), True)
        process.terminate()
        same("how it ends", process.wait(30), 0)


# Pages


@pytest.mark.needs("mandoc", "zsh", "argparse-manpage", "shtab")
def test_pages(program: str, room: str) -> None:
    """They can be read by mandoc and zsh, bash completes by them, and the client's has each command and its
    statuses."""
    os.symlink(program, f"{room}/broker")
    run([DEBIAN, f"{TOP}/client/pages.py", f"{room}/pages", f"{room}/broker"])
    for name in "holzhebo", "broker":
        run(["mandoc", "-T", "lint", "-W", "error", f"{room}/pages/{name}.1"])
        run(["zsh", "-n", f"{room}/pages/_{name}"])
    page = text_of(f"{room}/pages/holzhebo.1")
    commands = re.findall(r"(?m)^    (\S+) ", run([DEBIAN, CLIENT, "help"]))
    same(
        "commands",
        (len(commands) > 15, [it for it in commands if f".SS {it}".replace("-", "\\-") not in page]),
        (True, []),
    )
    for words, wanted in (
        (["holzhebo", "can"], ["can-i-deploy"]),
        (["holzhebo", "can-i-deploy", "--w"], ["--wait"]),
        (["broker", "serve", "--l"], ["--listen"]),
        (["holzhebo", "und"], ["undeploy"]),
    ):
        place = f'COMP_WORDS=({" ".join(words)}); COMP_CWORD={len(words) - 1}'
        call = f"_{words[0]}" if words[0] == "broker" else "_shtab_holzhebo"
        text = (
            f'source {room}/pages/{words[0]}.bash; {place}; {call} {words[0]} "{words[-1]}"; echo "${{COMPREPLY[@]}}"'
        )
        same(f"completion of {words}", run(["bash", "-c", text]).split(), wanted)
