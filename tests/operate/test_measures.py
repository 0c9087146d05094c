"""`holzhebo metrics`: what it says of a proxy's log, of a broker's file and of its copies, against what is made by hand;
Debian's promtool reads it. test_measured_service.py has the service."""
import datetime, json, os, re, shutil, time
from typing import Any
import pytest
from tests.operate.front import CLIENT, Front, asked
from tests.operate.service import Service
from tests.process import Ended, ran, run, text_of
from tests.proxy import await_that
from tests.wire import OFFICE, same
from tests.world import BLUE, RED

from holzhebo.measures.file import Kept, growth, left

pytestmark = pytest.mark.needs("promtool")
EMPTY = "/dev/null"


def measured(*words: str, status: int = 0) -> Any:
    return json.loads(run([CLIENT, "metrics", "--json", *words], status))


def sound(text: str) -> None:
    """Debian's promtool finds no fault in the text."""
    same("promtool check metrics", ran(["promtool", "check", "metrics"], text), (0, "", ""))


# The log


def test_refusals(front: Front) -> None:
    """Each kind, through a real proxy: the gate's are apart, though their status is that of names that are taken."""
    shop = '{"pacticipant":"shop","version":"2"}'
    for token, ask, body, status in [
        (RED, "POST /environments/live/deployments", shop, 409),
        (RED, "POST /environments/live/releases", shop, 409),
        (OFFICE, "PUT /environments/live", '{"gated":false}', 409),
        (RED, "POST /environments/live/deployments", '{"pacticipant":"stock","version":"1"}', 403),
        (RED, "POST /environments/other/deployments", shop, 404),
        ("a-token-that-nobody-has", "GET /environments/live", "", 401),
        (OFFICE, "PUT /teams/last", "{", 422),
        (RED, "GET /can-i-deploy?pacticipant=shop&version=2&environment=live", "", 200),
        (RED, "POST /environments/open/deployments", shop, 200),
    ]:
        same(ask, asked(front, ask, token, body).status, status)
    log = f"{front.room}/log"
    await_that(lambda: front.log("log").count("\n") == 9, "the log has each request")
    found = measured("--log", log)
    wanted = {"gate": 2, "taken": 1, "policy": 1, "unknown": 1, "token": 1, "form": 1, "rate": 0}
    same("refusals", found["refusals"], wanted)
    same("what is measured", found["measured"], {"log": True})
    text = run([CLIENT, "metrics", "--log", log])
    sound(text)
    lines = [f'broker_refusals_total{{kind="{kind}"}} {count}' for kind, count in wanted.items()]
    same("the lines of them", sorted(it for it in text.splitlines() if "refusals_total{" in it), sorted(lines))


# The file and its copies


def made(hours: float, size: int) -> Kept:
    return Kept(hours * 3600, size, "")


@pytest.mark.parametrize(
    "copies, wanted",
    [
        ([made(0, 1000), made(1, 4600)], 1.0),
        ([made(0, 1000), made(0.5, 1000), made(10, 73000)], 2.0),
        ([made(0, 90000), made(10, 1000), made(12, 8200)], 1.0),
        ([made(0, 1000), made(5, 1000)], 0.0),
        ([made(0, 1000), made(0.9, 4600)], None),
        ([made(0, 90000), made(10, 1000)], None),
        ([made(0, 1000)], None),
    ],
    ids=str,
)
def test_growth(copies: list[Kept], wanted: float | None) -> None:
    """Bytes a second since the file last got smaller, as it does by `carry`; not from less than an hour."""
    same("growth", growth(copies), wanted)


def test_left() -> None:
    cases = [(1000, 4600, 1.0), (4600, 4600, 1.0), (9000, 4600, 1.0), (1000, 4600, 0.0), (5000, 4600, 0.0)]
    same("seconds", [left(*it) for it in cases], [3600.0, 0.0, 0.0, float("inf"), 0.0])


def named(hours: float) -> str:
    """The name of a copy of so many hours ago."""
    at = datetime.datetime.now(datetime.timezone.utc) - datetime.timedelta(hours=hours)
    return f"broker-{at:%Y-%m-%dT%H%M%S}Z.db"


def keep(service: Service, folder: str, hours: float) -> str:
    """A copy by the script, with the name of one of so many hours ago."""
    had = set(os.listdir(folder))
    service.script("keep-copies.sh", service.program, service.file, folder, "9", "broker")
    new, = set(os.listdir(folder)) - had
    os.rename(f"{folder}/{new}", f"{folder}/{named(hours)}")
    return f"{folder}/{named(hours)}"


def refused_there(service: Service) -> dict[str, int]:
    """How many of the versions that are in a gated environment the broker itself refuses."""
    found = {}
    for name in "live", "vault":
        there = json.loads(service.ask("GET", f"/environments/{name}", OFFICE).body)
        asks = [f"pacticipant={it['pacticipant']}&version={it['version']}" for it in there["deployed"]]
        answers = [service.ask("GET", f"/can-i-deploy?{it}&environment={name}", OFFICE).body for it in asks]
        found[f'environment="{name}"'] = sum(not json.loads(it)["permitted"] for it in answers)
    return found


@pytest.mark.needs("sqlite3")
def test_file_and_copies(service: Service) -> None:
    """Over real copies: sizes, growth, the newest of two folders, what the gate would refuse; and with --output once."""
    folder, other, output = f"{service.room}/backup", f"{service.room}/nights", f"{service.room}/broker.prom"
    os.mkdir(other)
    words = ["--log", EMPTY, "--file", service.file, "--copies", other, "--copies", folder]
    first = keep(service, other, 10)
    for version, environment in ("1", "live"), ("3", "vault"), ("2", "open"):
        body = '{"pacticipant":"shop","version":"%s"}' % version
        service.do("POST", f"/environments/{environment}/deployments", RED, body)
    for number in range(100):
        service.do("PUT", f"/pacticipants/shop/versions/{number:040}", RED)
    failing = '{"providerApplicationVersion":"1","success":false}'
    service.do("POST", "/pacts/provider/stock/consumer/shop/version/1/results", BLUE, failing)
    wanted = {'environment="live"': 2, 'environment="vault"': 0}
    same("what the broker refuses", refused_there(service), wanted)
    second = keep(service, folder, 2)
    # What isn't a copy by its name, and one of a date to come, say nothing.
    shutil.copy(first, f"{folder}/{named(-1)}")
    shutil.copy(first, f"{folder}/carried.db")
    os.mkdir(f"{folder}/{named(1)}")
    size = sum(os.path.getsize(service.file + it) for it in ("", "-wal"))
    found = measured(*words)
    same("the sources", found["measured"], dict.fromkeys(["log", "file", "copies", "gate"], True))
    same("the bytes", found["fileBytes"], size)
    os.symlink(service.file, f"{service.room}/link.db")
    linked = measured("--log", EMPTY, "--file", f"{service.room}/link.db")
    same("the bytes by a link, whose log is beside the file", linked["fileBytes"], size)
    age = time.time() - found["copyTimestampSeconds"]
    assert 7195 < age < 7260, age
    grown = (os.path.getsize(second) - os.path.getsize(first)) / (8 * 3600)
    assert grown > 0
    assert abs(found["fileLeftSeconds"] * grown / (200e6 - size) - 1) < 0.01, found
    same("with fewer bytes", measured(*words, "--most", str(size))["fileLeftSeconds"], 0.0)
    same("what would be refused", found["refusedVersions"], wanted)
    run([CLIENT, "metrics", *words, "--output", output])
    text = text_of(output)
    sound(text)
    once(words, second, output, text)


def once(words: list[str], copy: str, output: str, text: str) -> None:
    """The same copy isn't read again, and another one of its name is."""
    about = os.stat(copy)
    with open(copy, "r+b") as it:
        it.write(b"no broker's file")
    os.utime(copy, ns=(about.st_atime_ns, about.st_mtime_ns))
    run([CLIENT, "metrics", *words, "--output", output])
    with open(output, encoding="utf-8") as kept:
        same("what is written", kept.read().split("# HELP")[5:], text.split("# HELP")[5:])
    os.utime(copy)
    run([CLIENT, "metrics", *words, "--output", output], 3)
    with open(output, encoding="utf-8") as kept:
        said = kept.read()
    same("the gate", ('broker_measured{source="gate"} 0\n' in said, "refused_versions{" in said), (True, False))
    sound(said)


def test_what_cannot_be_read(room: str) -> None:
    """The rest is written, the measures say what is missing, and it ends with 3."""
    os.mkdir(f"{room}/none")
    sources = ["--file", f"{room}/nowhere", "--copies", f"{room}/none", "--service", "broker"]
    done = ran(["/usr/bin/python3", CLIENT, "metrics", "--log", EMPTY, *sources], env={"PATH": room})
    lost = sorted(re.findall(r'(?m)^broker_measured\{source="(\w+)"\} 0$', done.output))
    same("how it ends", (done.status, lost), (3, ["copies", "file", "gate", "service"]))
    same("lines of errors", done.errors.count("\n"), 4)
    same("the log", "broker_request_seconds_count 0\n" in done.output, True)
    sound(done.output)
    lost_log: Ended = ran([CLIENT, "metrics", "--log", f"{room}/nowhere"])
    same("no log", (lost_log.status, 'source="log"} 0' in lost_log.output), (3, True))
