"""The drill with two machines: copies are kept of the first one's file, it is lost, and the second one takes over, by
the scripts of examples/. Each machine is a folder, with a `systemctl` that starts and stops the program on a port of
its own. A second machine has to refuse while the first one answers, if its address is misspelt, or without a sound
copy, and then to change nothing. After it took over it answers what the first one did as the copy was made; and once
what `holzhebo who` lists is sent again, what the first one did last."""
import datetime, json, os, re, shutil, socket, tempfile, threading, time
from collections.abc import Iterator
import pytest
from tests.operate.service import Service, content, flip
from tests.process import TOP, free_port, ran, run
from tests.wire import Wrong, same
from tests.world import RED

pytestmark = pytest.mark.needs("curl", "sqlite3")
COPY = r"broker-\d{4}-\d\d-\d\dT\d{6}Z\.db"
DEPLOYMENT = '{"pacticipant":"shop","version":"3"}'


@pytest.fixture
def second(open_program: str) -> Iterator[Service]:
    """A machine that served once, so that it has a file of its own, which is kept."""
    with tempfile.TemporaryDirectory() as room:
        os.chmod(room, 0o755)
        it = Service(open_program, room)
        it.start()
        it.systemctl("stop")
        yield it
        it.systemctl("stop")


def keep(machine: Service, count: object, status: int = 0, file: str | None = None) -> str:
    words = [machine.program, file or machine.file, f"{machine.room}/backup", str(count), "broker"]
    return run(["examples/keep-copies.sh", *words], status, machine.env)


def copies(machine: Service) -> list[str]:
    return sorted(os.listdir(f"{machine.room}/backup"))


def test_kept(service: Service) -> None:
    """The newest copies stay, and what isn't a copy; a backup that fails removes nothing."""
    with open(f"{service.room}/backup/broker-of-old.db", "w", encoding="ascii"):
        pass
    names = []
    for _ in range(4):
        keep(service, 3)
        names.append(max(it for it in copies(service) if re.fullmatch(COPY, it)))
    same("the copies that stay", copies(service), [*names[1:], "broker-of-old.db"])
    wrong: list[tuple[object, str | None]] = [(1, "/nowhere.db"), (0, None), ("all", None)]
    for count, file in wrong:
        keep(service, count, 1, file)
    same("the copies after what was refused", copies(service), [*names[1:], "broker-of-old.db"])


def fetch(first: Service, second: Service) -> None:
    """The second machine gets what copies the first one has."""
    shutil.rmtree(f"{second.room}/backup")
    shutil.copytree(f"{first.room}/backup", f"{second.room}/backup")


def take_over(first: Service, second: Service, status: int = 0, other: str | None = None, **env: str) -> str:
    words = ["examples/take-over.sh", second.program, f"{second.room}/backup", second.file, "broker"]
    return run([*words, other or first.url, second.url], status, {**second.env, **env})


def refuses(first: Service, second: Service, why: str, other: str | None = None, **env: str) -> None:
    before = content(second.folder)
    take_over(first, second, 1, other, **env)
    same(f"the second machine's files with {why}", content(second.folder) == before, True)
    same(f"whether the second machine serves with {why}", second.is_served(), False)


def test_cut_off(service: Service, second: Service) -> None:
    """The first machine is lost as its newest copy is fetched: it is said what to do, and then the one before is taken."""
    before = service.answers()
    keep(service, 3)
    service.do("POST", "/environments/live/deployments", RED, DEPLOYMENT)
    keep(service, 3)
    fetch(service, second)
    service.lose_power()
    newest = f"{second.room}/backup/{copies(second)[-1]}"
    os.truncate(newest, os.path.getsize(newest) // 2)
    words = ["examples/take-over.sh", second.program, f"{second.room}/backup", second.file, "broker", service.url]
    ended = ran([*words, second.url], env={**os.environ, **second.env})
    said = f"if {copies(second)[-1]} can't be served, as one that was being fetched, move it away: "
    same("how it ends", (ended.status, said in ended.errors.splitlines()[-1]), (1, True))
    os.rename(newest, f"{second.room}/cut-off.db")
    take_over(service, second)
    same("the answers of the second machine", second.answers(), before)


def test_refused(service: Service, second: Service) -> None:
    """Nobody takes over from a machine that answers, nor without a sound copy."""
    keep(service, 3)
    fetch(service, second)
    refuses(service, second, "a first machine that serves")
    service.lose_power()
    newest = f"{second.room}/backup/{[it for it in copies(second) if re.fullmatch(COPY, it)][-1]}"
    flip(newest)
    refuses(service, second, "a damaged copy")
    shutil.rmtree(f"{second.room}/backup")
    os.mkdir(f"{second.room}/backup")
    refuses(service, second, "no copy")


def test_misspelt(service: Service, second: Service) -> None:
    """An address that can't be asked isn't one that is silent."""
    keep(service, 3)
    fetch(service, second)
    port = service.port
    wrong = [f"htps://127.0.0.1:{port}", f"http://127.0.0.1:{port}00", f"http://127.0.0.1: {port}"]
    wrong += ["http://127.0.0.1:239710", "http://first.invalid", "first.example.org", "x y", "http://", "-k"]
    wrong += [f"http://user@127.0.0.1:{port}", f"http://127.0.0.1:{port}/x"]
    for other in wrong:
        refuses(service, second, other, other)
    refuses(service, second, "the first machine asked by TLS", f"https://127.0.0.1:{port}")
    refuses(service, second, "a proxy in the environment", http_proxy="http://127.0.0.1:1")
    with socket.create_server(("127.0.0.1", free_port())) as closing:
        closing.listen(8)
        refuses_closing(service, second, closing)


def refuses_closing(service: Service, second: Service, closing: socket.socket) -> None:
    """Who takes the connection and closes it isn't silent."""
    def close() -> None:
        peer, _ = closing.accept()
        peer.recv(1000)
        peer.close()

    it = threading.Thread(target=close)
    it.start()
    refuses(service, second, "a machine that closes", "http://127.0.0.1:%d" % closing.getsockname()[1])
    it.join()


def test_date_to_come(service: Service, second: Service) -> None:
    keep(service, 3)
    fetch(service, second)
    service.lose_power()
    name, = copies(second)
    shutil.copy(f"{second.room}/backup/{name}", f"{second.room}/backup/broker-2099-01-01T000000Z.db")
    refuses(service, second, "a copy with a date to come")
    os.remove(f"{second.room}/backup/broker-2099-01-01T000000Z.db")
    take_over(service, second)


def test_folder_like_an_option(service: Service, second: Service) -> None:
    keep(service, 3)
    before = service.answers()
    service.lose_power()
    shutil.copytree(f"{service.room}/backup", f"{second.room}/-x")
    words = [f"{TOP}/examples/take-over.sh", second.program, "-x", second.file, "broker", service.url, second.url]
    run(["env", "-C", second.room, *words], 0, second.env)
    same("the answers of the second machine", second.answers(), before)


def line(moment: datetime.datetime, method: str, path: str, body: str) -> str:
    """A line of nginx's log, as examples/nginx.conf writes it."""
    said = {"time": moment.isoformat(timespec="milliseconds"), "team": "red", "method": method, "path": path}
    return json.dumps({**said, "status": 200, "seconds": 0.001, "body": body}) + "\n"


def test_taken_over(service: Service, second: Service) -> None:
    """The first machine is lost after a change that no copy has."""
    early = datetime.datetime.now(datetime.timezone.utc)
    time.sleep(1.1)
    keep(service, 3)
    fetch(service, second)
    at_copy = service.answers()
    time.sleep(1.1)
    service.do("POST", "/environments/live/deployments", RED, DEPLOYMENT)
    with open(f"{service.room}/broker.log", "w", encoding="utf-8") as log:
        log.write(line(early, "PUT", "/pacticipants/shop/versions/3", ""))
        late = datetime.datetime.now(datetime.timezone.utc)
        log.write(line(late, "POST", "/environments/live/deployments", DEPLOYMENT))
    last = service.answers()
    if at_copy == last:
        raise Wrong("the change isn't in the answers")
    service.lose_power()
    *_, start, said = take_over(service, second).rstrip("\n").split("\n")
    same("what is said of the next start", start, "broker isn't started with this machine: systemctl enable broker")
    same("the answers of the second machine", second.answers(), at_copy)
    since = re.fullmatch(r"send again what was changed since (\d{4}-\d\d-\d\dT\d\d:\d\d:\d\d\+00:00)", said)
    if not since:
        raise Wrong(f"take-over.sh says last: {said}")
    words = ["client/holzhebo", "who", "--since", since[1], "--log", f"{service.room}/broker.log"]
    again = run(words).splitlines()
    same("changes to send again", [len(again), "/environments/live/deployments" in again[0]], [1, True])
    second.do("POST", "/environments/live/deployments", RED, DEPLOYMENT)
    same("the answers once it is sent again", second.answers(), last)


def test_enabled(service: Service, second: Service) -> None:
    keep(service, 3)
    fetch(service, second)
    service.lose_power()
    with open(f"{second.room}/enabled", "w", encoding="ascii"):
        pass
    same("whether that is said", "systemctl enable" in take_over(service, second), False)
