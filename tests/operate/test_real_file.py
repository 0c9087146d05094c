"""The file of a broker is real: it is made, served, read by sqlite3, copied, and the copy answers the same. Then the
program is killed by signal 9 in the middle of a stream of commands, twenty times: every command that was acknowledged
is there. Then the disk refuses a write (a limit on the size of files): the command is answered 500, the next connection
finds the file opened again, and nothing that was acknowledged is lost."""
import contextlib, http.client, random, resource, threading
import pytest
from tests.process import Server, ran, run
from tests.wire import OFFICE, request, same
from tests.world import BLUE, DONE, RED, new_file

pytestmark = pytest.mark.needs("sqlite3")
PACT = (
    '{"consumer":{"name":"shop"},"provider":{"name":"stock"},"interactions":[{"description":"a book","request":'
    '{"method":"GET","path":"/books/1"},"response":{"status":200,"body":{"id":1,"title":"Ada"},"matchingRules":{"body":'
    '{"$.id":{"matchers":[{"match":"integer"}]}}}}}],"metadata":{"pactSpecification":{"version":"3.0.0"}}}'
)
ABSENT = (
    '{"answer":"not permitted","faults":[{"consumer":"shop","consumerVersion":"1","kind":"absent","provider":"stock",'
    '"providerVersion":null}]}'
)
LISTING = (
    '{"answer":"shown","deployed":[{"instance":"","pacticipant":"stock","version":"1"}],"environment":"live",'
    '"gated":true,"released":[]}'
)
GATE = "/can-i-deploy?pacticipant=shop&version=1&environment=live"
CONTRACT = "/pacts/provider/stock/consumer/shop/version/1"
DEPLOYMENTS = "/environments/live/deployments"


def ask(file: str, text: str) -> str:
    """What sqlite3 answers over the file."""
    return run(["sqlite3", file, text]).rstrip("\n")


def sound(file: str) -> None:
    same("integrity_check", ask(file, "PRAGMA integrity_check"), "ok")
    same("foreign_key_check", ask(file, "PRAGMA foreign_key_check"), "")


def register(server: Server) -> None:
    for path, body in [
        ("/teams/red", '{"token":"red-team-token-01"}'),
        ("/teams/blue", '{"token":"blue-team-token-1"}'),
        ("/environments/live", '{"gated":true}'),
        ("/pacticipants/shop", '{"team":"red"}'),
        ("/pacticipants/stock", '{"team":"blue"}'),
        ("/grants/team/red/environment/live", ""),
        ("/grants/team/blue/environment/live", ""),
    ]:
        server.gives((200, DONE), "PUT", path, OFFICE, body)


def deployed(server: Server) -> None:
    """What is asked over a new file."""
    register(server)
    server.gives((200, '{"answer":"done","content":1}'), "PUT", CONTRACT, RED, PACT)
    server.gives((200, '{"answer":"already","content":1}'), "PUT", CONTRACT, RED, PACT)
    server.gives((409, ABSENT), "POST", DEPLOYMENTS, RED, '{"pacticipant":"shop","version":"1"}')
    server.gives((200, DONE), "PUT", "/pacticipants/stock/versions/1", BLUE)
    server.gives((200, DONE), "POST", DEPLOYMENTS, BLUE, '{"pacticipant":"stock","version":"1"}')
    server.gives((200, LISTING), "GET", "/environments/live", RED)


def failing_peers(server: Server) -> None:
    """One that sends nothing, one that stops in the middle of a body, and one that never reads."""
    server.open().close()
    with server.open() as peer:
        peer.sendall(request("PUT", "/teams/green", OFFICE, '{"token":"a-token-of-green-1"}')[:-20])
    with server.open() as peer, contextlib.suppress(OSError):
        peer.sendall(request("GET", "/environments/live", RED) * 300)


def gate(program: str, file: str) -> tuple[int, str, str]:
    words = ["--token", RED, "--pacticipant", "shop", "--version", "1", "--to-environment", "live"]
    return ran([program, "can-i-deploy", "--file", file, *words])


def test_new_file(program: str, room: str) -> None:
    file = new_file(program, room)
    same("init again", ran([program, "init", "--file", file, "--office-token", OFFICE]), (3, "", "open 1\n"))


def test_served_and_copied(program: str, room: str) -> None:
    file = new_file(program, room)
    with Server(program, file) as server:
        deployed(server)
        failing_peers(server)
        server.gives((200, LISTING), "GET", "/environments/live", RED)
        answer = server.ask("GET", GATE, RED).body
        same("a second program on the file", gate(program, file), (3, "", "file\n"))
        server.stop()
    sound(file)
    same("teams", ask(file, "SELECT group_concat(name) FROM (SELECT name FROM teams ORDER BY name)"), "blue,red")
    versions = "SELECT group_concat(pacticipant || ' ' || version) FROM (SELECT * FROM versions ORDER BY number)"
    same("versions", ask(file, versions), "shop 1,stock 1")
    there = "SELECT d.environment || ' ' || v.pacticipant || ' ' || v.version FROM deployed d"
    same("deployed", ask(file, f"{there} JOIN versions v ON v.number = d.version_number"), "live stock 1")
    same("contents", ask(file, "SELECT count(*) FROM contents"), "1")
    copy = f"{room}/copy.db"
    run(["examples/backup.sh", program, file, copy])
    same("can-i-deploy over the copy", gate(program, copy), (1, f"{answer}\n", ""))
    with Server(program, copy) as server:
        server.gives((200, LISTING), "GET", "/environments/live", RED)
        same("gate of the copy", server.ask("GET", GATE, RED).body, answer)


def killed(server: Server, number: int, after: float) -> list[int]:
    """The versions that are acknowledged, from this number on, until the program is killed."""
    timer = threading.Timer(after, server.process.kill)
    timer.start()
    done = []
    with contextlib.suppress(OSError, http.client.HTTPException):
        while True:
            server.gives((200, DONE), "PUT", f"/pacticipants/shop/versions/kill-{number}", RED, '{"branch":"main"}')
            done.append(number)
            number += 1
    timer.join()
    return done


def test_killed(program: str, room: str) -> None:
    file, done, dice, number = new_file(program, room), list[int](), random.Random(20), 0
    with Server(program, file) as server:
        register(server)
        server.gives((200, DONE), "PUT", "/pacticipants/stock/versions/1", BLUE)
        server.gives((200, DONE), "POST", DEPLOYMENTS, BLUE, '{"pacticipant":"stock","version":"1"}')
    for _ in range(20):
        with Server(program, file) as server:
            done += killed(server, number, dice.uniform(0.2, 0.9))
        # What was not acknowledged may be there or not: the next round goes on after it.
        number = (done[-1] if done else number) + 2
    with Server(program, file) as server:
        server.gives((200, LISTING), "GET", "/environments/live", RED)
        server.stop()
    sound(file)
    there = set(ask(file, "SELECT version FROM versions WHERE version LIKE 'kill-%'").split("\n"))
    same(f"lost of {len(done)} acknowledged", [it for it in done if f"kill-{it}" not in there], [])
    assert len(done) > 100, len(done)


def test_full_disk(program: str, room: str) -> None:
    file, teams, stores, after = new_file(program, room), list[str](), 0, 0
    with Server(program, file, limits=[(resource.RLIMIT_FSIZE, 300 * 1024)]) as server:
        for number in range(1, 401):
            name = f"team-{number}"
            body = server.ask("PUT", f"/teams/{name}", OFFICE, '{"token":"team-token-number-%d"}' % number).body
            if body == DONE:
                teams.append(name)
                after += stores > 0
            else:
                same(name, body, '{"answer":"store"}')
                stores += 1
            if after == 5:
                break
        server.stop()
    assert stores > 0, "the disk took all"
    assert after > 0, "nothing is done after a write that was refused"
    with Server(program, file) as server:
        server.gives((200, DONE), "PUT", "/teams/last", OFFICE, '{"token":"team-token-of-the-last"}')
        server.stop()
    same("integrity_check", ask(file, "PRAGMA integrity_check"), "ok")
    there = set(ask(file, "SELECT name FROM teams").split("\n"))
    same("teams lost", [it for it in teams if it not in there], [])
