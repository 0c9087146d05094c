"""Connections of a serving broker: how many there are, which fail, which are paused; a store, a pattern and memory that
fail. What is expected is from docs/OPERATING.md and docs/API.md."""
import json, resource, shutil, signal, socket, struct, subprocess, time
from collections.abc import Iterator
from typing import Any
import pytest
from tests.broker.parts import PACT, TEAM, Broker, has_rows, owned, put_team, reply, serving
from tests.kernel import in_table
from tests.players.files import statements
from tests.process import Server, text_of
from tests.proxy import await_that
from tests.wire import NotRun, all_of, bodies, next_answer, request, same
from tests.world import ALREADY, DONE

STORE, STOPPED = '{"answer":"store"}', '{"answer":"stopped"}'
PLACE = "/pacts/provider/stock/consumer/shop/version"


def test_connections_are_counted(broker: Broker, room: str) -> None:
    """Of N + 1 connections N are served, two of which fail; then the program ends with 0, and all is in the file."""
    file = broker.new_file(room)
    with broker.serving(file, 4) as it:
        peers, half = [it.open() for _ in range(5)], put_team("half")[:-5]
        for peer, text in zip(peers, [put_team("first"), half, half, put_team("fourth"), put_team("fifth")]):
            peer.sendall(text)
        peers[2].setsockopt(socket.SOL_SOCKET, socket.SO_LINGER, struct.pack("ii", 1, 0))
        for peer in peers[1:3]:
            peer.close()
        for peer in peers[0], peers[3], peers[4]:
            peer.shutdown(socket.SHUT_WR)
        answers = [all_of(peer) for peer in (peers[0], peers[3], peers[4])]
        for peer in peers:
            peer.close()
        same("the end", it.wait(), (0, "", ""))
    same("answers", [bodies(text) for text in answers], [[DONE], [DONE], []])
    same("rows beside the file", has_rows(f"{file}-wal"), False)
    with broker.serving(file) as it:
        found = it.send(*(put_team(name) for name in ("first", "half", "fourth", "fifth")))
    same("what is found", found, [ALREADY, DONE, ALREADY, DONE])


def test_a_connection_of_several_requests_is_one(broker: Broker, room: str) -> None:
    """And an address in use is `listen`."""
    with broker.serving(broker.new_file(room)) as it:
        other = broker.new_file(room, "other.db")
        same("another program there", broker(*serving(other, f"127.0.0.1:{it.port}")), (3, "", "listen\n"))
        with it.open() as peer:
            for name in "red", "blue", "green":
                peer.sendall(put_team(name))
                same(name, next_answer(peer).body, DONE)
        same("the end", it.wait(), (0, "", ""))


ELSEWHERE = "224.0.0.1:0 [::ffff:127.0.0.1]:0 [::]:0 0.0.0.0:0 255.255.255.255:0 192.0.2.1:0 localhost:0 127.0.0.1 :0"


@pytest.mark.parametrize("address", [*ELSEWHERE.split(), ""])
def test_an_address_that_is_not_of_loopback(broker: Broker, room: str, address: str) -> None:
    same(address, broker(*serving(broker.new_file(room), address)), (3, "", "listen\n"))


def test_only_loopback_is_listened_on(broker: Broker, room: str) -> None:
    """The kernel has a listener of this port at 127.0.0.1, and at no other address."""
    with broker.serving(broker.new_file(room)) as it, open("/proc/net/tcp", encoding="ascii") as table:
        places = [row.split()[1] for row in table if row.split()[3] == "0A"]
        port = f":{it.port:04X}"
        same("the listeners", [at for at in places if at.endswith(port)], [in_table(("127.0.0.1", it.port))])


def fill(peer: socket.socket, most: int) -> tuple[int, str]:
    """Names teams until one is answered otherwise than that it is done; tells how many are, and that answer."""
    for number in range(most):
        peer.sendall(put_team(f"t{number}"))
        if (answer := next_answer(peer).body) != DONE:
            return number, answer
    raise AssertionError("the file takes all")


def on_new_connections(served: Server, name: str, most: int) -> None:
    """Names the team, on a connection each, until it is done. A broker that is opened again is never a stopped one."""
    for _ in range(most):
        if (answer := served.send(put_team(name))) == [DONE]:
            return
        same("the first answer of a connection", answer, [STORE])
    raise AssertionError(f"nothing is done on {most} connections")


def test_a_store_that_fails(broker: Broker, room: str) -> None:
    """It is 500, then 503; the next connections are served by a broker that was opened again."""
    file = broker.new_file(room)
    with broker.serving(file, 1000, [(resource.RLIMIT_FSIZE, 300 * 1024)]) as it:
        with it.open() as peer:
            count, answer = fill(peer, 5000)
            same("the answer", answer, STORE)
            for _ in range(2):
                peer.sendall(request("GET", "/environments/live"))
                same("the next", next_answer(peer).body, STOPPED)
        on_new_connections(it, "last", 50)
    with broker.serving(file) as it:
        found = it.send(*(put_team(f"t{number}") for number in range(count)), put_team("last"))
    same("what is found", found, [ALREADY] * (count + 1))


def test_a_stored_pattern_that_is_refused(broker: Broker, room: str) -> None:
    """It is 500, and nothing changes."""
    file = broker.served_shop(room)
    replies = request("POST", f"{PLACE}/1/replies", TEAM, '{"providerApplicationVersion":"1",' + reply("7")[1:])
    with broker.serving(file) as it:
        answers = it.send(owned("stock"), request("PUT", f"{PLACE}/1", TEAM, PACT))
        same("answers", answers, [DONE, '{"answer":"done","content":1}'])
        same("the end", it.wait(), (0, "", ""))
    shutil.copyfile(file, f"{room}/sound.db")
    statements(file, "UPDATE contents SET body = replace(body, '[0-9]', '(a{1000}){1000}')")
    with broker.serving(file) as it:
        matrix = request("GET", "/matrix?pacticipant=shop&version=1", TEAM)
        before, answer, after = it.send(matrix, replies, matrix)
    same("the answer", answer, '{"answer":"pattern"}')
    same("the matrix", (before, json.loads(after)["rows"][0]["result"]), (after, None))
    with broker.serving(f"{room}/sound.db") as it:
        same("a sound one", it.send(replies), ['{"answer":"done","failing":[],"result":1,"success":true}'])


# A pause


def pause(process: "subprocess.Popen[Any]", seconds: float = 0.2) -> None:
    """Stops the process for so long, as a debugger or a backup does, and lets it go on."""

    def is_stopped() -> bool:
        return text_of(f"/proc/{process.pid}/stat").rsplit(") ", 1)[1].startswith("T")

    process.send_signal(signal.SIGSTOP)
    await_that(is_stopped, "it stops")
    time.sleep(seconds)
    process.send_signal(signal.SIGCONT)
    time.sleep(0.1)


# A pause before a request, or in the middle of its head or its body, how long each is and how many there are. The
# longest is longer than the limit for a request, which counts only what is waited for.
PAUSES = {"idle": (0, 0.2, 3), "head": (20, 0.2, 3), "body": (-5, 0.2, 3), "long": (20, 11, 1)}


def test_a_broker_that_is_paused_in_requests(broker: Broker, room: str) -> None:
    """Before a connection, a request, and in the middle of one: the client is answered."""
    with broker.serving(broker.new_file(room)) as it:
        pause(it.process)
        with it.open() as peer:
            for name, (cut, seconds, times) in PAUSES.items():
                text = put_team(name)
                peer.sendall(text[:cut] if cut else b"")
                time.sleep(0.2)
                for _ in range(times):
                    pause(it.process, seconds)
                peer.sendall(text[cut:])
                same(name, next_answer(peer).body, DONE)
        same("the end", it.wait(), (0, "", ""))


def test_a_broker_that_is_paused_in_an_answer(broker: Broker, room: str) -> None:
    """All of it comes. Twelve answers of 900 kB are more than the sockets take, so the broker waits for the client to
    read on: in all for less than the two seconds that answers have."""
    file, path = broker.served_shop(room), f"{PLACE}/2"
    text = PACT.replace('"headers":{"a":"1"}', '"headers":{"a":"1"},"body":"%s"' % ("x" * 900_000))
    with broker.serving(file, 2) as it:
        *answers, shown = it.send(owned("stock"), request("PUT", path, TEAM, text), request("GET", path, TEAM))
        same("answers", answers, [DONE, '{"answer":"done","content":1}'])
        with it.open() as peer:
            peer.sendall(request("GET", path, TEAM) * 12)
            got = b""
            for _ in range(6):
                time.sleep(0.05)
                pause(it.process)
                end = len(got) + 400_000
                while len(got) < end and (more := peer.recv(65536)):
                    got += more
            peer.shutdown(socket.SHUT_WR)
            got += all_of(peer)
        same("whole answers", [body == shown for body in bodies(got)], [True] * 12)
        same("the end", it.wait(), (0, "", ""))


# Memory, and many


def test_a_file_that_is_too_long_is_refused_without_reading_on(broker: Broker, room: str) -> None:
    """In 64 MiB: a file of a gigabyte, and one without an end."""
    limits = [(resource.RLIMIT_AS, 1 << 26)]
    if broker("--version", limits=limits).status != 0:
        raise NotRun("the program can't be started in 64 MiB")
    with open(f"{room}/large", "wb") as it:
        it.truncate(1 << 30)
    with open(f"{room}/pact", "w", encoding="utf-8") as text:
        text.write(PACT)
    for path in f"{room}/large", "/dev/zero":
        with open(path, "rb") as it:
            same(f"normalise {path}", broker("normalise", stdin=it, limits=limits), (3, "", "pact 1\n"))
        words = ["check", "--pact", path, "--replies", path]
        same(f"a pact of {path}", broker(*words, limits=limits), (3, "", "pact 1\n"))
        words = ["check", "--pact", f"{room}/pact", "--replies", path]
        same(f"replies of {path}", broker(*words, limits=limits), (3, "", "file\n"))


def consumer(name: str) -> Iterator[bytes]:
    """Requests that deploy a version of a pacticipant of its own, which has a contract with stock."""
    text = PACT.replace('"shop"', f'"{name}"')
    yield owned(name)
    yield request("PUT", f"/pacts/provider/stock/consumer/{name}/version/1", TEAM, text)
    yield request("POST", "/environments/dev/deployments", TEAM, '{"pacticipant":"%s","version":"1"}' % name)


def test_two_hundred_deployed_consumers(broker: Broker, room: str) -> None:
    """Each is listed, and the provider lacks a result for each."""
    names = [f"p{number}" for number in range(100, 300)]
    first = [put_team("red"), request("PUT", "/environments/dev", body='{"gated":false}')]
    first += [request("PUT", "/grants/team/red/environment/dev"), owned("stock")]
    first.append(request("PUT", "/pacticipants/stock/versions/1", TEAM))
    with broker.serving(broker.new_file(room), 201) as it:
        same("answers", it.send(*first), [DONE] * len(first))
        for number, name in enumerate(names, 1):
            same(name, it.send(*consumer(name)), [DONE, '{"answer":"done","content":%d}' % number, DONE])
    with broker.serving(it.file) as it:
        gate = request("GET", "/can-i-deploy?pacticipant=stock&version=1&environment=dev", TEAM)
        listed, shown = map(json.loads, it.send(request("GET", "/environments/dev", TEAM), gate))
    same("listed", listed["deployed"], [{"instance": "", "pacticipant": name, "version": "1"} for name in names])
    lacks = {"consumerVersion": "1", "kind": "missing", "provider": "stock", "providerVersion": "1"}
    same("lacking", shown["faults"], [{"consumer": name, **lacks} for name in names])
