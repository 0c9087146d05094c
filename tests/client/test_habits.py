"""Named brokers, doctor, formats, the names of the Pact Broker's client; and the library."""
import json, os, re
from typing import List
import pytest

from holzhebo.api import Broker, NotPermitted, Refused, Stop
from tests.client.flaky import EMPTY
from tests.client.tools import CLIENT, PYTHON, Asked, Client, Reply, Serving
from tests.process import Server, ran, text_of
from tests.wire import OFFICE, same
from tests.world import BLUE, RED, pact


def test_named_brokers(fleet: Server, client: Client, room: str) -> None:
    """Brokers of config.ini by their names, with a default; options may come before the command."""
    os.makedirs(f"{room}/.config/holzhebo")
    with open(f"{room}/.config/holzhebo/config.ini", "w", encoding="utf-8") as it:
        it.write(f"[holzhebo]\ndefault = one\n[one]\nurl = {fleet.url}\ntoken-file = {room}/red.token\n")
        it.write(
            "[two]\nurl = http://127.0.0.1:1\ntoken-file = ~/blue.token\npatience = 0\n[odd]\nurl = x\ntoken = y\n"
        )
    env = {**client.env("red"), "HOLZHEBO_BROKER": "", "HOLZHEBO_TOKEN_FILE": ""}
    for words, status in (
        (["status"], 0),
        (["--broker", "one", "status"], 0),
        (["status", "--broker", "two"], 3),
        (["--broker=two", "status"], 3),
        (["--json", "--patience", "3", "status", "live"], 0),
        (["status", "--broker", "odd"], 3),
        (["--format", "x", "status"], 2),
    ):
        done = ran([*PYTHON, CLIENT, *words], env=env, cwd=room)
        same(f"{words}: {done.errors}", done.status, status)


def test_tokens_by_service(fleet: Server, client: Client, room: str) -> None:
    """A change of what is deployed takes the service's token of the folder, and nothing else does."""
    for folder in "tokens", ".config/holzhebo":
        os.makedirs(f"{room}/{folder}")
    for service, team in {"stock": "blue", "shop": "red", "a%2Fb": "red", "mail": "nobody"}.items():
        os.symlink(f"../{team}.token", f"{room}/tokens/{service}.token")
    with open(f"{room}/.config/holzhebo/config.ini", "w", encoding="utf-8") as it:
        it.write(f"[live]\nurl = {fleet.url}\ntoken-file = ~/office.token\ntokens = ~/tokens\n")
    for name in "a/b", "mail", "web":
        fleet.do("PUT", f"/pacticipants/{name.replace('/', '%2F')}", OFFICE, '{"team":"red"}')
    for name in "a%2Fb", "web":
        fleet.do("PUT", f"/pacticipants/{name}/versions/1", RED)
    env = {**client.env("red"), "HOLZHEBO_BROKER": "live", "HOLZHEBO_TOKEN_FILE": ""}
    no_token = f"holzhebo: {room}/tokens/web.token can't be read: No such file or directory\n"
    for words, status, errors in (
        ("undeploy stock 1 live", 0, ""),
        ("deploy stock 1 live", 0, ""),
        ("release a/b 1 live", 0, ""),
        ("end-support a/b 1 live", 0, ""),
        ("record-deployment --pacticipant stock --version 1 --environment live", 0, ""),
        ("record-undeployment stock live", 0, ""),
        # the office's: it may ask for every service
        ("can-i-deploy stock 1 live", 0, ""),
        ("matrix web 1", 0, ""),
        ("deploy mail 1 live", 3, "holzhebo: the broker doesn't know this token\n"),
        ("deploy web 1 live", 3, no_token),
        ("deploy web 1 live --token-file red.token", 0, ""),
    ):
        done = ran([*PYTHON, CLIENT, *words.split()], env=env, cwd=room)
        same(words, (done.status, done.errors), (status, errors))


def test_an_address_of_any_letters(room: str) -> None:
    """They are sent as escapes; those that are written so stay."""
    asked: List[str] = []

    def keeps(it: Asked) -> Reply:
        asked.append(it.path)
        return Reply(body=json.dumps(EMPTY).encode())

    with Serving(keeps) as it:
        done = Client(room, f"{it.url}/br\u00f6ker a/%C3%A9/").run("red", "status", "live")
    same("status", (done.status, done.errors), (0, ""))
    same("what is asked", asked, ["/br%C3%B6ker%20a/%C3%A9/environments/live"])


def test_doctor(fleet: Server, client: Client) -> None:
    rows = json.loads(client.done("red", "doctor", "shop", "--json"))
    same(
        "all is well",
        [(it["outcome"], it["what"]) for it in rows],
        [("ok", it) for it in ("address", "way", "connection", "clock", "token", "shop")],
    )
    rows = json.loads(client.done("red", "doctor", "shop", "stock", "--for", "live", "--json"))
    other = "1; another team's: this token may not ask for it, publish or deploy (A6, A3, A4, A7)"
    same(
        "what red's token may do",
        [(it["outcome"], it["what"], it["found"]) for it in rows[-3:]],
        [
            ("ok", "live", "gated"),
            ("ok", "shop in live", "isn't there, so whose it is can't be asked"),
            ("ok", "stock in live", other),
        ],
    )
    own = "1; this token may ask for it (A6), and if it isn't the office's or one that reads, publish (A3, A4)"
    for caller in "blue", "office":
        rows = json.loads(client.done(caller, "doctor", "stock", "--for", "live", "--json"))
        same(f"what {caller}'s token may do", rows[-1]["found"], own)
    done = client.run("red", "doctor", "--for", "liv")
    same("a misspelt environment", (done.status, done.output.split("\n")[-2].split(None, 2)[:2]), (3, ["wrong", "liv"]))
    done = client.run("red", "doctor", "stok")
    same("a misspelt name", (done.status, done.output.split("\n")[-2].split(None, 2)[:2]), (3, ["wrong", "stok"]))
    done = client.run("nobody", "doctor")
    same("a token that isn't known", (done.status, "wrong  token" in done.output), (3, True))


def test_doctor_behind_a_proxy(room: str) -> None:
    """A proxy that doesn't reach the broker is waited for once: within 2 seconds after 0.1, 0.3, 0.7 and 1.5."""
    asked: List[str] = []

    def answers(it: Asked) -> Reply:
        asked.append(it.path)
        return Reply(502, (), b"")

    with Serving(answers) as it:
        done = Client(room, it.url).run("red", "doctor", "shop", "--patience", "2")
    rows = [it.split() for it in done.output.splitlines()]
    same("status, and the end", (done.status, rows[-1][:2]), (3, ["wrong", "token"]))
    same("whether it is asked for longer", len(asked) > 5, False)


def test_the_names_of_the_pact_broker_s_client(fleet: Server, client: Client, room: str) -> None:
    with open(f"{room}/a.json", "w", encoding="utf-8") as it:
        it.write(pact("a book"))
    for line, status in (
        ("publish a.json --consumer-app-version 20 --branch main", 0),
        ("can-i-deploy --pacticipant shop --version 20 --to-environment live --output json", 0),
        ("can-i-deploy -a shop -e 2 --to-environment live --retry-while-unknown 2 --retry-interval 1", 1),
        ("record-deployment --pacticipant shop --version 20 --environment live", 0),
        ("record-deployment --pacticipant shop --version 20 --environment live --application-instance b", 0),
        ("record-undeployment --pacticipant shop --environment live --application-instance b", 0),
        ("record-release --pacticipant shop --version 20 --environment live", 0),
        ("record-support-ended --pacticipant shop --version 20 --environment live", 0),
        ("can-i-deploy shop --version 20 live", 0),
        ("can-i-deploy shop 20 live extra", 2),
        ("can-i-deploy --pacticipant shop 20", 2),
    ):
        same(line, client.run("red", *line.split()).status, status)


def test_format(fleet: Server, client: Client) -> None:
    same(
        "status",
        client.done("red", "status", "live", "--format", "{environment}\\t{state} {pacticipant} {version}"),
        "live\tdeployed stock 1\n",
    )
    same(
        "matrix",
        client.done("blue", "matrix", "stock", "1", "--format", "{consumer} {outcome} {evidence}"),
        "shop pass claimed\nshop pass checked\n",
    )
    done = client.run("red", "status", "live", "--format", "{versions}")
    same("no such field", (done.status, "there is no field versions" in done.errors), (2, True))


# The library


def test_the_library(fleet: Server) -> None:
    """One method a route: what is answered, what is refused, and what isn't a broker."""
    office, red, blue = (Broker(fleet.url, token) for token in (OFFICE, RED, BLUE))
    same(
        "made",
        [
            office.make_team("green", "green-team-token-1").answer,
            office.make_pacticipant("mail", "green").answer,
            office.make_environment("dev", gated=False).is_new,
            office.grant("green", "dev").answer,
            office.take_grant("green", "dev").answer,
            office.take_grant("green", "dev").answer,
        ],
        ["done", "done", True, "done", "done", "already"],
    )
    same("a version", red.name_version("shop", "9", "main").answer, "done")
    first = red.publish("shop", "9", "stock", pact("a book").encode())
    same("a contract", (first.answer, first.content), ("done", 1))
    same("its text", json.loads(red.contract("shop", "9", "stock"))["consumer"], {"name": "shop"})
    same("of a branch", red.newest_contract("shop", "main", "stock"), red.contract("shop", "9", "stock"))
    claimed = blue.claim("shop", "9", "stock", "1", True, "run 1")
    same("a result", (claimed.answer, blue.claim("shop", "9", "stock", "1", True, "run 1").answer), ("done", "already"))
    replies = [{"description": "a book", "response": {"status": 200}}]
    checked = blue.send_replies("shop", "9", "stock", "1", replies)
    same("replies", (checked.success, checked.failing), (True, []))
    same("the gate", red.can_i_deploy("shop", "9", "live").permitted, True)
    same("deployed", red.deploy("shop", "9", "live").is_new, True)
    same("there", red.environment("live").version_in("shop", ""), "9")
    same("matrix", red.matrix("shop", "9").rows[0].evidence, "checked")
    same(
        "released",
        [red.release("shop", "9", "live").answer, red.end_support("shop", "9", "live").answer],
        ["done", "done"],
    )
    same("undeployed", red.undeploy("shop", "9", "live").answer, "done")
    same("names", [red.knows_pacticipant(it) for it in ("shop", "stock", "stok")], [True, True, False])
    with pytest.raises(NotPermitted) as gate:
        red.deploy("shop", "2", "live")
    same("faults", [(it.kind, it.provider) for it in gate.value.faults], [("missing", "stock")])
    with pytest.raises(Refused) as refused:
        red.matrix("shop", "nine")
    same(
        "unknown",
        (refused.value.http_status, str(refused.value)),
        (404, "the broker doesn't know the version nine of shop"),
    )
    with pytest.raises(Stop):
        Broker("http://127.0.0.1:1", RED, patience=0).matrix("shop", "1")
    for it in office, red, blue:
        it.close()


def test_each_route_has_a_method() -> None:
    """The routes of docs/API.md, by how many there are of each method of HTTP."""
    table = text_of("docs/API.md").split("## Routes")[1].split("## Each route by curl")[0]
    source = text_of("client/src/holzhebo/api/broker.py")
    places = re.findall(r"(?m)^\| `?(?:PUT|GET|DELETE|POST)[^|]*", table)
    same("routes", len(places), 18)
    for part in "undeployments deployments releases support-ended /replies /results /can-i-deploy /matrix".split():
        same(part, part in source, True)
