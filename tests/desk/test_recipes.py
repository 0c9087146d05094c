"""What the page's recipes for nginx and Caddy promise, asked of them; and the lines of docs/DESK.md."""
from __future__ import annotations

import http.client, json, os, re, signal, subprocess, tempfile
from typing import Any

import pytest

from tests.desk.browser import Browser
from tests.desk.scenes import holders
from tests.desk.seen import cells, signs_in
from tests.desk.shown import AFTER, BOARD, OLDER
from tests.desk.world import DENIED, PAGE, POLICY, READER, RED, World, by_caddy, write
from tests.process import TOP, await_port, free_port, run, text_of
from tests.proxy import Caddy, Proxy
from tests.wire import OFFICE, Wrong, same

pytestmark = [pytest.mark.needs("nginx", "curl"), pytest.mark.xdist_group("the recipes of the page")]


def asked(port: int, token: str, ask: str, body: str = "") -> tuple[int, str, Any]:
    method, path = ask.split(" ", 1)
    it = http.client.HTTPConnection("127.0.0.1", port, timeout=60)
    it.request(method, path, body.encode() if method != "GET" else None, {"authorization": token})
    answer = it.getresponse()
    result = answer.status, answer.read().decode(), answer.headers
    it.close()
    return result


WRITES = [
    "PUT /teams/green",
    "PUT /pacticipants/shop/versions/1.4",
    "POST /environments/live/deployments",
    "DELETE /grants/team/red/environment/dev",
]


def recipe(world: World, proxy: Proxy) -> None:
    """What a proxy's recipe promises, asked of it."""
    port, reader = proxy.port, f"Bearer {READER}"
    files = {"": "desk/index.html", "desk.json": "examples/demo-desk.json", **{it: f"desk/{it}" for it in PAGE}}
    for name, file in files.items():
        status, body, headers = asked(port, reader, f"GET /desk/{name}")
        policy = headers["content-security-policy"]
        same(f"/desk/{name}", (status, body, policy), (200, text_of(file), POLICY))
    same("what else is in the folder's place", asked(port, "", "GET /desk/..%2fnginx.conf")[0] in (400, 404), True)
    shown = world.server.ask("GET", "/environments/live")
    listing = shown.status, shown.body
    same("GET by the token that reads", asked(port, reader, "GET /environments/live")[:2], listing)
    for ask in WRITES:
        same(f"{ask} by it", asked(port, reader, ask, "{}")[:2], (401, DENIED))
    for method in "HEAD", "OPTIONS", "PATCH":
        same(f"{method} by it", asked(port, reader, f"{method} /environments/live")[0], 501)
    others = f"Bearer {READER}x", f"Bearer x{READER}", f"Bearer {READER.upper()}", f"Bearer {READER}, Bearer {OFFICE}"
    for token in "", "Bearer", f"Basic {READER}", *others:
        same(f"GET by {token}", asked(port, token, "GET /environments/live")[:2], (401, DENIED))
    team = asked(port, f"Bearer {RED}", "PUT /pacticipants/shop/versions/1.4", '{"branch":"main"}')
    same("a team's token", team[:2], (200, '{"answer":"already"}'))
    with world.without_broker():
        same("without a broker", asked(port, reader, "GET /environments/live")[0], 502)
    same("with a broker again", asked(port, reader, "GET /environments/live")[:2], listing)


def test_nginx(world: World) -> None:
    recipe(world, world.nginx)


@pytest.mark.needs("caddy")
def test_caddy(world: World, caddy: Caddy) -> None:
    by_caddy(caddy, world.server.port, world.page)
    recipe(world, caddy)
    same("files of Caddy with a token", holders(f"{caddy.room}/.config", "token-0"), [])
    same("what Caddy listens on", listened(caddy), [f"127.0.0.1:{caddy.port}"])


def listened(proxy: Proxy) -> list[str]:
    """Where a proxy listens, by ss."""
    assert proxy.process
    rows = run(["ss", "-Hltnp"]).splitlines()
    return sorted(row.split()[3] for row in rows if f"pid={proxy.process.pid}," in row)


# docs/DESK.md


@pytest.mark.needs("sqlite3")
def test_lines_over_a_copy(world: World, program: str, room: str) -> None:
    """The SQL of docs/DESK.md over a backup."""
    query = re.search(r"(?m)^```\n(sqlite3 COPY .*?)^```$", text_of("docs/DESK.md"), re.S)
    if not query:
        raise Wrong("docs/DESK.md has no query")
    copy = f"{room}/copy.db"
    run(["examples/backup.sh", program, world.server.file, copy, str(world.server.process.pid)])
    same("consumers with an older contract", run(["bash", "-c", query[1].replace("COPY", copy)]), OLDER)


def test_lines_of_the_client(world: World) -> None:
    """The lines of the client in docs/DESK.md, in their order: each ends with 0."""
    blocks = re.findall(r"(?m)^```\n((?:#|holzhebo ).*?)^```$", text_of("docs/DESK.md"), re.S)
    lines = [it for block in blocks for it in block.splitlines() if not it.startswith("#")]
    same("lines", (len(blocks), len(lines), {it.split()[0] for it in lines}), (3, 7, {"holzhebo"}))
    folder = tempfile.mkdtemp(dir=world.room)
    for caller, token in ("office", OFFICE), ("red", RED):
        write(f"{folder}/{caller}.token", f"authorization: Bearer {token}\n")
    env = {"HOLZHEBO_BROKER": world.server.url, "HOLZHEBO_TOKEN_FILE": "red.token"}
    own = f'cd {folder}\nholzhebo() {{ {TOP}/client/holzhebo "$@"; }}\n'
    run(["bash", "-euo", "pipefail", "-c", own + "\n".join(lines)], env=env)
    listing = json.loads(world.server.ask("GET", "/environments/live").body)
    told = {key: [(it["pacticipant"], it["version"], it.get("instance", "")) for it in listing[key]] for key in AFTER}
    same("what is in live afterwards", told, AFTER)


@pytest.mark.needs("caddy", "chromium")
def test_pasted_caddy(world: World, program: str, room: str) -> None:
    """The block of docs/DESK.md that serves the demo by Caddy, pasted, with the board in a browser."""
    block = re.search(r"(?m)^```\n(room=.*?)^```$", text_of("docs/DESK.md"), re.S)
    if not block:
        raise Wrong("docs/DESK.md has no block that serves the demo")
    ports = {"127.0.0.1:9292": f"127.0.0.1:{free_port()}", "127.0.0.1:9393": f"127.0.0.1:{free_port()}"}
    lines = block[1].replace("crates/broker/out/broker", program)
    for usual, other in ports.items():
        lines = lines.replace(usual, other)
    places = {"BROKER": ports["127.0.0.1:9292"], "ADDRESS": "http://" + ports["127.0.0.1:9393"]}
    env = {**os.environ, "TMPDIR": room, "HOME": room, **places}
    pipes: dict[str, Any] = {"stdout": subprocess.DEVNULL, "stderr": subprocess.DEVNULL, "start_new_session": True}
    pasted = subprocess.Popen(["bash", "-c", lines], cwd=TOP, env=env, **pipes)
    try:
        await_port(int(places["ADDRESS"].rsplit(":", 1)[1]), pasted)
        with Browser(f"{room}/pasted") as page:
            world.url = places["ADDRESS"] + "/desk/"
            signs_in(page, world, READER)
            same("the board of the block", cells(page), BOARD)
    finally:
        os.killpg(pasted.pid, signal.SIGTERM)
        pasted.wait(30)
