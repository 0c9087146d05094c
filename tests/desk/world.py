"""Where the page of desk/ is tried: the program with the demo, a proxy by a recipe of examples/, the page's files."""
from __future__ import annotations

import contextlib, os, re, shutil
from collections.abc import Iterator

from tests.client.tools import Reply, Serving
from tests.process import TOP, Server, run, text_of
from tests.proxy import Caddy, Nginx, Proxy
from tests.wire import OFFICE, Wrong, same
from tests.world import new_file

RED, BLUE, READER = "red-team-token-0001", "blue-team-token-0001", "desk-token-000001"
DENIED = '{"answer":"denied","rule":"A1"}'
# The page's files, and what its proxies say of them.
PAGE = sorted(it for it in os.listdir(f"{TOP}/desk") if it != "desk.json")
POLICY = (
    "default-src 'none'; script-src 'self'; style-src 'self'; connect-src 'self';"
    " frame-ancestors 'none'; base-uri 'none'; form-action 'none'"
)


def write(path: str, text: str) -> None:
    with open(path, "w", encoding="utf-8") as it:
        it.write(text)


def place(folder: str, *edits: tuple[str, str]) -> None:
    """The page's files in a folder, with the demo's names and these edits of its scripts; each finds one place."""
    shutil.rmtree(folder, ignore_errors=True)
    shutil.copytree(f"{TOP}/desk", folder)
    shutil.copy(f"{TOP}/examples/demo-desk.json", f"{folder}/desk.json")
    scripts = {it: text_of(f"desk/{it}") for it in PAGE if it.endswith(".js")}
    for old, new in edits:
        files = [it for it, text in scripts.items() if old in text]
        same(f"how often the page has {old}", sum(text.count(old) for text in scripts.values()), 1)
        scripts[files[0]] = scripts[files[0]].replace(old, new)
    for name, text in scripts.items():
        write(f"{folder}/{name}", text)


def by_nginx(it: Nginx, broker: int, folder: str) -> Nginx:
    """Starts the page's recipe for nginx."""
    recipe = text_of("examples/desk-nginx.conf").replace("127.0.0.1:9393", f"127.0.0.1:{it.port}")
    return it.start(
        recipe.replace("127.0.0.1:9292", f"127.0.0.1:{broker}").replace("/usr/local/share/broker/desk", folder)
    )


def by_caddy(it: Caddy, broker: int, folder: str) -> Caddy:
    """Starts the page's recipe for Caddy."""
    env = {"ADDRESS": f"http://127.0.0.1:{it.port}", "BROKER": f"127.0.0.1:{broker}", "FOLDER": folder}
    return it.start(text_of("examples/desk.Caddyfile"), **env, DESK_TOKEN=READER, OFFICE_TOKEN=OFFICE)


def stub(port: int, status: int, body: str) -> Serving:
    """Something else in the broker's place, which has one answer."""
    return Serving(lambda _: Reply(status, (), body.encode()), port)


class World:
    """The program with the demo, nginx before it, and the page, with edits if it is a wrong one."""

    def __init__(self, program: str, room: str) -> None:
        self.room, self.page = room, f"{room}/desk"
        self.server = Server(program, new_file(program, room))
        self.nginx: Proxy = Nginx(room)
        self.url = f"http://127.0.0.1:{self.nginx.port}/desk/"
        place(self.page)

    def __enter__(self) -> World:
        self.server.start()
        told = run(["examples/demo.sh", self.server.url])
        if self.server.url not in told:
            raise Wrong(f"the demo says {told}")
        self.start_proxy()
        return self

    def start_proxy(self) -> None:
        assert isinstance(self.nginx, Nginx)
        by_nginx(self.nginx, self.server.port, self.page)

    def __exit__(self, *_: object) -> None:
        self.nginx.stop()
        self.server.kill()

    @contextlib.contextmanager
    def without_broker(self) -> Iterator[None]:
        """The broker is stopped meanwhile, and started again."""
        self.server.stop()
        self.server.kill()
        try:
            yield
        finally:
            self.server.start()

    @contextlib.contextmanager
    def without_proxy(self) -> Iterator[None]:
        self.nginx.stop()
        try:
            yield
        finally:
            self.start_proxy()

    def requests(self) -> list[tuple[str, str]]:
        """Method and target of each request that came to nginx."""
        return re.findall(r'"(\S+) (\S+) HTTP/1\.1" \d+ ', self.nginx.log("access"))

    def forget_requests(self) -> None:
        os.truncate(f"{self.room}/access", 0)
