"""The proxies that tests put before a broker: nginx and Caddy, each with a configuration and a folder of its own."""
import os, signal, subprocess, time
from collections.abc import Callable, Mapping
from tests.process import await_port, free_port, run, text_of
from tests.wire import PATIENCE, Wrong


def await_that(holds: Callable[[], bool], what: str) -> None:
    """Waits until it holds."""
    end = time.monotonic() + PATIENCE
    while not holds():
        if time.monotonic() > end:
            raise Wrong(f"it doesn't come to this: {what}")
        time.sleep(0.02)


class Proxy:
    """A proxy that has a folder and a port of its own. It serves what it is started with."""

    process: "subprocess.Popen[bytes] | None" = None

    def __init__(self, room: str) -> None:
        self.room, self.port = room, free_port()
        self.home = {"HOME": room, "XDG_DATA_HOME": room}

    def written(self, name: str, text: str) -> str:
        with open(f"{self.room}/{name}", "w", encoding="utf-8") as it:
            it.write(text)
        return f"{self.room}/{name}"

    def log(self, name: str) -> str:
        """What a file in its folder holds; nothing if it isn't there."""
        path = f"{self.room}/{name}"
        if not os.path.exists(path):
            return ""
        with open(path, encoding="utf-8", errors="replace") as it:
            return it.read()

    def begin(self, words: list[str], env: Mapping[str, str]) -> None:
        with open(f"{self.room}/errors", "ab") as errors:
            streams = {"stdin": subprocess.DEVNULL, "stdout": errors, "stderr": errors}
            self.process = subprocess.Popen(words, env={**os.environ, **self.home, **env}, **streams)  # type: ignore
        await_port(self.port, self.process, lambda: self.log("errors"))

    def stop(self) -> None:
        if self.process:
            self.process.terminate()
            self.process.wait(PATIENCE)
            self.process = None


class Nginx(Proxy):
    """nginx with blocks of its `http`, which listen on self.port."""

    def start(self, recipe: str) -> "Nginx":
        whose = "user root; " if os.geteuid() == 0 else ""
        kinds = "client_body", "proxy", "fastcgi", "uwsgi", "scgi"
        paths = " ".join(f"{it}_temp_path {self.room}/{it};" for it in kinds)
        own = f"{whose}daemon off; pid {self.room}/pid; events {{ worker_connections 1024; }}"
        main = self.written("main.conf", f"{own}\nhttp {{ {paths} access_log {self.room}/access;\n{recipe}\n}}\n")
        self.begin(["nginx", "-p", self.room, "-e", f"{self.room}/errors", "-c", main], {})
        return self

    def workers(self) -> set[str]:
        assert self.process
        return set(text_of(f"/proc/{self.process.pid}/task/{self.process.pid}/children").split())

    def reload(self) -> None:
        """Lets it read its files again, and waits until only new workers serve. Its port is listened on before it has a
        worker, as it starts."""
        assert self.process
        await_that(lambda: bool(self.workers()), "it has a worker")
        before = self.workers()
        self.process.send_signal(signal.SIGHUP)
        await_that(lambda: not before & self.workers(), "the former workers have ended")


class Caddy(Proxy):
    """Caddy with a Caddyfile, which listens on self.port and has an address for its admin in it."""

    def start(self, recipe: str, **env: str) -> "Caddy":
        words = ["--config", self.written("Caddyfile", recipe), "--adapter", "caddyfile"]
        self.words = words
        self.begin(["caddy", "run", *words], env)
        return self

    def reload(self) -> None:
        run(["caddy", "reload", *self.words, "--force"], env=self.home)
