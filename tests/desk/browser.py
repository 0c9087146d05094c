"""A Chromium without a window, driven by its DevTools protocol over two pipes.

    with Browser(room) as page:
        page.go("http://127.0.0.1:9393/desk/")
        page.wait("document.querySelector('h2')", "a heading")

What it reports meanwhile (console, faults, requests, addresses) is in page.events. It has a profile of its own, in the
room."""
import base64, fcntl, json, os, select, signal, subprocess, time
from collections.abc import Callable
from typing import Any

PATIENCE = 60
Answer = dict[str, Any]
# The keys that aren't letters, with their codes.
KEYS = {"Tab": 9, "Enter": 13, " ": 32, "ArrowDown": 40, "ArrowRight": 39, "ArrowUp": 38, "Backspace": 8}


class Unseen(Exception):
    """What a page doesn't show, or a browser doesn't do."""


def high(descriptor: int) -> int:
    """The same pipe by a number that isn't one of those which the browser takes."""
    it = fcntl.fcntl(descriptor, fcntl.F_DUPFD, 10)
    os.close(descriptor)
    return it


class Browser:
    def __init__(self, room: str) -> None:
        self.profile = f"{room}/profile"
        self.events: list[Answer] = []
        self.rest = b""
        self.last = 0
        self.session: str | None = None

    def __enter__(self) -> "Browser":
        reads, self.to = map(high, os.pipe())
        self.back, writes = map(high, os.pipe())
        words = ["chromium", "--headless=new", "--no-sandbox", "--disable-gpu", "--disable-dev-shm-usage"]
        words += ["--hide-scrollbars", "--disable-background-networking", "--disable-component-update"]
        words += ["--remote-debugging-pipe", f"--user-data-dir={self.profile}", "about:blank"]
        # The pipes are to be 3 and 4.
        shell = ["bash", "-c", f'exec "$@" 3<&{reads} 4>&{writes}', "bash", *words]
        quiet: dict[str, Any] = {"stdout": subprocess.DEVNULL, "stderr": subprocess.DEVNULL}
        self.process = subprocess.Popen(shell, pass_fds=(reads, writes), start_new_session=True, **quiet)
        os.close(reads)
        os.close(writes)
        target = self.call("Target.createTarget", url="about:blank")["targetId"]
        self.session = self.call("Target.attachToTarget", targetId=target, flatten=True)["sessionId"]
        for it in "Page", "Runtime", "Log", "Network", "Audits":
            self.call(f"{it}.enable")
        return self

    def __exit__(self, *_: object) -> None:
        """Ends it, so that all that it keeps is in its profile."""
        try:
            self.session = None
            self.call("Browser.close")
            self.process.wait(PATIENCE)
        except (OSError, Unseen, subprocess.TimeoutExpired):
            os.killpg(self.process.pid, signal.SIGKILL)
            self.process.wait()
        os.close(self.to)
        os.close(self.back)

    def message(self, until: float) -> Answer:
        """The next message of the browser."""
        while b"\0" not in self.rest:
            if not select.select([self.back], [], [], max(0, until - time.monotonic()))[0]:
                raise Unseen("the browser is silent")
            got = os.read(self.back, 1 << 20)
            if not got:
                raise Unseen("the browser has ended")
            self.rest += got
        text, self.rest = self.rest.split(b"\0", 1)
        answer: Answer = json.loads(text)
        return answer

    def call(self, method: str, **words: Any) -> Answer:
        """The answer to a command; what is reported before it is kept."""
        self.last += 1
        message: Answer = {"id": self.last, "method": method, "params": words}
        if self.session:
            message["sessionId"] = self.session
        os.write(self.to, json.dumps(message).encode() + b"\0")
        until = time.monotonic() + PATIENCE
        while True:
            it = self.message(until)
            if it.get("id") == self.last:
                if "error" in it:
                    raise Unseen(f"{method}: {it['error']}")
                result: Answer = it["result"]
                return result
            if "method" in it:
                self.events.append(it)

    def js(self, expression: str) -> Any:
        """The value of an expression in the page."""
        it = self.call("Runtime.evaluate", expression=expression, returnByValue=True, awaitPromise=True)
        if "exceptionDetails" in it:
            raise Unseen(f"{expression}: {it['exceptionDetails']}")
        return it["result"].get("value")

    def wait(self, expression: str, what: str) -> None:
        """Waits until the expression is true in the page, or an element."""
        self.until(lambda: bool(self.js(f"!!({expression})")), what)

    def until(self, is_so: Callable[[], bool], what: str) -> None:
        """Waits until this is so, and reads what the browser reports meanwhile."""
        until = time.monotonic() + PATIENCE
        while time.monotonic() < until:
            self.js("0")
            if is_so():
                return
            time.sleep(0.02)
        raise Unseen(f"{what} isn't shown; the page says: {self.js('document.body.innerText')!r}")

    def go(self, url: str) -> None:
        self.call("Page.navigate", url=url)
        self.wait("document.readyState === 'complete'", "the page")

    def type(self, text: str) -> None:
        self.call("Input.insertText", text=text)

    def press(self, *keys: str, shift: bool = False) -> None:
        for key in keys:
            words: Answer = {"key": key, "code": "Space" if key == " " else key, "windowsVirtualKeyCode": KEYS[key]}
            words["modifiers"] = 8 if shift else 0
            text = {"Enter": "\r", " ": " "}.get(key)
            self.call("Input.dispatchKeyEvent", type="keyDown", **words, **({"text": text} if text else {}))
            self.call("Input.dispatchKeyEvent", type="keyUp", **words)

    def look(self, width: int, scheme: str) -> None:
        """How wide it is, and whether it is dark or light."""
        self.call("Emulation.setDeviceMetricsOverride", width=width, height=900, deviceScaleFactor=1, mobile=False)
        self.call("Emulation.setEmulatedMedia", features=[{"name": "prefers-color-scheme", "value": scheme}])

    def medium(self, name: str) -> None:
        """Shows the page as on this medium: `print`, or the usual one."""
        self.call("Emulation.setEmulatedMedia", media=name)

    def picture(self, path: str) -> None:
        """A picture of the page, as wide and as high as what it shows."""
        width, height = self.js(
            "(() => { const it = document.documentElement; return [it.clientWidth, document.body.offsetHeight]; })()"
        )
        clip = {"x": 0, "y": 0, "width": width, "height": height, "scale": 1}
        it = self.call("Page.captureScreenshot", format="png", clip=clip, captureBeyondViewport=True)
        with open(path, "wb") as file:
            file.write(base64.b64decode(it["data"]))
