"""A Firefox without a window, driven by Marionette, its own protocol: messages of JSON with their length before them. It
can what the scenes of the page ask of a browser, but for what is Chromium's own; what it reports isn't heard."""
from __future__ import annotations

import contextlib, json, os, signal, socket, subprocess, time
from collections.abc import Callable
from typing import Any

from tests.desk.browser import PATIENCE, Answer, Browser, Unseen
from tests.process import await_port, free_port

# The keys that aren't letters, as WebDriver writes them.
KEYS = {"Tab": "\ue004", "Enter": "\ue007", " ": " ", "ArrowDown": "\ue015", "ArrowUp": "\ue013", "Shift": "\ue008"}
SETTINGS: Answer = {
    "app.normandy.enabled": False,
    "app.update.disabledForTesting": True,
    "browser.shell.checkDefaultBrowser": False,
    "datareporting.policy.dataSubmissionEnabled": False,
    "network.captive-portal-service.enabled": False,
    "network.connectivity-service.enabled": False,
    "services.settings.server": "http://127.0.0.1:1/",
    "toolkit.telemetry.enabled": False,
}
SCRIPT = """const done = arguments[1], fault = it => done({ fault: String(it) });
try {
  Promise.resolve((0, eval)(arguments[0])).then(it => done({ value: it === undefined ? null : it }), fault);
} catch (it) {
  fault(it);
}"""


class Firefox(Browser):
    """The same for the scenes as a Chromium."""

    def __enter__(self) -> Firefox:
        port = free_port()
        os.makedirs(self.profile)
        with open(f"{self.profile}/user.js", "w", encoding="utf-8") as it:
            for name, value in {**SETTINGS, "marionette.port": port}.items():
                it.write(f"user_pref({json.dumps(name)}, {json.dumps(value)});\n")
        words = ["firefox-esr", "--headless", "--no-remote", "--marionette", "-remote-allow-system-access"]
        words += ["--profile", self.profile]
        quiet: dict[str, Any] = {"stdout": subprocess.DEVNULL, "stderr": subprocess.DEVNULL}
        env = {**os.environ, "HOME": self.profile, "MOZ_DISABLE_CONTENT_SANDBOX": "1"}
        self.process = subprocess.Popen(words, start_new_session=True, env=env, **quiet)
        await_port(port, self.process)
        self.line = socket.create_connection(("127.0.0.1", port), PATIENCE)
        self.came = b""
        self.read()
        self.asked("WebDriver:NewSession", {"capabilities": {"alwaysMatch": {"acceptInsecureCerts": False}}})
        return self

    def __exit__(self, *_: object) -> None:
        with contextlib.suppress(OSError, Unseen):
            self.asked("Marionette:Quit", {"flags": ["eForceQuit"]})
        self.line.close()
        try:
            self.process.wait(PATIENCE)
        except subprocess.TimeoutExpired:
            os.killpg(self.process.pid, signal.SIGKILL)
            self.process.wait()

    def read(self) -> Any:
        """The next message."""
        while True:
            length, colon, rest = self.came.partition(b":")
            if colon and len(rest) >= int(length):
                self.came = rest[int(length) :]
                return json.loads(rest[: int(length)])
            got = self.line.recv(1 << 16)
            if not got:
                raise Unseen("the browser has ended")
            self.came += got

    def asked(self, command: str, words: Answer) -> Any:
        self.last += 1
        text = json.dumps([0, self.last, command, words]).encode()
        self.line.sendall(b"%d:" % len(text) + text)
        _, number, fault, result = self.read()
        if number != self.last or fault:
            raise Unseen(f"{command}: {fault}")
        return result

    def js(self, expression: str) -> Any:
        said = self.asked("WebDriver:ExecuteAsyncScript", {"script": SCRIPT, "args": [expression]})["value"]
        if "fault" in said:
            raise Unseen(f"{expression}: {said['fault']}")
        return said["value"]

    def go(self, url: str) -> None:
        self.asked("WebDriver:Navigate", {"url": url})

    def keys(self, *steps: tuple[str, str]) -> None:
        actions = [{"type": kind, "value": key} for kind, key in steps]
        self.asked("WebDriver:PerformActions", {"actions": [{"type": "key", "id": "keys", "actions": actions}]})

    def type(self, text: str) -> None:
        self.keys(*((kind, each) for each in text for kind in ("keyDown", "keyUp")))

    def press(self, *keys: str, shift: bool = False) -> None:
        held = [("keyDown", KEYS["Shift"])] if shift else []
        pressed = [(kind, KEYS[each]) for each in keys for kind in ("keyDown", "keyUp")]
        self.keys(*held, *pressed, *(("keyUp", key) for _, key in held))

    def of_itself(self, script: str, *words: object) -> None:
        """Runs a script in the browser's own window and not in the page."""
        self.asked("Marionette:SetContext", {"value": "chrome"})
        self.asked("WebDriver:ExecuteScript", {"script": script, "args": list(words)})
        self.asked("Marionette:SetContext", {"value": "content"})

    def medium(self, name: str) -> None:
        self.of_itself(MEDIUM, name)

    def look(self, width: int, scheme: str) -> None:
        """How wide the page is, and whether it is dark or light."""
        number = {"dark": 0, "light": 1}[scheme]
        self.of_itself(PREFERENCE, "layout.css.prefers-color-scheme.content-override", number)
        for _ in range(2):
            more = self.asked("WebDriver:GetWindowRect", {})["width"] - self.js("innerWidth")
            self.asked("WebDriver:SetWindowRect", {"width": width + more, "height": 1000})
            time.sleep(0.2)

    def until(self, is_so: Callable[[], bool], what: str) -> None:
        end = time.monotonic() + PATIENCE
        while not is_so():
            if time.monotonic() > end:
                raise Unseen(f"{what} isn't shown; the page says: {self.js('document.body.innerText')!r}")
            time.sleep(0.03)


PREFERENCE = "Services.prefs.setIntPref(arguments[0], arguments[1]);"
MEDIUM = "gBrowser.selectedBrowser.browsingContext.mediumOverride = arguments[0];"
