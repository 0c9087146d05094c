"""A client of builds that goes on through the common address: it publishes, asks the gate, and deploys, by
client/holzhebo, which waits while nobody answers."""
import os, subprocess, sys, threading, time
from tests.operate.machines_asked import COMMON
from tests.operate.machines_cluster import Cluster
from tests.process import TOP

PACT = """{"consumer":{"name":"shop"},"provider":{"name":"stock"},"interactions":[{"description":"build %d",
"request":{"method":"GET","path":"/"},"response":{"status":200}}]}"""


# What a build ends with whose change met a volume that was cut off: docs/CLUSTER.md says that it is run again.
UNDONE, STORE = 3, "the broker answers 500: store"
# How many seconds a build waits for an answer, which on a machine with much other work may be more than the usual 60.
SECONDS = "180"


class Builds:
    """Builds of shop, one after another: each is published and deployed to dev, which takes it as it comes."""

    def __init__(self, cluster: Cluster, team: str) -> None:
        self.room, self.done, self.last, self.faults = cluster.tree, 0, 0.0, list[str]()
        self.env = {**os.environ, "HOLZHEBO_BROKER": f"https://{COMMON}", "HOLZHEBO_TOKEN_FILE": team}
        self.env.update(SSL_CERT_FILE=f"{cluster.tree}/certificate/broker.pem", HOLZHEBO_PATIENCE=SECONDS)
        self.is_over = False
        self.thread = threading.Thread(target=self.run, daemon=True)
        self.thread.start()

    def holzhebo(self, *words: str) -> str:
        """What a command prints; nothing if it failed, which is kept, unless it has to be run again."""
        call = [sys.executable, f"{TOP}/client/holzhebo", *words]
        try:
            done = subprocess.run(call, env=self.env, capture_output=True, text=True, check=False, timeout=300)
        except subprocess.TimeoutExpired:
            self.faults.append(f"holzhebo {' '.join(words)} doesn't end within 300 seconds")
            return ""
        said = done.stdout + done.stderr
        if done.returncode and not (done.returncode == UNDONE and STORE in said):
            self.faults.append(f"holzhebo {' '.join(words)} ends with {done.returncode}: {said}")
        return done.stdout if done.returncode == 0 else ""

    def run(self) -> None:
        while not self.is_over:
            number = self.done + 1
            file = f"{self.room}/build.json"
            with open(file, "w", encoding="ascii") as it:
                it.write(PACT % number)
            version = f"build-{number}"
            if self.holzhebo("publish", version, file) and self.holzhebo("deploy", "shop", version, "dev"):
                self.done, self.last = number, time.monotonic()
            time.sleep(0.3)

    def stop(self) -> str:
        """Ends it after the build that goes on; what is in dev then."""
        self.is_over = True
        self.thread.join(400)
        return self.holzhebo("status", "dev") or self.holzhebo("status", "dev")
