#!/usr/bin/env python3
"""Who asks a broker from one of the machines, or from beside them. Each line of standard output is one request, as
JSON: what, its version, when it was sent, when its answer was there (seconds of one clock), and the status, 0 if none
came.

    machines_peer.py write NAME URL TOKEN_FILE SECONDS    names versions NAME-1, .. one each SECONDS, without an end:
                                                          four of shop, one of stock, which the token may not name
    machines_peer.py probe - URL TOKEN_FILE SECONDS       asks GET / each SECONDS
    machines_peer.py ask - URL TOKEN_FILE 0               for each line PACTICIPANT VERSION of standard input: asks for
                                                          its matrix

Each request of the first two is on a connection of its own. An https URL is asked without looking at its certificate:
what is tried here is what is answered, and not by whom."""
import http.client, json, os, ssl, sys, time, urllib.parse

SECONDS = 5


class Line:
    """How the URL is asked: on one connection for as long as it holds if it is kept, else each time on a new one."""

    def __init__(self, url: str, token: str, is_kept: bool) -> None:
        parts, self.is_kept = urllib.parse.urlsplit(url), is_kept
        self.headers = {"authorization": f"Bearer {token}"} if token else {}
        self.it: http.client.HTTPConnection
        if parts.scheme == "https":
            context = ssl.create_default_context()
            context.check_hostname, context.verify_mode = False, ssl.CERT_NONE
            self.it = http.client.HTTPSConnection(parts.netloc, timeout=SECONDS, context=context)
        else:
            self.it = http.client.HTTPConnection(parts.netloc, timeout=SECONDS)

    def asked(self, method: str, path: str) -> int:
        """The status of the answer; 0 if there was none."""
        is_kept = False
        try:
            self.it.request(method, path, None if method == "GET" else b"", self.headers)
            answer = self.it.getresponse()
            answer.read()
            is_kept = self.is_kept
            return answer.status
        except (OSError, http.client.HTTPException):
            return 0
        finally:
            if not is_kept:
                self.it.close()

    def say(self, what: str, version: str, method: str, path: str) -> None:
        sent = time.monotonic()
        status = self.asked(method, path)
        line = {"what": what, "version": version, "sent": sent, "received": time.monotonic(), "status": status}
        print(json.dumps(line), flush=True)


def main() -> None:
    mode, name, url, file, seconds = sys.argv[1:6]
    with open(file, encoding="ascii") as it:
        token = it.read().strip()
    line = Line(url, "" if mode == "probe" else token, mode == "ask")
    if mode == "ask":
        for row in sys.stdin:
            what, version = row.split()
            line.say(what, version, "GET", f"/matrix?pacticipant={what}&version={version}")
        return
    number = 0
    while True:
        number += 1
        next_at = time.monotonic() + float(seconds)
        if mode == "write":
            what, version = "stock" if number % 5 == 0 else "shop", f"{name}-{number}"
            line.say(what, version, "PUT", f"/pacticipants/{what}/versions/{version}")
        else:
            line.say("probe", "", "GET", "/")
        time.sleep(max(0.0, next_at - time.monotonic()))


if __name__ == "__main__":
    try:
        main()
    except BrokenPipeError:  # nobody listens any more
        os._exit(0)
