"""8,000 random command lines and answers: no traceback, no fault of the client, and no success that nobody answered."""
import contextlib, io, json, os, random, re, sys
from collections.abc import Iterator
from typing import List, Tuple
import pytest

from holzhebo.api import broker as asking
from holzhebo.api import http, policy
from holzhebo.cli import main as client
from tests.client.nonsense import Nonsense, answer_of, head_of
from tests.wire import OFFICE, Wrong, same
from tests.world import RED, pact

ROUNDS, EACH = 40, 200
NAMES = ["shop", "stock", "1.4.2", "live", "a b", "", "\u202e", "-", "x" * 120, "caf\u00e9", "/", "..", "{}", "a\nb"]
COMMANDS = """publish register explain verify check fetch result can-i-deploy deploy undeploy release end-support status
matrix who metrics report plan carry team environment replace-token doctor record-deployment record-undeployment
record-release record-support-ended nothing help""".split()
# Words that ask the broker, each with the requests that it needs at least.
ASKING: List[List[str]] = [
    ["publish", "7", "a.json"],
    ["publish", "7", "--branch", "main", "a.json"],
    ["register", "shop", "7"],
    ["fetch", "--provider", "stock", "--for", "live", "--into", "got"],
    ["fetch", "--provider", "stock", "--contract", "shop", "1", "--into", "got"],
    ["result", "1", "pass", "fetched.json", "--run", "7"],
    ["can-i-deploy", "shop", "1", "live"],
    ["deploy", "shop", "1", "live"],
    ["deploy", "shop", "1", "live", "--then-undeploy", "next"],
    ["undeploy", "shop", "1", "live"],
    ["release", "shop", "1", "live"],
    ["end-support", "shop", "1", "live"],
    ["status"],
    ["status", "live"],
    ["status", "live", "--provider", "stock", "--branch", "main"],
    ["status", "live", "--format", "{version}"],
    ["matrix", "shop", "1"],
    ["team", "green", "--owns", "mail", "--grant", "live", "--no-grant", "open"],
    ["environment", "dev", "--strict"],
    ["doctor", "shop"],
    ["plan", "staging", "live"],
    ["plan", "staging", "live", "--gone", "shop", "--json"],
    ["record-undeployment", "--pacticipant", "shop", "--environment", "live"],
    "verify --provider stock --version 1 --url PROVIDER --contract shop 1 --timeout 0.2".split(),
    ["verify", "--provider", "stock", "--version", "1", "--url", "PROVIDER", "--for", "live", "--timeout", "0.2"],
]
OPTIONS = """--json --broker --token-file --patience --cacert --plain --format --run --branch --provider --version --url
--for --contract --consumer --into --wait --instance --timeout --jobs --filter --junit --record --program --output --log
--since --strict --not-gated --owns --grant --no-grant --as-it-is --replies --service --refused --file --copies --keep
--without --gone --contacts -o -b -k --help -h""".split()
VALUES = [*NAMES, *"a.json nowhere 0 -1 1e9 nan {version} {nothing} json http://127.0.0.1:1 http://x:99999".split()]
VALUES += "ftp://x http://[::1 2026-11-27 2026-99-99 .".split()


def word(rng: random.Random) -> str:
    return rng.choice([*VALUES, *OPTIONS, *NAMES])


def line_of(rng: random.Random) -> List[str]:
    """A random command line: any words, or one that asks, with words put in, taken out and doubled."""
    if rng.random() < 0.4:
        return [rng.choice(COMMANDS), *(word(rng) for _ in range(rng.randrange(7)))]
    words = list(rng.choice(ASKING))
    for _ in range(rng.choice([0, 0, 1, 2])):
        at = rng.randrange(len(words) + 1)
        words[at : at + rng.randrange(2)] = [word(rng) for _ in range(rng.randrange(1, 3))]
    return words


# Commands that end with 0 only if the broker says of a change that it is done; and of these those of which it may be
# done already by an earlier attempt, so that there is nothing to end.
CHANGING = """publish register result deploy release environment record-deployment record-release undeploy end-support
record-undeployment record-support-ended""".split()
ENDING = CHANGING[8:]


def is_said(words: List[str], output: str, told: List[Tuple[bytes, bytes]]) -> bool:
    """Whether the broker has said what these words may end with 0 for."""
    if words[0] not in (*CHANGING, "can-i-deploy", "verify") or {"-h", "--help"} & {*words}:
        return True
    for asked, answer in told:
        head, _, body = answer.partition(b"\r\n\r\n")
        try:
            status, said = int(head.split(b" ")[1]), json.loads(body)
            if words[0] == "can-i-deploy":
                is_yes = status == 200 and said["permitted"] is True
            elif status == 404 and words[0] in ENDING:
                is_yes = said["what"] in ("deployed", "released")
            else:
                is_yes = status == 200 and said["answer"] in ("done", "already") and not asked.startswith(b"GET ")
        except (ValueError, LookupError, TypeError):
            continue
        if is_yes:
            return True
    return words[0] == "verify" and ("there is no contract" in output or output == "[]\n")


class Run:
    """A run of the client in this process: its status, and what it prints."""

    def __init__(self, words: List[str]) -> None:
        written = io.BytesIO(), io.BytesIO()
        output, errors = (io.TextIOWrapper(it, "utf-8") for it in written)
        before = sys.argv, sys.stdin
        sys.argv, sys.stdin = ["holzhebo", *words], io.TextIOWrapper(io.BytesIO(b"{}"), "utf-8")
        try:
            with contextlib.redirect_stdout(output), contextlib.redirect_stderr(errors):
                try:
                    self.status = client.main()
                except SystemExit as end:
                    self.status = int(end.code or 0)
        finally:
            sys.argv, sys.stdin = before
        output.flush()
        errors.flush()
        self.output, self.errors = (it.getvalue().decode() for it in written)


@pytest.fixture
def folder(room: str, monkeypatch: pytest.MonkeyPatch) -> Iterator[str]:
    """A folder with the files that the command lines name, and an environment that names nothing else."""
    for name in [
        it for it in os.environ if it.startswith(("HOLZHEBO_", "PACT_BROKER_")) or it.lower().endswith("_proxy")
    ]:
        monkeypatch.delenv(name)
    monkeypatch.setenv("HOME", room)
    monkeypatch.delenv("XDG_CONFIG_HOME", raising=False)
    monkeypatch.setenv("HOLZHEBO_TOKEN", RED)
    # Waits are a fifth of the usual ones, so that the same is tried and hardly any of it is waiting.
    monkeypatch.setenv("HOLZHEBO_PATIENCE", "0.06")
    monkeypatch.setattr(policy, "FIRST_PAUSE", policy.FIRST_PAUSE / 5)
    monkeypatch.chdir(room)
    fetched = {**json.loads(pact("a book")), "metadata": {"holzhebo": {"consumerVersion": "1"}}}
    for name, text in ("a.json", pact("a book")), ("fetched.json", json.dumps(fetched)):
        with open(name, "w", encoding="utf-8") as it:
            it.write(text)
    monkeypatch.setattr(http, "MOST_BYTES", 100000)
    monkeypatch.setattr(asking, "ANSWER_SECONDS", 0.2)
    yield room


def tried(rng: random.Random, words: List[str], what: str) -> Run:
    done = Run(words)
    if "Traceback" in done.errors or "a fault of this program" in done.errors or done.status not in (0, 1, 2, 3, 141):
        raise Wrong(f"{words} {what} ends with {done.status}: {done.errors[-1500:]}")
    for token in RED, OFFICE:
        if token in done.output + done.errors:
            raise Wrong(f"{words} {what} shows a token")
    if re.search(r"[\x1b\u202e\x00]", done.output + done.errors) and "{" not in done.output:
        raise Wrong(f"{words} {what} prints what a terminal takes for something else: {done.output!r}")
    if done.status in (2, 3) and not done.errors + done.output:
        raise Wrong(f"{words} {what} ends with {done.status}, and says nothing")
    return done


@pytest.mark.parametrize("round", range(ROUNDS))
def test_nonsense(round: int, folder: str, monkeypatch: pytest.MonkeyPatch) -> None:
    """Random command lines, with a broker and a provider that answer at random, late or not at all; what a line asks for
    isn't said to be done unless the broker has said so."""
    rng = random.Random(f"nonsense {round}")
    is_slow = lambda: rng.random() < 0.01
    with Nonsense() as broker, Nonsense() as provider:
        monkeypatch.setenv("HOLZHEBO_BROKER", broker.url)
        for number in range(EACH):
            broker.begin(lambda asked: answer_of(rng, asked), is_slow)
            provider.begin(lambda asked: answer_of(rng, asked), is_slow)
            words = [provider.url if it == "PROVIDER" else it for it in line_of(rng)]
            done = tried(rng, words, f"(round {round}, {number})")
            if done.status == 0 and not is_said(words, done.output, broker.told):
                raise Wrong(f"{words} (round {round}, {number}) ends with 0, after {broker.told}: {done.output}")


# Answers of status 200 that aren't the broker's: a captive portal's JSON, and shapes that lack something.
PORTAL = [
    b"",
    b"null",
    b"[]",
    b"{}",
    b'"ok"',
    b"<html>",
    b'{"answer":"done"',
    b'{"answer":1}',
    b'{"answer":"shown"}',
    b"\xff",
    b'{"status":"ok"}',
    b'{"answer":"shown","deployed":1,"released":[],"environment":"live","gated":true}',
    b"[" * 5000,
    b'{"answer":"shown","deployed":[{}],"released":[],"environment":"live","gated":true}',
    b'{"answer":"shown","environment":"e","faults":[{"kind":[]}],"gated":true,"permitted":true}',
    b'{"answer":"shown","environment":"e","faults":[],"gated":true,"permitted":"yes"}',
    b'{"answer":"shown","rows":{}}',
    b'{"answer":"shown","rows":[{"consumer":"a"}]}',
    b'{"answer":"done","result":"1"}',
    b'{"answer":"done","content":null}',
]


# Commands to whose requests the broker says only that it is done.
MAKING = ("register", "undeploy", "release", "end-support", "team", "environment")


@pytest.mark.parametrize("words", ASKING, ids=lambda it: " ".join(it))
def test_a_portal(words: List[str], folder: str, monkeypatch: pytest.MonkeyPatch) -> None:
    """Whatever answers 200 and isn't a broker: nothing is claimed, and the status is 3."""
    with Nonsense() as broker:
        monkeypatch.setenv("HOLZHEBO_BROKER", broker.url)
        for body in PORTAL:
            broker.begin(lambda asked: head_of(200, body))
            done = tried(
                random.Random(1), [it if it != "PROVIDER" else "http://127.0.0.1:1" for it in words], repr(body)
            )
            is_enough = words[0] in MAKING and body.startswith(b'{"answer":"done",')
            if done.status != 3 and not is_enough:
                raise Wrong(f"{words} with {body!r} ends with {done.status}: {done.output} {done.errors}")


def test_how_many() -> None:
    same("command lines and answers", (ROUNDS * EACH, len(PORTAL) * len(ASKING) > 400), (8000, True))
