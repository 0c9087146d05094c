"""What README.md, docs/API.md and examples/ show of a new broker is what comes of it."""
import re, shlex
from tests.process import Server, free_port, run, text_of
from tests.wire import Wrong, same
from tests.world import DONE, fault
import pytest


def block(page: str, pattern: str) -> str:
    """The block of a page that this pattern finds."""
    found = re.search(pattern, text_of(page), re.M | re.S)
    if not found:
        raise Wrong(f"{page} has no such block: {pattern}")
    return found[1]


def refused(kind: str, provider: str) -> str:
    return '{"answer":"not permitted","faults":[' + fault("1", kind, provider) + "]}"


def deploys_once(program: str, room: str, text: str) -> str:
    """What these lines print, the last of which asks for the one deployment, over this program on a free port."""
    port = free_port()
    text = text.replace("crates/broker/out/broker", shlex.quote(program)).replace("127.0.0.1:9292", f"127.0.0.1:{port}")
    text += f" http://127.0.0.1:{port} || {{ kill $!; exit 1; }}\nwait $!"
    said = run(["bash", "-c", text], env={"TMPDIR": room})
    answers = [it for it in said.split("\n") if it.startswith("{")]
    content, result = '{"answer":"done","content":1}', '{"answer":"done","result":1}'
    wanted = [DONE] * 5 + [content, refused("absent", "null"), DONE, DONE, refused("missing", '"1"'), result, DONE]
    same("answers", answers, wanted)
    return said


@pytest.mark.needs("curl")
def test_one_deployment(program: str, room: str) -> None:
    """As its own first lines say: the server is started and not waited for, and ends after the twelfth connection. The
    README's picture shows what it prints."""
    before = re.findall(r"(?m)^#   (.*)$", text_of("examples/one-deployment.sh"))
    assert len(before) == 3
    said = deploys_once(program, room, "\n".join(before) + "\nexamples/one-deployment.sh")
    run(["docs/picture.py", "--check"], text=said)


@pytest.mark.needs("curl")
def test_readme(program: str, room: str) -> None:
    """Its block that serves a new file, pasted."""
    deploys_once(program, room, block("README.md", r"^# serve a new file.*?\n(file=.*?)\n(?:\n|```$)"))


@pytest.mark.needs("curl")
def test_each_route_by_curl(server: Server, room: str) -> None:
    """Each of the curl lines of docs/API.md is answered 200, in their order over a new broker."""
    text = block("docs/API.md", r"^```\n(b=http://127\.0\.0\.1:9292\n.*?)^```$")
    asks = f"curl() {{ command curl -sS -o {room}/answer -w '%{{http_code}}\\n' \"$@\"; }}\n"
    statuses = run(["bash", "-c", asks + text.replace("http://127.0.0.1:9292", server.url)]).split()
    assert statuses == ["200"] * len(re.findall(r"(?m)^curl ", text))


def test_replay(program: str) -> None:
    answers = run(["examples/replay.sh", program])
    listing = (
        '{"answer":"shown","deployed":[{"instance":"","pacticipant":"shop","version":"1.0.0"}],"environment":"live",'
        '"gated":true,"released":[]}'
    )
    same("answers", re.findall(r"\r?\n\r?\n(\{.*?\})(?=HTTP/1\.1 |$)", answers), [DONE] * 6 + [listing])
