"""What the files of scenarios, cases and stops share: lines that go on, requests and answers as one writes them, and
the counts beside the files."""
import os, re
from pathlib import Path
from tests.process import TOP
from tests.wire import Wrong, answer, request

DATA = Path(TOP) / "tests" / "data"


def numbered_in(file: Path) -> list[tuple[int, str]]:
    """The lines of a file, each with its number. One that begins with two spaces goes on where the line before it
    ended."""
    lines: list[tuple[int, str]] = []
    text = file.read_bytes().decode()
    for number, line in enumerate(text.removesuffix("\n").split("\n"), 1):
        if line.startswith("  ") and lines:
            lines[-1] = lines[-1][0], lines[-1][1] + line[2:]
        else:
            lines.append((number, line))
    return lines


def lines_in(file: Path) -> list[tuple[str, str]]:
    """The same, each with its place."""
    return [(f"{os.path.relpath(file, TOP)}:{number}", line) for number, line in numbered_in(file)]


def asked(token: str | None, text: str, cut: int | None = None) -> bytes:
    """The request by this token that a text says: a method, a path, and all the rest, its body, or so much of it."""
    method, path, rest = (text.split(" ", 2) + ["", ""])[:3]
    return request(method, path, token, rest.encode()[:cut])


def answered(text: str) -> bytes:
    """The answer that a text says: a status, fields between bars, and a body, which begins with the first brace after a
    space."""
    head, brace, rest = text.partition(" {")
    status, _, fields = head.partition(" ")
    return answer(int(status), brace.strip() + rest, [it.strip() for it in fields.split(" | ") if it])


def unescaped(text: str) -> bytes:
    """The bytes of a text with the escapes of `>>`."""
    letters = {b"r": b"\r", b"n": b"\n", b"t": b"\t", b"0": b"\0", b"\\": b"\\"}

    def byte(found: "re.Match[bytes]") -> bytes:
        if found[1] is None:
            raise Wrong("no such escape")
        return letters[found[1]] if found[1] in letters else bytes([int(found[1][1:], 16)])

    return re.sub(rb"\\(?:([rnt0\\]|x[0-9A-Fa-f]{2})|)", byte, text.encode())


def written_counts(folder: str) -> dict[str, int]:
    """Which count is written of each file of a folder of data."""
    text = (DATA / folder / "counts").read_text(encoding="utf-8")
    return {name: int(count) for name, count in re.findall(r"(?m)^([^:#\n]+): (\d+)(?: .*)?$", text)}
