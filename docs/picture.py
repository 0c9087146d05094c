#!/usr/bin/env python3
"""Draws a refused and a permitted deployment, from what examples/one-deployment.sh prints: docs/one-deployment.svg.

    examples/one-deployment.sh | docs/picture.py            draws it
    examples/one-deployment.sh | docs/picture.py --check    draws nothing: ends with 1 unless the file is what it would draw

A request is a line `METHOD /PATH BODY`, and the line after it is its answer. Names, faults and answers in the picture
are those of these lines: the first deployment of a consumer that the broker permits, and the last refusal before it."""
import json, os, re, sys
from html import escape

HOME = os.path.join(os.path.dirname(os.path.abspath(__file__)), "one-deployment.svg")
REQUEST = re.compile(r"(GET|PUT|POST|DELETE) /(\S+)(?: (.*))?$")
LACKS = {"absent": "not there", "missing": "no result", "failed": "failed", "claimed": "only claimed"}
RED, GREEN, INK, FAINT, PAPER = "#b42318", "#067647", "#1f2328", "#8b949e", "#ffffff"
WIDTH, HEIGHT, WIDEST = 408, 268, 53


def exchanges(text):
    """Each request with its answer."""
    lines = [it for it in text.splitlines() if it.strip()]
    for request, answer in zip(lines, lines[1:]):
        match = REQUEST.match(request)
        if match and answer.startswith("{"):
            yield match[2].split("/"), json.loads(match[3]) if match[3] else {}, answer


def deployments(text):
    """Each deployment of a consumer: its version, the environment, what is deployed there before, the answer."""
    contracts, deployed = {}, {}
    for path, body, answer in exchanges(text):
        said = json.loads(answer)
        if path[0] == "pacts" and "interactions" in body:
            contracts.setdefault((path[4], path[6]), []).append(path[2])
        elif path[0] == "environments" and path[-1] == "deployments":
            version = (body["pacticipant"], body["version"])
            there = deployed.setdefault(path[1], {})
            if version in contracts:
                yield version, path[1], [it for it in there.items() if it[0] in contracts[version]], said, answer
            if said["answer"] == "done":
                there[version[0]] = version[1]


def chosen(text):
    """The last refusal before the first permission, and that permission."""
    refused = None
    for one in deployments(text):
        if one[3]["answer"] == "not permitted":
            refused = one
        elif one[3]["answer"] == "done" and refused:
            return refused, one
    sys.exit("no deployment is refused and then permitted")


def label(x, y, text, fill=INK, size=13, more=""):
    return f'<text x="{x}" y="{y}" fill="{fill}" font-size="{size}" {more}>{escape(text)}</text>'


def box(x, y, width, height, stroke, more=""):
    return f'<rect x="{x}" y="{y}" width="{width}" height="{height}" rx="8" fill="{PAPER}" stroke="{stroke}" {more}/>'


def version_box(x, y, name, colour):
    middle = 'text-anchor="middle" font-weight="600"'
    return [box(x, y, 92, 34, colour, 'stroke-width="2"'), label(x + 46, y + 22, " ".join(name), INK, 13, middle)]


def wrapped(text):
    """The text in lines, each cut after a comma where there is one."""
    while len(text) > WIDEST:
        at = text.rfind(",", 0, WIDEST) + 1 or WIDEST
        yield text[:at]
        text = text[at:]
    yield text


def panel(left, one):
    version, environment, partners, said, answer = one
    is_done = said["answer"] == "done"
    colour = GREEN if is_done else RED
    lacks = {it["provider"]: LACKS[it["kind"]] for it in said.get("faults", [])}
    name = " ".join(version)
    title = f"{name} is deployed to {environment}" if is_done else f"{name} to {environment} is refused"
    drawn = [box(left, 1, WIDTH, HEIGHT - 2, colour, 'stroke-width="2"'), label(left + 18, 32, title, colour, 17, 'font-weight="700"')]
    # The environment, and in it what is deployed there.
    drawn.append(box(left + 130, 52, 260, 110, FAINT, 'stroke-dasharray="5 4"'))
    drawn.append(label(left + 142, 72, environment, FAINT, 13))
    mine = left + (148 if is_done else 18)
    drawn += version_box(mine, 96, version, colour)
    for number, partner in enumerate(partners):
        drawn += version_box(left + 284, 96 + 42 * number, partner, FAINT)
        word = lacks.get(partner[0], "verified")
        drawn.append(f'<line x1="{mine + 92}" y1="113" x2="{left + 284}" y2="{113 + 42 * number}" stroke="{colour}" stroke-width="2"/>')
        middle = (mine + 92 + left + 284) // 2
        drawn.append(label(middle + (0 if is_done else 10), 104 + 42 * number, word, colour, 12, 'text-anchor="middle" font-weight="600"'))
    if not is_done:
        drawn.append(label(left + 124, 119, "✕", RED, 17, 'font-weight="700"'))
    # The answer.
    for number, line in enumerate(wrapped(answer)):
        drawn.append(label(left + 18, 192 + 17 * number, line, INK, 12, 'font-family="ui-monospace, Menlo, Consolas, monospace"'))
    return drawn


def picture(text):
    refused, permitted = chosen(text)
    drawn = panel(1, refused) + panel(WIDTH + 21, permitted)
    width = 2 * WIDTH + 22
    head = f'<svg xmlns="http://www.w3.org/2000/svg" viewBox="0 0 {width} {HEIGHT}" width="{width}" height="{HEIGHT}" '
    return head + 'font-family="system-ui, sans-serif">\n' + "\n".join(drawn) + "\n</svg>\n"


drawn = picture(sys.stdin.read())
if "--check" in sys.argv[1:]:
    with open(HOME, encoding="utf-8") as it:
        sys.exit(0 if it.read() == drawn else f"{HOME} isn't what the script draws today")
with open(HOME, "w", encoding="utf-8") as it:
    it.write(drawn)
