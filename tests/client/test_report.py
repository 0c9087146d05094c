"""The page of `holzhebo report`.

- Its lines for a list of requests between two copies, written by hand; what it refuses, by its status.
- Names that look like markup, or that can't be seen: only the report's own elements are in the page.
- No token and no digest of one is in it. 40,000 contracts within ten seconds of processor time.
- Each of these pages in Chromium (report_shown.py): its picture is drawn, its texts can be read, and it asks for
  nothing and runs nothing; a page without the picture, or with something from elsewhere, is noticed."""
import hashlib, json, os, re, resource, sqlite3
import pytest

from tests.broker.parts import former_file
from tests.client.report_shown import TOOL, Page, Picture, copied, looked_at, name_everything, page_of, use_everywhere
from tests.client.report_wanted import ROWS, SINCE, WANTED
from tests.desk.browser import Browser
from tests.players import files
from tests.process import Server, ran, run
from tests.wire import OFFICE, Wrong, same
from tests.world import BLUE, RED, fleet_file, new_file, pact

GREEN = "green-team-token-1"


def change(server: Server) -> None:
    """The list of requests between the two copies."""
    path = "/pacts/provider/stock/consumer/shop/version"
    server.do("PUT", "/teams/green", OFFICE, json.dumps({"token": GREEN}))
    server.do("PUT", "/pacticipants/web", OFFICE, '{"team":"green"}')
    server.do("PUT", "/environments/test", OFFICE, '{"gated":false}')
    server.do("PUT", "/grants/team/green/environment/test", OFFICE)
    server.do("DELETE", "/grants/team/red/environment/open", OFFICE)
    server.do("PUT", "/pacticipants/shop/versions/4", RED, '{"branch":"main"}')
    server.do("PUT", f"{path}/4", RED, pact("a key"))
    server.do("POST", f"{path}/4/results", BLUE, '{"providerApplicationVersion":"1","success":false,"run":"r1"}')
    server.do("POST", "/environments/live/deployments", RED, '{"pacticipant":"shop","version":"3"}')
    for version in "13":
        server.do("POST", "/environments/live/releases", RED, '{"pacticipant":"shop","version":"%s"}' % version)
    server.do("POST", "/environments/open/undeployments", BLUE, '{"pacticipant":"stock","version":"1"}')
    server.do("POST", f"{path}/3/results", BLUE, '{"providerApplicationVersion":"1","success":false}')


def two_copies(program: str, room: str) -> tuple[str, str]:
    """A file before these requests and after them."""
    file = fleet_file(program, room)
    earlier = copied(file, f"{room}/earlier.db")
    with Server(program, file) as server:
        change(server)
    return earlier, copied(file, f"{room}/now.db")


def refused(*copies: str) -> int:
    """The status of a report that isn't made, which writes nothing."""
    done = ran([*TOOL, *copies])
    same(f"the page of {' '.join(copies)}", done.output, "")
    return done.status


def test_the_page(program: str, room: str) -> None:
    earlier, now = two_copies(program, room)
    text = page_of(now, earlier)
    found = Page(text).sections
    for name in "earlier", "now":
        os.symlink(f"{name}.db", f"{room}/{name}-link.db")
    linked = page_of(f"{room}/now-link.db", f"{room}/earlier-link.db")
    same("by links, whose logs are beside the files", Page(linked).sections, found)
    for title, lines in WANTED.items():
        same(title, found.get(title), lines)
    since = [lines for title, lines in found.items() if title.startswith("Since the copy")]
    same("what has changed", since, [SINCE])
    same("rows", [it for it in found["Rows and bytes"] if it in ROWS], ROWS)
    same("arrows", re.findall(r'class="(now|once)"', text), ["now"])
    for token in OFFICE, RED, BLUE, GREEN:
        secrets = token, hashlib.sha256(token.encode()).hexdigest()
        same("a token in the page", [it for it in secrets if it in text], [])
    same("without a change", Page(page_of(now, now)).sections["Rows and bytes"][1], "teams|3|+0")
    same("copies in the other order", refused(earlier, now), 1)


def test_refusals(program: str, room: str) -> None:
    """What isn't a copy of a broker's file is refused."""
    file, other = fleet_file(program, room), f"{room}/other.db"
    with Server(program, file):
        same("a file in use", refused(file), 1)
    run([program, "init", "--file", other, "--office-token", GREEN])
    same("another broker's", refused(file, other), 1)
    former_file(room)
    run(["sqlite3", f"{room}/strange.db", "CREATE TABLE meta (one)"])
    others = [refused(f"{room}/{it}.db") for it in ("former", "strange", "nowhere")]
    same("format 1, no broker's, no file", others, [1, 1, 1])
    same("no word, three words", [refused(), refused("a", "b", "c")], [2, 2])
    breaks = (
        "UPDATE latest SET result = 1",
        "DELETE FROM latest",
        "DELETE FROM versions WHERE pacticipant = 'stock'",
    )
    for at, statement in enumerate(breaks):
        files.statements(copied(file, f"{room}/{at}.db"), statement)
        same(statement, refused(f"{room}/{at}.db"), 1)


HOSTILE = [
    "<img src=x onerror=alert(1)>",
    "</text></svg><script>alert(1)</script>",
    "a\u202eb\u2066c",
    "a/b?c#d&amp;&lt;",
    "'\"]]>--><!--",
]
HOSTILE += ["{name} {c0} %s", "  two  spaces ", "\u00e9" * 50, "x" * 100, "@teams"]
OWN = "html head meta title style body h1 h2 h3 p section div table thead tbody tr th td bdi b small ul li svg defs"
OWN += " marker path g rect text nav a ol caption"
FIELDS = {
    "charset", "http-equiv", "content", "lang", "class", "scope", "id", "role", "d", "x", "y", "rx", "width", "height",
}
FIELDS |= {"href", "aria-label", "name", "tabindex", "viewbox", "refx", "refy", "markerwidth", "markerheight", "orient", "marker-end"}


def named_page(program: str, room: str) -> str:
    """The page of a broker whose names are hostile."""
    file = new_file(program, room)
    earlier = copied(file, f"{room}/earlier.db")
    with Server(program, file) as server:
        for at, name in enumerate(HOSTILE):
            name_everything(server, name, f"hostile-token-{at:04}")
        for at, name in enumerate(HOSTILE):
            use_everywhere(server, name, HOSTILE[at - 1], f"hostile-token-{at:04}")
    return page_of(file, earlier)


def test_names(program: str, room: str) -> None:
    """Each hostile name is a team's, a service's, a version's, an environment's, a branch's and an instance's."""
    text = named_page(program, room)
    found = Page(text)
    same("elements that aren't the report's", sorted(found.elements - {*OWN.split()}), [])
    same("fields that aren't the report's", [it for it in found.fields if it[1] not in FIELDS], [])
    same("addresses in fields", [it for it in found.fields if re.search(r"//|javascript:", it[2] or "")], [])
    same("characters that can't be seen", [it for it in text if it in "\u202e\u2066\x00"], [])
    owners = found.sections["Owners and grants"][1:]
    wanted = sorted(" ".join(f"{it}|{it}|{it}".split()) for it in map(seen, HOSTILE))
    same("names in the page", sorted(owners), wanted)


def seen(name: str) -> str:
    return name.replace("\u202e", "[U+202E]").replace("\u2066", "[U+2066]")


# A large one


LARGE = """
CREATE TEMP TABLE n AS WITH RECURSIVE c(i) AS (SELECT 0 UNION ALL SELECT i + 1 FROM c WHERE i < 39999)
  SELECT i, i / 100 AS g FROM c;
INSERT INTO teams VALUES ('red', 'd');
INSERT INTO environments VALUES ('live', 1), ('test', 1), ('dev', 0);
INSERT INTO pacticipants SELECT DISTINCT 'consumer' || g, 'red' FROM n UNION ALL SELECT DISTINCT 'provider' || g,
'red' FROM n; INSERT INTO versions SELECT 2 * i + 1, 'consumer' || g, 'v' || i FROM n UNION ALL SELECT 2 * i + 2,
'provider' || g, 'v' || i FROM n; INSERT INTO contents SELECT i + 1, 'd' || i, i || printf('%.2200c', 'x') FROM n;
INSERT INTO contracts SELECT 2 * i + 1, 'provider' || g, i + 1 FROM n;
INSERT INTO results SELECT i + 1, i + 1, 'provider' || g, 2 * i + 2, 1, 'run' || i FROM n;
INSERT INTO latest SELECT i + 1, 2 * i + 2, i + 1 FROM n;
INSERT INTO deployed SELECT name, pacticipant, '', max(number) FROM versions, environments GROUP BY 1, 2;
INSERT INTO deployed SELECT name, pacticipant, 'canary', min(number) FROM versions, environments GROUP BY 1, 2;
"""


def large_page(program: str, room: str) -> tuple[str, float]:
    """The page of 40,000 contracts, and the processor time that it takes."""
    file = new_file(program, room)
    with sqlite3.connect(file) as base:
        base.executescript(LARGE)
    base.close()
    began = resource.getrusage(resource.RUSAGE_CHILDREN)
    text = page_of(file)
    ended = resource.getrusage(resource.RUSAGE_CHILDREN)
    return text, ended.ru_utime - began.ru_utime + ended.ru_stime - began.ru_stime


@pytest.mark.timing
def test_a_large_one(program: str, room: str) -> None:
    text, took = large_page(program, room)
    same("arrows", text.count('class="now"'), 400)
    found = Page(text).sections["What is where"]
    # Of each pair both versions of the consumer and of the provider lack two results, in each of two gated
    # environments.
    same("refused", "the gate would have refused 3200 when the copy was made." in found[0], True)
    if took > 10:
        raise Wrong(f"40,000 contracts take {took:.1f} seconds of processor time")


# In a browser


FIRST = ["What is where", "Who consumes whom", "Consumers with another contract than their newest"]
FIRST += ["What providers have to verify", "Owners and grants", "Names that nothing uses", "Claimed and checked"]
TITLES, SINCE_TITLES = [*FIRST, "Rows and bytes"], [*FIRST, "Since the copy, whose file is of ..", "Rows and bytes"]
SHOWN = {
    "page": (SINCE_TITLES, Picture(2, 1, {("shop", "stock")})),
    "names": (
        SINCE_TITLES,
        Picture(len(HOSTILE), len(HOSTILE), {(seen(it), seen(HOSTILE[at - 1])) for at, it in enumerate(HOSTILE)}),
    ),
    "large": (TITLES, Picture(800, 400, None)),
}
# What has to be noticed of a page: a text and another one in its place, and what is said then.
OTHERWISE = [
    (r"(?s)<svg.*</svg>", "", "there is no picture"),
    (r"(?s)<path d=.M\d+ \d+C.*?</path>", "", "boxes and arrows"),
    ("fill: var\\(--ink\\)", "fill: #999", "contrast"),
    ("<h1>", "<h1><img src='http://127.0.0.1:1/a.png'>", "what the browser reports"),
    ("<h1>", "<h1><script>1</script>", "what the browser reports"),
    ("<style>", "<style>body { min-width: 600px }", "how much wider than 360"),
    ("default-src 'none'", "default-src 'unsafe-inline'", "whether a script"),
    ('class="wide" tabindex="0"', 'class="wide"', "that the keyboard can't reach"),
]


@pytest.fixture
def pages(program: str, room: str) -> dict[str, str]:
    for name in SHOWN:
        os.mkdir(f"{room}/{name}")
    now, earlier = reversed(two_copies(program, f"{room}/page"))
    names, large = named_page(program, f"{room}/names"), large_page(program, f"{room}/large")[0]
    return {"page": page_of(now, earlier), "names": names, "large": large}


@pytest.mark.needs("chromium")
def test_in_a_browser(pages: dict[str, str], browser: Browser, room: str) -> None:
    def look(text: str, name: str) -> None:
        with open(f"{room}/report.html", "w", encoding="utf-8") as it:
            it.write(text)
        looked_at(browser, f"{room}/report.html", *SHOWN[name])

    for name in SHOWN:
        look(pages[name], name)
    for old, new, finding in OTHERWISE:
        try:
            look(re.sub(old, new, pages["page"], count=1), "page")
        except Wrong as it:
            if finding not in str(it):
                raise Wrong(f"{old} is found as {it}") from it
        else:
            raise Wrong(f"{old} isn't noticed")
