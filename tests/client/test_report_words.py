"""The other words of `holzhebo report`: its numbers, its contents, the order of its environments, and what providers have
to verify."""
import json, os, re

from tests.client.report_shown import TOOL, Page, copied, page_of
from tests.client.test_report import TITLES, refused, two_copies
from tests.process import Server, run, text_of
from tests.wire import same
from tests.world import BLUE, RED, fleet_file


def test_its_numbers(program: str, room: str) -> None:
    """--json has what the page says; --output puts the page in the place of a file; its day is that of the name."""
    earlier, now = two_copies(program, room)
    said = json.loads(run([*TOOL, now, "--json"]))
    live = said["environments"]["live"]
    refused_ones = [{"pacticipant": "shop", "version": "3"}, {"pacticipant": "stock", "version": "1"}]
    same("refused", sorted(live["refused"], key=lambda it: str(it["pacticipant"])), refused_ones)
    same("needs", live["needs"], {"checked": 0, "claimed": 1, "failed": 1, "missing": 0, "absent": 0})
    same("rows", (said["rows"]["contracts"], said["rows"]["results"]), (4, 4))
    todo = {"provider": "stock", "team": "blue", "version": "1", "consumer": "shop", "lacks": "failed"}
    places = {"3": ["live"], "4": ["the newest"]}
    wanted = [{**todo, "consumerVersion": version, "where": where} for version, where in places.items()]
    same("what is to be verified", said["toVerify"], wanted)
    run([*TOOL, now, earlier, "--output", f"{room}/report.html"])
    same("the page", text_of(f"{room}/report.html"), page_of(now, earlier))
    for name in "broker-2026-11-27T02:00:00Z.db", "broker-2026-11-27T020000Z.db":
        dated = copied(now, f"{room}/{name}")
        same(name, "The copy of 2026-11-27 02:00:00 UTC." in page_of(dated), True)
        links = [f"{room}/newest.db", f"{room}/links/{name}"]
        os.makedirs(f"{room}/links", exist_ok=True)
        for link, to in zip(links, (dated, now)):
            os.symlink(to, link)
            same(f"{link} to {to}", "The copy of 2026-11-27 02:00:00 UTC." in page_of(link), True)
            os.remove(link)
    os.utime(now, (86400, 86400))
    same("a file without a day", "The copy, whose file is of 1970-01-02 00:00:00 UTC." in page_of(now), True)


def test_its_parts(program: str, room: str) -> None:
    """The contents lead to each part; the environments come in the order of desk.json, and those that it doesn't name
    come last."""
    _, now = two_copies(program, room)
    text = page_of(now)
    titles = re.findall(r'<h2 id="([^"]*)">([^<]*)</h2>', text)
    same("the contents", re.findall(r'<a href="#([^"]*)">([^<]*)</a>', text), titles)
    same("how many", (len(titles), len(dict(titles))), (len(TITLES), len(TITLES)))
    same("tables without a caption", len(re.findall("<table>(?!<caption>)", text)), 0)
    with open(f"{room}/desk.json", "w", encoding="utf-8") as it:
        json.dump({"environments": ["vault", "nowhere", "live"]}, it)
    heads = Page(page_of(now, "--names", f"{room}/desk.json")).sections["What is where"][1]
    same("the order", heads, "service|vault gated, strict|live gated|open open|test open")
    for name in "nowhere", "now.db":
        same(f"the names of {name}", refused(now, "--names", f"{room}/{name}"), 1)


def test_work(program: str, room: str) -> None:
    """By the newest version of a provider: what has no result, a failure, or a claim where that isn't enough."""
    file = fleet_file(program, room)
    with Server(program, file) as server:
        for version, environment in ("1", "live"), ("3", "vault"), ("2", "open"):
            body = '{"pacticipant":"shop","version":"%s"}' % version
            server.do("POST", f"/environments/{environment}/deployments", RED, body)
        first = Page(page_of(copied(file, f"{room}/first.db"))).sections["What providers have to verify"][1:]
        server.do("PUT", "/pacticipants/stock/versions/2", BLUE)
        for version, success in ("1", "true"), ("2", "false"), ("3", "true"):
            body = '{"providerApplicationVersion":"2","success":%s}' % success
            server.do("POST", f"/pacts/provider/stock/consumer/shop/version/{version}/results", BLUE, body)
    second = Page(page_of(file)).sections["What providers have to verify"][1:]
    same("with stock 1", first, ["stock|blue|1|shop|2|open|missing"])
    wanted = ["stock|blue|2|shop|2|open|failed", "stock|blue|2|shop|3|vault, the newest|claimed"]
    same("with stock 2", second, wanted)
