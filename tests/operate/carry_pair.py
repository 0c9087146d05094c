"""Two brokers side by side, over a file and over what was carried of it: what the second one has to answer."""
import collections, itertools, json
from typing import Any, NamedTuple
from tests.operate.carry_state import Carried
from tests.operate.carry_world import ENVIRONMENTS, OWNERS, TEAMS, Ask, Dice, contract_path, segment, start
from tests.process import Server
from tests.wire import OFFICE, Wrong, same

CHUNK = 40


class Reply(NamedTuple):
    status: int
    body: str


class Broker:
    """A broker that serves a file for one connection, and ends by itself: then the file has all rows."""

    def __init__(self, program: str, file: str) -> None:
        self.server = Server(program, file, connections=1)
        self.server.begin()
        self.peer = self.server.connect()
        self.reader = self.peer.makefile("rb")

    def ask(self, asks: list[Ask]) -> list[Reply]:
        """The answers to these requests, some of which are sent ahead."""
        found: list[Reply] = []
        for at in range(0, len(asks), CHUNK):
            some = asks[at : at + CHUNK]
            self.peer.sendall(b"".join(it.bytes() for it in some))
            found += [self.next() for _ in some]
        return found

    def next(self) -> Reply:
        head = b""
        while not head.endswith(b"\r\n\r\n"):
            line = self.reader.readline()
            if not line:
                raise Wrong(f"the broker closes the connection after {head!r}")
            head += line
        length = int(head.lower().split(b"content-length: ")[1].split(b"\r")[0])
        return Reply(int(head.split(b" ", 2)[1]), self.reader.read(length).decode())

    def end(self) -> None:
        self.reader.close()
        self.peer.close()
        same("how serve ends", self.server.wait(), (0, "", ""))
        self.server.kill()


def played(program: str, file: str, dice: Dice, count: int) -> None:
    """A random history, by a broker over this file."""
    broker = Broker(program, file)
    broker.ask([*start(), *itertools.islice(dice.commands(), count)])
    broker.end()


def sides(row: dict[str, Any]) -> set[tuple[str, str | None]]:
    return {(row["consumer"], row["consumerVersion"]), (row["provider"], row["providerVersion"])}


def consumer_of(row: dict[str, Any]) -> tuple[str, str]:
    return row["consumer"], row["consumerVersion"]


def matrix_row(row: dict[str, Any]) -> tuple[Any, ...]:
    """By what the rows of a matrix are ordered: their names, none before the first."""
    version = row["providerVersion"]
    return row["consumer"], row["consumerVersion"], row["provider"], version is not None, version or ""


class Pair:
    """The old file's broker and the new one's, which are asked the same."""

    def __init__(self, carried: Carried, old: Broker, new: Broker) -> None:
        self.carried, self.old, self.new = carried, old, new
        self.begun: set[tuple[str, str]] = set()
        self.counts: dict[str, int] = collections.Counter()

    def numbered(self, tree: dict[str, Any], numbers: dict[str, dict[int, int]]) -> None:
        for key, table in ("content", "contents"), ("result", "results"):
            if isinstance(tree.get(key), int):
                tree[key] = numbers[table].get(tree[key], 0)

    def expected(self, ask: Ask, reply: Reply) -> Reply:
        """What the new broker has to answer: the same, with its own numbers, and a matrix without dropped versions."""
        tree = json.loads(reply.body)
        if not isinstance(tree, dict) or "answer" not in tree:
            return reply
        self.numbered(tree, self.carried.numbers)
        if "rows" in tree:
            tree["rows"] = self.matrix(tree["rows"], ask.versions[0])
        return Reply(reply.status, json.dumps(tree, separators=(",", ":"), sort_keys=True, ensure_ascii=False))

    def matrix(self, rows: list[dict[str, Any]], version: tuple[str, str]) -> list[dict[str, Any]]:
        kept = [row for row in rows if not sides(row) & self.carried.dropped]
        for row in kept:
            self.numbered(row, self.carried.numbers)
        # A contract of the version itself whose results all were of dropped versions is one without a result.
        had, has = ({it["provider"] for it in some if consumer_of(it) == version} for some in (rows, kept))
        nothing = dict.fromkeys(("evidence", "providerVersion", "result", "success"))
        for provider in had - has:
            kept.append({"consumer": version[0], "consumerVersion": version[1], "provider": provider, **nothing})
        self.counts["rows that go"] += len(rows) - len(kept)
        return sorted(kept, key=matrix_row)

    def learn(self, old: Reply, new: Reply) -> None:
        """The numbers that a command has given on both sides."""
        one, two = json.loads(old.body), json.loads(new.body)
        for key, table in ("content", "contents"), ("result", "results"):
            if all(isinstance(it, dict) and it.get("answer") == "done" and key in it for it in (one, two)):
                self.carried.numbers[table].setdefault(one[key], two[key])

    def test(self, asks: list[Ask]) -> None:
        """Asks both, and compares."""
        for ask, old, new in zip(asks, self.old.ask(asks), self.new.ask(asks)):
            self.learn(old, new)
            self.counts["faults"] += '"kind"' in new.body
            self.counts["permitted"] += '"gated":true,"permitted":true' in new.body
            if ask.branch in self.carried.cut:
                self.test_cut(ask, old, new)
            else:
                self.counts[f"{ask.method} {ask.path.split('/')[1].split('?')[0]}"] += 1
                same(f"{ask.method} {ask.path} {ask.body}", new, self.expected(ask, old))

    def test_cut(self, ask: Ask, old: Reply, new: Reply) -> None:
        """A branch that isn't carried has no contract, until a version on it is named."""
        assert ask.branch
        self.begun.update({ask.branch} if ask.method == "PUT" else ())
        self.counts["of a branch that isn't carried"] += 1
        if ask.branch not in self.begun and new != old:
            same(f"{ask.path} of a branch that isn't carried", new, (404, '{"answer":"unknown","what":"contract"}'))

    def test_texts(self) -> None:
        """A dropped text in a new version: the new broker has no results of it, so a version lacks as much or more."""
        for at, text in enumerate(sorted(self.carried.texts)):
            consumer, provider = (json.loads(text)[it]["name"] for it in ("consumer", "provider"))
            version, token = f"again {at}", TEAMS[OWNERS[consumer]]
            put = Ask("PUT", contract_path(consumer, version, provider), token, text)
            query = f"pacticipant={consumer}&version={segment(version)}"
            asks = [put, *(Ask("GET", f"/can-i-deploy?{query}&environment={it}", OFFICE) for it in ENVIRONMENTS)]
            for old, new in list(zip(self.old.ask(asks), self.new.ask(asks)))[1:]:
                before, now = (
                    {json.dumps({**it, "kind": ""}) for it in json.loads(side.body)["faults"]} for side in (old, new)
                )
                if not before <= now:
                    raise Wrong(f"with the dropped text {text} the new broker permits more: {old.body} {new.body}")
                self.counts["a dropped text again"] += 1

    def end(self) -> None:
        self.old.end()
        self.new.end()
