#!/usr/bin/env python3
"""Measures what a request costs as the history grows, and beside another program if one is given.

    bench/run growth PROGRAM [--peer OTHER] [--builds 1000,10000] [--services 40,200] [--requests 300] [--rounds 3]
                     [--instructions]

PROGRAM is the path of `broker`. OTHER is one with the same commands and answers, by which costs are divided.

Both serve a file of their own, which is filled by requests. With builds: one consumer and one provider, a version of
each a build, the consumer's on a branch with a contract of one content, the provider's with a result; in one file each
result has a run, in another none has. What is deployed stays the same. With services: so many are deployed in a gated
environment, each but the first with contracts with one to ten of those before it.

The cost of a request is the processor time of the process while it answers so many of one kind, by one connection; the
least of the rounds is kept. With --instructions valgrind's callgrind counts those of the program instead, once, without
what the system does for it, on a machine that does other work too. It ends with 1 if a cost grows faster than the
history to the power of 0.3, an opening faster than the history to the power of 1.3; if an opening without runs costs
15 % more than one with runs; or if a ratio of processor times is over its limit."""
import argparse, dataclasses, math, os, random, shutil, socket, subprocess, sys, tempfile, threading, time
from collections.abc import Callable, Iterable

OFFICE, TEAM = "office-token-0001", "red-team-token-01"
# How fast a cost may grow: the power of the history. A file of ten times the builds is opened in ten times the time.
MOST, MOST_OPENING = 0.3, 1.3
# How much more an opening may cost if no result has a run.
MOST_WITHOUT_RUNS = 1.15
# What a request may take of a processor, as a multiple of the other program's.
LIMITS = {"a result": 2.5, "can-i-deploy, 40 deployed": 2.8, "a deployment, 40 deployed": 2.8, "can-i-deploy, 200 deployed": 4.0}
LIMITS |= {"a deployment, 200 deployed": 4.0, "a listing, 200 deployed": 2.5}


@dataclasses.dataclass
class Given:
    """What is measured, by the command line."""

    programs: list[str]
    builds: list[int]
    services: list[int]
    requests: int
    rounds: int
    counts: bool


# ---- requests


def request(token: str, method: str, path: str, body: str = "") -> bytes:
    head = f"{method} {path} HTTP/1.1\r\nhost: b\r\nauthorization: Bearer {token}\r\n"
    return f"{head}content-length: {len(body)}\r\n\r\n{body}".encode()


def named(name: str, version: str, branch: str = "") -> bytes:
    path = f"/pacticipants/{name}/versions/{version}"
    return request(TEAM, "PUT", path, f'{{"branch":"{branch}"}}' if branch else "")


def pair(provider: str, consumer: str, version: str) -> str:
    return f"/pacts/provider/{provider}/consumer/{consumer}/version/{version}"


def published(provider: str, consumer: str, version: str) -> bytes:
    asked = '{"description":"the price","request":{"method":"GET","path":"/prices/1"},"response":{"status":200}}'
    pact = f'{{"consumer":{{"name":"{consumer}"}},"provider":{{"name":"{provider}"}},"interactions":[{asked}]}}'
    return request(TEAM, "PUT", pair(provider, consumer, version), pact)


def verified(provider: str, consumer: str, version: str, by: str, run: str = "") -> bytes:
    more = f',"run":"{run}"' if run else ""
    body = f'{{"providerApplicationVersion":"{by}","success":true{more}}}'
    return request(TEAM, "POST", pair(provider, consumer, version) + "/results", body)


def deployed(name: str, version: str) -> bytes:
    return request(TEAM, "POST", "/environments/live/deployments", f'{{"pacticipant":"{name}","version":"{version}"}}')


def asked(name: str, version: str) -> bytes:
    return request(TEAM, "GET", f"/can-i-deploy?pacticipant={name}&version={version}&environment=live")


def listed() -> bytes:
    return request(TEAM, "GET", "/environments/live")


def beginning(names: Iterable[str]) -> list[bytes]:
    """A team with a grant for a gated environment, and these pacticipants."""
    yet = [request(OFFICE, "PUT", "/teams/red", f'{{"token":"{TEAM}"}}')]
    yet.append(request(OFFICE, "PUT", "/environments/live", '{"gated":true}'))
    yet.append(request(OFFICE, "PUT", "/grants/team/red/environment/live"))
    return yet + [request(OFFICE, "PUT", f"/pacticipants/{it}", '{"team":"red"}') for it in names]


# ---- what is served

# A kind of requests: the one of this round and number.
Kinds = dict[str, Callable[[int, int], list[bytes]]]


def with_builds(count: int, has_runs: bool) -> tuple[list[bytes], Kinds]:
    """The requests that make so many builds, and what is asked then."""


    def run(at: str) -> str:
        return f"run-{at}" if has_runs else ""

    def new(turn: int, at: int) -> str:
        return f"new-{turn}-{at}"

    fill = beginning(["shop", "stock"])
    for at in map(str, range(count)):
        fill += [named("shop", at, "main"), published("stock", "shop", at), verified("stock", "shop", at, at, run(at))]
    fill += [deployed("stock", "0"), deployed("shop", "0")]
    last = str(count - 1)
    return fill, {
        "a version is named": lambda turn, at: [named("shop", new(turn, at), "main")],
        "an equal contract": lambda turn, at: [published("stock", "shop", new(turn, at))],
        "a result": lambda turn, at: [verified("stock", "shop", last, new(turn, at), run(new(turn, at)))],
        "can-i-deploy of the consumer": lambda turn, at: [asked("shop", last)],
        "can-i-deploy of the provider": lambda turn, at: [asked("stock", last)],
        "a deployment": lambda turn, at: [deployed("stock", str(at % 2))],
        "a listing": lambda turn, at: [listed()],
    }


def with_services(count: int) -> tuple[list[bytes], Kinds]:
    """The requests after which so many services are deployed, and what is asked then."""
    names, drawn = [f"service-{at:03}" for at in range(count)], random.Random(count)
    fill = beginning(names)
    for at, name in enumerate(names):
        partners = [names[it] for it in drawn.sample(range(at), min(at, drawn.randint(1, 10)))]
        for version in "1", "2":
            fill.append(named(name, version))
            fill += [published(it, name, version) for it in partners]
            fill += [verified(it, name, version, by) for it in partners for by in ("1", "2")]
        fill.append(deployed(name, "1"))


    def some(turn: int, at: int) -> str:
        return names[(at * 7 + turn) % count]

    return fill, {
        f"can-i-deploy, {count} deployed": lambda turn, at: [asked(some(turn, at), "2")],
        f"a deployment, {count} deployed": lambda turn, at: [deployed(some(turn, at), str(at % 2 + 1))],
        f"a listing, {count} deployed": lambda turn, at: [listed()],
    }


# ---- a process that serves


class Serving:
    """A process that serves the file, and counts what it costs."""

    def __init__(self, program: str, file: str, under: list[str], connections: int) -> None:
        with socket.socket() as free:
            free.bind(("127.0.0.1", 0))
            self.address = free.getsockname()
        words = ["serve", "--file", file, "--listen", f"127.0.0.1:{self.address[1]}", "--connections", str(connections)]
        self.process = subprocess.Popen([*under, program, *words], stderr=subprocess.DEVNULL if under else None)
        self.opening = 0.0

    def connected(self) -> socket.socket:
        while True:
            try:
                line = socket.create_connection(self.address)
            except ConnectionRefusedError:
                if self.process.poll() is not None:
                    sys.exit(f"serve ends with {self.process.returncode}")
                time.sleep(0.02)
                continue
            self.opening = self.opening or self.processor()
            return line

    def processor(self) -> float:
        """Microseconds of a processor that it took until it waits."""
        while (yet := self.running()) < self.running():
            pass
        return yet

    def running(self) -> float:
        """Microseconds of a processor that it took so far. What runs is counted as it stops."""
        time.sleep(0.01)
        tasks = f"/proc/{self.process.pid}/task"
        used = 0
        for it in os.listdir(tasks):
            with open(f"{tasks}/{it}/schedstat", encoding="ascii") as text:
                used += int(text.read().split()[0])
        return used / 1000

    def answers(self, requests: list[bytes]) -> None:
        """Sends them by one connection; each has to be answered 200."""
        line, data = self.connected(), b"".join(requests)

        def send() -> None:
            line.sendall(data)
            line.shutdown(socket.SHUT_WR)

        sender = threading.Thread(target=send)
        sender.start()
        text = bytearray()
        while piece := line.recv(1 << 18):
            text += piece
        sender.join()
        line.close()
        if (good := text.count(b"HTTP/1.1 200 ")) != len(requests):
            first = next((it for it in text.split(b"HTTP/1.1 ")[1:] if not it.startswith(b"200 ")), b"nothing")
            sys.exit(f"{len(requests) - good} of {len(requests)} aren't answered 200: {first[:300].decode()}")


def filled(program: str, file: str, fill: list[bytes]) -> None:
    subprocess.run([program, "init", "--file", file, "--office-token", OFFICE], check=True)
    it = Serving(program, file, [], 1)
    it.answers(fill)
    it.process.wait()


def timed(program: str, file: str, kinds: Kinds, given: Given) -> dict[str, float]:
    """Microseconds of a processor: of an opening, and of a request of each kind."""
    it = Serving(program, file, [], 1 + given.rounds * len(kinds))
    it.connected().close()
    costs = {"an opening": it.opening}
    for turn in range(given.rounds):
        for name, kind in kinds.items():
            requests = [one for at in range(given.requests) for one in kind(turn, at)]
            before = it.processor()
            it.answers(requests)
            cost = (it.processor() - before) / given.requests
            costs[name] = min(cost, costs.get(name, cost))
    it.process.wait()
    return costs


def counted(program: str, file: str, kinds: Kinds, given: Given) -> dict[str, float]:
    """Instructions: of an opening, and of a request of each kind."""
    costs = {"an opening": instructions(program, file, [])}
    for name, kind in kinds.items():
        requests = [one for at in range(given.requests) for one in kind(0, at)]
        costs[name] = (instructions(program, file, requests) - costs["an opening"]) / given.requests
    return costs


def instructions(program: str, file: str, requests: list[bytes]) -> float:
    """Of a process that opens a copy of the file and answers these."""
    with tempfile.TemporaryDirectory() as folder:
        for end in "", "-wal":
            if os.path.exists(file + end):
                shutil.copy(file + end, f"{folder}/file{end}")
        it = Serving(program, f"{folder}/file", ["valgrind", "--tool=callgrind", f"--callgrind-out-file={folder}/out"], 1)
        it.answers(requests)
        it.process.wait()
        with open(f"{folder}/out", encoding="ascii") as lines:
            return float(next(line for line in lines if line.startswith(("summary:", "totals:"))).split()[1])


def measured(fill: list[bytes], kinds: Kinds, given: Given) -> list[dict[str, float]]:
    """The costs of each program."""
    costs = []
    for program in given.programs:
        with tempfile.TemporaryDirectory() as folder:
            filled(program, f"{folder}/broker.db", fill)
            costs.append((counted if given.counts else timed)(program, f"{folder}/broker.db", kinds, given))
    return costs


# ---- what is printed


@dataclasses.dataclass
class Table:
    """Rows of costs, the limits of their ratios, and what is wrong with them."""

    limits: dict[str, float]
    wrong: list[str]

    def begins(self, sizes: list[int]) -> None:
        columns = [f"{size:,}{word}" for size in sizes for word in ("", ", times")] + ["power"]
        print("| | " + " | ".join(columns) + " |\n|---|" + "---:|" * len(columns))

    def row(self, name: str, sizes: list[int], costs: list[list[float]], most: float | None) -> None:
        """The costs at each size, divided by the other program's; and how they grow, if they may not grow faster."""
        cells = []
        for size, (own, *others) in zip(sizes, costs):
            ratio = own / others[0] if others else None
            cells += [f"{own:,.0f}", f"{ratio:.2f}" if ratio else ""]
            limit = self.limits.get(name.removesuffix(", no runs"))
            if ratio and limit and ratio > limit:
                self.wrong.append(f"{name}, {size:,}: {ratio:.2f} times the other, over {limit}")
        power = math.log(costs[-1][0] / costs[0][0]) / math.log(sizes[-1] / sizes[0]) if len(sizes) > 1 else 0.0
        if most is not None and power > most:
            self.wrong.append(f"{name}: grows with the power {power:.2f} of the history, over {most}")
        print(f"| {name} | " + " | ".join([*cells, f"{power:.2f}" if most is not None else ""]) + " |", flush=True)


def builds(given: Given, table: Table) -> None:
    table.begins(given.builds)
    openings = {}
    for has_runs in True, False:
        end = "" if has_runs else ", no runs"
        by_size = [measured(*with_builds(size, has_runs), given) for size in given.builds]
        for name in by_size[0][0]:
            costs = [[costs[name] for costs in programs] for programs in by_size]
            table.row(name + end, given.builds, costs, MOST_OPENING if name == "an opening" else MOST)
        openings[has_runs] = by_size[-1][0]["an opening"]
    if openings[False] > openings[True] * MOST_WITHOUT_RUNS:
        table.wrong.append(f"an opening without runs costs {openings[False] / openings[True]:.2f} times one with runs")


def services(given: Given, table: Table) -> None:
    for size in given.services:
        table.begins([size])
        costs = measured(*with_services(size), given)
        for name in costs[0]:
            table.row(name, [size], [[it[name] for it in costs]], None)


def numbers(text: str) -> list[int]:
    return [int(one) for one in text.split(",") if one]


def main() -> None:
    words = argparse.ArgumentParser(allow_abbrev=False)
    words.add_argument("program")
    words.add_argument("--peer")
    words.add_argument("--builds", type=numbers, default="1000,10000")
    words.add_argument("--services", type=numbers, default="40,200")
    words.add_argument("--requests", type=int, default=300)
    words.add_argument("--rounds", type=int, default=3)
    words.add_argument("--instructions", action="store_true")
    it = words.parse_args()
    programs = [os.path.abspath(one) for one in (it.program, it.peer) if one]
    given = Given(programs, it.builds, it.services, it.requests, it.rounds, it.instructions)
    table = Table({} if given.counts else LIMITS, [])
    print(f"{'instructions' if given.counts else 'microseconds of a processor'}; load {os.getloadavg()[0]:.1f} on {os.cpu_count()} processors\n")
    if given.builds:
        builds(given, table)
    if given.services:
        services(given, table)
    print("\n" + ("\n".join(table.wrong) or "no cost grows with the history, and no ratio is over its limit"))
    sys.exit(1 if table.wrong else 0)


if __name__ == "__main__":
    main()
