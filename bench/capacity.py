#!/usr/bin/env python3
"""Measures how much one broker holds, and prints it as tables for docs/LIMITS.md.

    bench/capacity.py PROGRAM [N ..]     PROGRAM is the path of `broker`; N are numbers of contracts: 1000 10000 if none
                                         is given

For each N it makes a file of N contracts, each of an own version with a text of its own of about 2.2 kB, an own version
of the provider and a result; consumers and providers take a hundred contracts each. The rows come by Python's sqlite3,
which needs SQLite 3.37 or later, in the form that the broker itself writes. Then:

- size: of the file and of its log, once the broker has served and is stopped;
- opening: `can-i-deploy` over the file from its start to its end, the shortest of three, and the most memory of it;
- requests: each kind 200 times by one connection to `serve` over the file, the middle time of a request, and the most
  memory of `serve`.

A file that `init` makes with the page sums of SQLite's cksumvfs is measured with them and without them.

Last come requests in memory, by `replay`. The files are in the folder that TMPDIR names: take one on a disk. How long
that takes to sync 4 KiB is printed, and how busy the machine is."""
import hashlib, http.client, json, os, shutil, sqlite3, statistics, subprocess, sys, tempfile, time

sys.dont_write_bytecode = True
sys.path.insert(0, os.path.dirname(os.path.dirname(os.path.abspath(__file__))))
from tests.players.files import has_sums, seal
from tests.process import TOP, free_port
from tests.wire import OFFICE

PROGRAM = os.path.abspath(sys.argv[1] if sys.argv[1:] else f"{TOP}/crates/broker/out/broker")
SIZES = [int(it) for it in sys.argv[2:]] or [1000, 10000]
TEAM = "shop-team-token-1"
ROUNDS, GROUP = 200, 100
MARK = "@@@@@@@@@@"


def pact(consumer, provider, text):
    """A pact file of about 2.2 kB."""
    lines = [{"sku": f"{text}-{at:02}", "quantity": at, "price": 100 + at, "currency": "EUR"} for at in range(28)]
    request = {"method": "GET", "path": f"/orders/{text}"}
    response = {"status": 200, "headers": {"content-type": "application/json"}, "body": {"lines": lines}}
    interaction = {"description": f"the order {text}", "request": request, "response": response}
    return json.dumps({"consumer": {"name": consumer}, "provider": {"name": provider}, "interactions": [interaction]})


def normal_text():
    """The normal text of such a file, with marks in place of what differs."""
    file = pact("consumer" + MARK, "provider" + MARK, MARK)
    return subprocess.run([PROGRAM, "normalise"], input=file, capture_output=True, text=True, check=True).stdout[:-1]


def without_sums(file):
    """Makes the file of a new broker again, without sums."""
    base = sqlite3.connect(file)
    made = [text for text, in base.execute("SELECT sql FROM sqlite_schema WHERE sql IS NOT NULL ORDER BY rowid")]
    meta = base.execute("SELECT * FROM meta").fetchone()
    base.close()
    os.remove(file)
    base = sqlite3.connect(file)
    base.executescript(";".join(made))
    base.execute("INSERT INTO meta VALUES (?, ?, ?)", meta)
    base.commit()
    base.close()


def fill(file, count, is_plain):
    """Makes a broker's file of so many contracts, a result for each, and one deployment of the first provider. Tells
    whether it has sums: none if it is to be plain, else if `init` makes them."""
    subprocess.run([PROGRAM, "init", "--file", file, "--office-token", OFFICE], check=True)
    if is_plain:
        without_sums(file)
    template = normal_text()
    base = sqlite3.connect(file, isolation_level=None)
    base.execute("PRAGMA foreign_keys = ON")
    base.execute("BEGIN")
    base.execute("INSERT INTO teams VALUES ('red', ?)", [hashlib.sha256(TEAM.encode()).hexdigest()])
    base.execute("INSERT INTO environments VALUES ('live', 1)")
    base.execute("INSERT INTO grants VALUES ('red', 'live')")
    for group in range((count + GROUP - 1) // GROUP):
        base.execute("INSERT INTO pacticipants VALUES (?, 'red'), (?, 'red')", [f"consumer{group:010}", f"provider{group:010}"])
    for at in range(count):
        add(base, at, template)
    base.execute("INSERT INTO deployed VALUES ('live', 'provider0000000000', '', 2)")
    base.execute("COMMIT")
    base.close()
    seal(file)
    return has_sums(file)


def add(base, at, template):
    """One contract with its versions and its result."""
    consumer, provider = f"consumer{at // GROUP:010}", f"provider{at // GROUP:010}"
    front, back = template.split(f'"consumer":{{"name":"consumer{MARK}"}}')
    body = f'{front}"consumer":{{"name":"{consumer}"}}{back}'.replace(f"provider{MARK}", provider).replace(MARK, f"{at:010}")
    number = at + 1
    base.execute("INSERT INTO versions VALUES (?, ?, ?)", [2 * number - 1, consumer, str(at)])
    base.execute("INSERT INTO versions VALUES (?, ?, ?)", [2 * number, provider, str(at)])
    base.execute("INSERT INTO contents VALUES (?, ?, ?)", [number, hashlib.sha256(body.encode()).hexdigest(), body])
    base.execute("INSERT INTO contracts VALUES (?, ?, ?)", [2 * number - 1, provider, number])
    base.execute("INSERT INTO results VALUES (?, ?, ?, ?, 1, ?)", [number, number, provider, 2 * number, f"run{at}"])
    base.execute("INSERT INTO latest VALUES (?, ?, ?)", [number, 2 * number, number])


def opening(file):
    """Seconds and megabytes of a can-i-deploy over the file."""
    words = ["can-i-deploy", "--file", file, "--token", TEAM, "--pacticipant", "consumer0000000000", "--version", "0"]
    words += ["--to-environment", "live"]
    took, most = [], 0
    for _ in range(3):
        began = time.monotonic()
        it = subprocess.Popen([PROGRAM, *words], stdout=subprocess.DEVNULL)
        _, status, used = os.wait4(it.pid, 0)
        took.append(time.monotonic() - began)
        it.returncode = os.waitstatus_to_exitcode(status)
        if it.returncode:
            sys.exit(f"can-i-deploy ends with {it.returncode}")
        most = max(most, used.ru_maxrss / 1000)
    return min(took), most


def serve(file):
    """The program while it serves the file, a connection to it, and how long that took."""
    port = free_port()
    began = time.monotonic()
    words = ["serve", "--file", file, "--listen", f"127.0.0.1:{port}", "--connections", "1"]
    it = subprocess.Popen([PROGRAM, *words])
    while True:
        try:
            line = http.client.HTTPConnection("127.0.0.1", port, timeout=600)
            line.connect()
            return it, line, time.monotonic() - began
        except OSError:
            if it.poll() is not None:
                sys.exit(f"serve ends with {it.returncode}")
            time.sleep(0.02)


def ask(line, method, path, body=""):
    line.request(method, path, body, {"authorization": f"Bearer {TEAM}"})
    answer = line.getresponse()
    text = answer.read()
    if answer.status != 200:
        sys.exit(f"{method} {path}: {answer.status} {text}")


def kinds(count):
    """The kinds of requests, each by the number of its round."""
    pair = "provider/provider0000000000/consumer/consumer0000000000"
    version = lambda name, it: f'{{"pacticipant":"{name}","version":"{it}"}}'
    return {
        "a publication": lambda at: ("PUT", f"/pacts/{pair}/version/new{at}", pact("consumer0000000000", "provider0000000000", f"{count}-{at}")),
        "a result": lambda at: ("POST", f"/pacts/{pair}/version/new{at}/results", '{"providerApplicationVersion":"0","success":true}'),
        "a deployment": lambda at: ("POST", "/environments/live/deployments", version("consumer0000000000", f"new{at}")),
        "can-i-deploy": lambda at: ("GET", f"/can-i-deploy?pacticipant=consumer0000000000&version=new{at}&environment=live", ""),
    }


def requests(file, count):
    """Milliseconds of each kind of request over the file, and the megabytes of the program."""
    it, line, _ = serve(file)
    took = {}
    for name, request in kinds(count).items():
        times = []
        for at in range(ROUNDS):
            began = time.monotonic()
            ask(line, *request(at))
            times.append(time.monotonic() - began)
        took[name] = statistics.median(times) * 1000
    with open(f"/proc/{it.pid}/status", encoding="ascii") as status:
        most = int(status.read().split("VmHWM:")[1].split()[0]) / 1000
    line.close()
    it.wait()
    return took, most


def syncing(folder):
    """Milliseconds to append 4 KiB to a file and sync it, the middle of 100."""
    times = []
    with open(f"{folder}/sync", "wb", buffering=0) as it:
        for _ in range(100):
            began = time.monotonic()
            it.write(bytes(4096))
            os.fdatasync(it.fileno())
            times.append(time.monotonic() - began)
    return statistics.median(times) * 1000


def in_memory():
    """Requests a second of each kind by `replay`, without the time of its start."""
    head = lambda token, method, path, body: (
        f"{method} {path} HTTP/1.1\r\nhost: b\r\nauthorization: Bearer {token}\r\ncontent-length: {len(body)}\r\n\r\n{body}")
    first = [
        (OFFICE, "PUT", "/teams/red", f'{{"token":"{TEAM}"}}'), (OFFICE, "PUT", "/environments/live", '{"gated":true}'),
        (OFFICE, "PUT", "/pacticipants/consumer0000000000", '{"team":"red"}'),
        (OFFICE, "PUT", "/pacticipants/provider0000000000", '{"team":"red"}'),
        (OFFICE, "PUT", "/grants/team/red/environment/live", ""),
        (TEAM, "PUT", "/pacticipants/provider0000000000/versions/0", ""),
        (TEAM, "POST", "/environments/live/deployments", '{"pacticipant":"provider0000000000","version":"0"}'),
    ]
    stream = "".join(head(*it) for it in first)
    rounds, rates = min(5000, max(SIZES)), {}
    time_of = lambda text: min(run_replay(text) for _ in range(3))
    before = time_of(stream)
    for name, request in kinds(0).items():
        stream += "".join(head(TEAM, *request(at)) for at in range(rounds))
        after = time_of(stream)
        rates[name] = rounds / (after - before) if after > before else None
        before = after
    return rates


def run_replay(stream):
    """Seconds to answer the stream; each answer has to be 200."""
    words = [PROGRAM, "replay", "--office-token", OFFICE]
    began = time.monotonic()
    answers = subprocess.run(words, input=stream.encode(), capture_output=True, check=True).stdout
    took = time.monotonic() - began
    if answers.count(b"HTTP/1.1 200 ") != stream.count(" HTTP/1.1\r\n"):
        sys.exit("replay: a request isn't answered 200")
    return took


def row(folder, count, is_plain):
    """Prints the row of a file of so many contracts; none if it was to have sums and `init` makes none."""
    file = f"{folder}/broker{count}.db"
    is_summed = fill(file, count, is_plain)
    if is_summed or is_plain:
        took, serving = requests(file, count)
        sizes = [os.path.getsize(it) / 1e6 if os.path.exists(it) else 0 for it in (file, file + "-wal")]
        seconds, most = opening(file)
        cells = [f"{count:,}", "yes" if is_summed else "no", *(f"{it:.1f}" for it in sizes), f"{seconds:.2f}", f"{most:.0f}", f"{serving:.0f}"]
        print("| " + " | ".join(cells + [f"{it:.2f}" for it in took.values()]) + " |", flush=True)
    for end in "", "-wal":
        if os.path.exists(file + end):
            os.remove(file + end)


def main():
    folder = tempfile.mkdtemp()
    try:
        print(f"load {os.getloadavg()[0]:.1f} on {os.cpu_count()} processors; a sync of 4 KiB takes {syncing(folder):.2f} ms\n")
        print("| contracts | sums | the file, MB | its log, MB | opening, s | memory of it, MB | memory of `serve`, MB | " + " | ".join(f"{it}, ms" for it in kinds(0)) + " |")
        print("|---:|---|" + "---:|" * (5 + len(kinds(0))))
        for count in SIZES:
            row(folder, count, True)
            row(folder, count, False)
        print("\n| in memory | requests a second |\n|---|---:|")
        for name, rate in in_memory().items():
            print(f"| {name} | {rate:,.0f} |" if rate else f"| {name} | lost in the noise of this machine |")
    finally:
        shutil.rmtree(folder)


if __name__ == "__main__":
    main()
