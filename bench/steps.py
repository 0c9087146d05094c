"""Holds the steps that the searches of a check count against the processor's time: `bench/steps.py PROGRAM` checks a
hundred pairs of a pattern and a text by `broker check`, and prints for each how many nanoseconds a step took, then the
most, and how well the order by steps is that by time (Spearman's coefficient). What steps are: docs/LIMITS.md."""
import json, os, random, subprocess, sys, tempfile
from typing import Any

MOST = 1_000_000_000
STEPS = 300_000_000
# Forms of patterns with a number, what their texts are made of, and how runs end so that no prefilter ends the search.
FORMS = [
    ("[ab]*a[ab]{%d}c", "ab", "c"),
    ("(?:a|b)*a(?:a|b){%d}c", "ab", "c"),
    (r"\w*a\w{%d}!", "ab", "!"),
    (r"\w*é\w{%d}!", "éaЖ中bü", "!"),
    (r"\pL*é\pL{%d}!", "éaЖ中bü", "!"),
    ("(?i)[ks]*k[ks]{%d}!", "ksKS", "!"),
    ("[^x]*é[^x]{%d}x", "éaЖ中bü", "x"),
    (r"\d*1\d{%d}x", "01", "x"),
    (r"(?m)^[ab]*a[ab]{%d}$", "ab", "\n"),
    ("^[a-z]+[0-9]{1,%d}$", "a1", " "),
]
TIMES = [1, 3, 10, 30, 100, 200, 300, 1_000, 3_000, 10_000]


def weight(pattern: str) -> int:
    """As docs/LIMITS.md says it."""
    total, numbers, number, before = 8, 0, 0, 0
    inside = long = wide = False
    for byte in pattern.encode():
        wide = wide or (before == 92 and byte in b"pP")
        if byte == ord("{"):
            numbers, number = (min(MOST, numbers + number) if inside else 0), 0
            total, inside, long = total + 1, True, long or before <= 32 or before in b")}*+?"
        elif byte in b"0123456789":
            total, number = total + 1, min(MOST, 10 * number + byte - 48)
        elif byte == ord("}") and inside:
            times = min(MOST, numbers + number + 1)
            total = min(MOST, total * times if long else total + times)
            numbers, number, inside, long = 0, 0, False, False
        else:
            total, numbers, number = total + 1, min(MOST, numbers + number), 0
        before = byte
    return min(MOST, 4 * total) if wide else total


def text(letters: str, end: str, run: int, length: int) -> str:
    made, size, seed = [], 0, random.Random(7)
    while size < length:
        made.append("".join(seed.choices(letters, k=min(run, length))) + end)
        size += len(made[-1].encode())
    return "".join(made).encode()[:length].decode(errors="ignore")


def seconds(program: str, room: str, pattern: str, body: str) -> float:
    """What a check of one text by one pattern takes, if the pattern is one that a file may have."""
    sides: dict[str, Any] = {"consumer": {"name": "shop"}, "provider": {"name": "stock"}}
    rules = {"body": {"$": {"matchers": [{"match": "regex", "regex": pattern}]}}}
    response = {"status": 200, "body": "a", "matchingRules": rules}
    interaction = {"description": "a", "request": {"method": "GET", "path": "/"}, "response": response}
    reply = {"description": "a", "response": {"status": 200, "body": body}}
    for name, it in (("pact", {**sides, "interactions": [interaction]}), ("replies", {"replies": [reply]})):
        with open(f"{room}/{name}", "w", encoding="utf-8") as file:
            json.dump(it, file)
    before = os.times()
    words = [program, "check", "--pact", f"{room}/pact", "--replies", f"{room}/replies"]
    status = subprocess.run(words, capture_output=True, check=False).returncode
    after = os.times()
    return after.children_user - before.children_user if status in (0, 1) else 0.0


def ranks(values: list[float]) -> list[int]:
    order = sorted(range(len(values)), key=lambda at: values[at])
    found = [0] * len(values)
    for rank, at in enumerate(order):
        found[at] = rank
    return found


def main(program: str) -> None:
    steps, times = [], []
    with tempfile.TemporaryDirectory() as room:
        for form, letters, end in FORMS:
            for count in TIMES:
                pattern = form % count
                body = text(letters, end, max(1, count - count // 10), min(1_000_000, STEPS // weight(pattern)))
                taken = seconds(program, room, pattern, body)
                if taken >= 0.02:
                    steps.append(float(weight(pattern) * len(body.encode())))
                    times.append(taken)
                    print(f"{pattern:<32} {int(steps[-1]):>11} steps {taken:6.2f} s {taken / steps[-1] * 1e9:6.2f} ns")
    n = len(steps)
    apart = sum((a - b) ** 2 for a, b in zip(ranks(steps), ranks(times)))
    print(f"{n} pairs that take 20 ms; at most {max(b / a for a, b in zip(steps, times)) * 1e9:.2f} ns a step", end="; ")
    print(f"order by steps and by time: {1 - 6 * apart / (n * (n * n - 1)):.2f}")


if __name__ == "__main__":
    main(sys.argv[1])
