"""The tests of tests/, over a built program, by pytest: what may run side by side, as much at once as there are
processors, and beside it what measures times, two at once, to which the others yield the processors. What of these
fails is run once more at the end, with nothing beside it, as a slow moment of the machine looks like a slow program."""
import contextlib, os, re, shutil, signal, subprocess, sys, tempfile, time
import xml.etree.ElementTree as xml

from definitions import TOP
from kit import processors

PYTEST = ["/usr/bin/python3", "-m", "pytest", "tests"]
# Where the JUnit files are, and what pytest keeps between two runs for --lf.
REPORTS = f"{TOP}/out/tests"
# How long all of a run may take, in seconds; a test by itself has a limit of its own (tests/conftest.py).
LONGEST = 3600
# Each run, with its marks and how many at once. What measures times is nearly all waiting, and its limits are far longer
# than what two at once take from each other.
SIDE, TIMES, AGAIN = "side by side", "that measure times", "that measure times once more"
RUNS = {SIDE: ("not timing", str(processors())), TIMES: ("timing", "2"), AGAIN: ("timing", "1")}
# Of more that fail none is run once more: that is no slow moment of the machine.
MOST_AGAIN = 30


class Run:
    """Those tests that have a mark or haven't, by a pytest of their own."""

    def __init__(self, name, room, words):
        marks, count = RUNS[name]
        self.name, self.began = name, time.time()
        self.report, self.log = f"{REPORTS}/{name.replace(' ', '-')}.xml", f"{room}/{name}.log"
        with contextlib.suppress(FileNotFoundError):
            os.remove(self.report)
        by = ["-n", count, "--dist", "loadgroup", "-m", marks, "--basetemp", f"{room}/{name.replace(' ', '-')}"]
        by += ["-q", "-ra", "--color", "no", "-o", "junit_family=xunit1", "--junitxml", self.report]
        # For --lf; one that has no test which failed last has none to run again.
        by += ["-o", f"cache_dir={TOP}/out/pytest-{marks.replace(' ', '-')}", "--lfnf", "none"]
        is_timing = marks == "timing"
        with open(self.log, "wb") as log:
            how = {"cwd": TOP, "stdin": subprocess.DEVNULL, "stdout": log, "stderr": log, "start_new_session": True}
            how["preexec_fn"] = None if is_timing else lambda: os.nice(10)
            self.process = subprocess.Popen([*PYTEST, *by, *words], **how)
        if is_timing:
            # Linux shares the processors by sessions first: this one's comes before the others', if this is root.
            with contextlib.suppress(OSError), open(f"/proc/{self.process.pid}/autogroup", "w", encoding="ascii") as it:
                it.write("-15")

    def said(self):
        with open(self.log, encoding="utf-8", errors="replace") as it:
            return it.read()

    def wait(self):
        """How it ends; a line a minute says how far it is."""
        while True:
            try:
                return self.process.wait(60)
            except subprocess.TimeoutExpired:
                done = re.findall(r"\[ *(\d+%)\]", self.said())
                took = time.time() - self.began
                print(f"{took:6.0f} s  tests {self.name}: {done[-1] if done else '0%'}", flush=True)
                if took > LONGEST:
                    print(f"tests {self.name}: ended, since they take longer than {LONGEST} seconds", flush=True)
                    self.stop()

    def end(self, suite):
        """Waits for it, and says of each test how it ended. Gives those that failed."""
        status, said = self.wait(), self.said()
        if status == 5:
            return []
        if status != 0:
            print(said, end="", flush=True)
        ends = dict(ended(self.report)) if os.path.isfile(self.report) else {}
        failed = [it for it, word in ends.items() if word == "FAILED"]
        suite.ends.update(ends)
        counts = f"{sum(it == 'ok' for it in ends.values())} passed, {len(failed)} failed"
        if status == 0 or status == 1 and failed:
            print(f"tests {self.name}: {counts}, {time.time() - self.began:.0f} s; {os.path.relpath(self.report, TOP)}")
            print("".join(f"{row}\n" for row in said.split("\n") if row.startswith("SKIPPED")), end="", flush=True)
        else:
            suite.tell("FAILED", f"tests {self.name}", f"pytest ends with {status}")
        return failed

    def stop(self):
        """Ends it with its workers, if they haven't ended: as Ctrl-C does, so that the tests stop what they started."""
        for ending in signal.SIGINT, signal.SIGKILL:
            end = time.time() + 30
            with contextlib.suppress(ProcessLookupError):
                os.killpg(self.process.pid, ending)
                while time.time() < end:
                    self.process.poll()
                    os.killpg(self.process.pid, 0)
                    time.sleep(0.1)


def ended(report):
    """Each test of a JUnit file, and how it ended: `ok`, `FAILED` or `not run`."""
    words = {"failure": "FAILED", "error": "FAILED", "skipped": "not run"}
    for case in xml.parse(report).iter("testcase"):
        kinds = [words[it.tag] for it in case if it.tag in words]
        yield f"{case.get('file')}::{case.get('name')}", "FAILED" if "FAILED" in kinds else (kinds or ["ok"])[0]


class OnProgram:
    """The tests of a built program."""

    def __init__(self, suite, program, more):
        given = suite.given
        self.suite, self.program = suite, program
        # The name of a part, as `rt ci`, is no expression of pytest's: it chooses no test.
        self.is_chosen = not given.k or " " not in given.k or bool(re.search(r"\b(?:and|or|not)\b", given.k))
        self.words = ["--program", program, *more]
        self.words += ["-k", given.k] if given.k else []
        self.words += ["--allow-not-run"] if given.allow_not_run else []

    def files(self):
        """The files of tests/ that have a test which is chosen."""
        if not self.is_chosen:
            return []
        words = [*PYTEST, "--collect-only", "-qq", *self.words]
        ran = subprocess.run(words, cwd=TOP, check=False, capture_output=True, text=True)
        if ran.returncode not in (0, 5):
            print(ran.stdout + ran.stderr, file=sys.stderr)
        return re.findall(r"(?m)^(tests/\S+): \d+$", ran.stdout)

    def run(self):
        if not os.access(self.program, os.X_OK):
            if self.files():
                self.suite.tell("FAILED", "the tests", f"there is no program {self.program}: ./build makes it")
            return
        if not self.is_chosen:
            return
        signal.signal(signal.SIGTERM, lambda *_: sys.exit(128 + signal.SIGTERM))
        os.makedirs(REPORTS, exist_ok=True)
        room, runs = tempfile.mkdtemp(prefix="holzhebo-tests-"), []
        try:
            runs += [Run(name, room, self.words) for name in (TIMES, SIDE)]
            times, side = runs
            side.end(self.suite)
            failed = times.end(self.suite)
            if 0 < len(failed) <= MOST_AGAIN:
                print(f"run once more, with nothing beside: {', '.join(failed)}", flush=True)
                runs.append(Run(AGAIN, room, [*self.words, "--lf"]))
                runs[-1].end(self.suite)
        finally:
            for it in runs:
                it.stop()
            shutil.rmtree(room, ignore_errors=True)
