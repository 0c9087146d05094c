"""The lines of the builds of examples/builds, by the shells that the services use, over the program and a provider that
listens. The client is the one file, which a server in the place of the proxy has under /desk/holzhebo."""
import concurrent.futures, contextlib, functools, json, os, re, shlex, sys
from typing import Any, Callable, Dict, List
import pytest
from tests.client.tools import CLIENT, PYTHON, TOKENS, Client, Reply, Stock, told
from tests.process import TOP, Server, ran, run, text_of
from tests.wire import OFFICE, Wrong, same
from tests.world import BLUE, RED, pact

BUILDS = f"{TOP}/examples/builds"
STUBS = {
    "bin/gh": 'echo "$@" >> started',
    "bin/git": "exit 0",
    "bin/mvn": 'echo "$@" >> verified; [ "${VERIFIER:-0}" = broken ] && exit 1; mkdir -p target/surefire-reports;'
    "echo '<testsuite/>' > target/surefire-reports/TEST-org.example.${VERIFIER:-StockPactTest}.xml;"
    '[ "${VERIFIER:-0}" = 0 ] || exit 1; ! grep -q "${FAILS:-nothing at all}" target/pact/*.json',
    "bin/curl": 'echo "$@" >> fetched; while [ "$1" != -o ]; do shift; done; cp "$ONE_FILE" "$2.new"; mv "$2.new" "$2"',
    "run-tests": "mkdir -p pacts; cp pact.json pacts/shop-stock.json",
    "start-service": "exit 0",
    "roll-out": 'exit "${ROLLOUT:-0}"',
}


@functools.lru_cache(None)
def yaml_of(path: str) -> Any:
    """What a file of YAML says, as Debian's Python with python3-yaml reads it."""
    with open(path, encoding="utf-8") as file:
        words = ["/usr/bin/python3", "-c", "import json, sys, yaml; print(json.dumps(yaml.safe_load(sys.stdin)))"]
        return json.loads(run(words, text=file.read()))


def shell_of(step: Any) -> List[str]:
    """The shell of a step: GitHub's own is without pipefail, and with it only if the step names bash."""
    return ["bash", "--noprofile", "--norc", "-eo", "pipefail"] if step.get("shell") == "bash" else ["bash", "-e"]


class Build:
    """A folder in which the lines of a build are run, over a broker and a provider that listen elsewhere."""

    def __init__(self, room: str, client: Client, stock: Stock) -> None:
        self.room, self.places = room, {"https://broker.example.org": client.url, "http://127.0.0.1:8080": stock.url}
        for name, text in STUBS.items():
            os.makedirs(os.path.dirname(f"{room}/{name}"), exist_ok=True)
            with open(f"{room}/{name}", "w", encoding="utf-8") as it:
                it.write(f"#!/bin/sh\n{text}\n")
            os.chmod(f"{room}/{name}", 0o755)
        self.env = {"ONE_FILE": f"{room}/one-file", "RUNNER_TEMP": f"{room}/temp", "GITHUB_PATH": f"{room}/path"}
        os.mkdir(f"{room}/temp")
        said = run([sys.executable, f"{TOP}/client/zip", f"{room}/one-file"], env={"SOURCE_DATE_EPOCH": "1790000000"})
        self.env["HOLZHEBO_SHA256"] = said.split()[0]

    def placed(self, text: str) -> str:
        for place, other in self.places.items():
            text = text.replace(place, other)
        return text

    def lines(self, shell: List[str], text: str, env: Dict[str, str]) -> int:
        """Runs these lines; what they print has no token."""
        env = {**self.env, **{key: self.placed(it) for key, it in env.items()}}
        with contextlib.suppress(FileNotFoundError), open(self.env["GITHUB_PATH"], encoding="utf-8") as it:
            env["PATH"] = ":".join([*it.read().split(), env.get("PATH", os.environ["PATH"])])
        path = {"PATH": f"{self.room}/bin:{env.get('PATH', os.environ['PATH'])}"}
        done = told([*shell, "-c", self.placed(text)], cwd=self.room, env={**os.environ, **env, **path})
        if done.status not in (0, 1, 3):
            raise Wrong(f"{text} ends with {done.status}: {done.output}{done.errors}")
        return done.status

    def github(
        self, name: str, token: str, given: Dict[str, str], after: Callable[[str], None] = lambda line: None
    ) -> int:
        """Runs a workflow as GitHub does: each step by bash, with what an earlier one wrote for the next, until one
        fails."""
        workflow = yaml_of(f"{BUILDS}/github/{name}")
        # Another build than a release has no token that deploys.
        name_of = "HOLZHEBO_RELEASE_TOKEN" if name == "release.yml" else "HOLZHEBO_TOKEN"
        given = {f"secrets.{name_of}": token, "secrets.PROVIDER_BUILDS": "-", **given}
        given["vars.HOLZHEBO_SHA256"] = self.env["HOLZHEBO_SHA256"]
        kept, steps = f"{self.room}/{name}.env", []  # type: str, List[Dict[str, Any]]
        for job in workflow["jobs"].values():
            usual = job.get("defaults", {}).get("run", {})
            steps += [{**usual, **it} for it in job["steps"] if "run" in it]
        for step in steps:
            env = {**workflow["env"], **step.get("env", {}), "GITHUB_ENV": kept, **given}
            if os.path.exists(kept):
                with open(kept, encoding="utf-8") as file:
                    rows = [it.partition("=") for it in file.read().splitlines()]
                same(f"lines for the next step that aren't NAME=VALUE, which end a build ({step['run']})",
                     [it for it in rows if not it[1]], [])
                env.update((name, value) for name, _, value in rows)
            texts = {key: str(it) for key, it in env.items() if "." not in key}
            env = {key: re.sub(r"\$\{\{ (\S+) \}\}", lambda it: given[str(it[1])], it) for key, it in texts.items()}
            status = self.lines(shell_of(step), step["run"], env)
            if status:
                return status
            after(step["run"])
        return 0

    def gitlab(self, job: str, token: str, **given: str) -> int:
        jobs = yaml_of(f"{BUILDS}/gitlab-ci.yml")
        # Those of the project come before those of a job. A release has both, of which the first deploys nothing.
        usual = {"HOLZHEBO_TOKEN": TOKENS["nobody"], "HOLZHEBO_RELEASE_TOKEN": token}
        tokens = usual if job == "release" else {"HOLZHEBO_TOKEN": token}
        env = {**jobs["variables"], **jobs[job].get("variables", {}), **tokens, **given}
        return self.lines(
            ["bash", "-e", "-o", "pipefail"], "\n".join(jobs["default"]["before_script"] + jobs[job]["script"]), env
        )

    def jenkins(self, token: str, **given: str) -> List[int]:
        with open(f"{BUILDS}/Jenkinsfile", encoding="utf-8") as file:
            text = file.read()
        env = {"HOLZHEBO_BROKER": re.findall(r"HOLZHEBO_BROKER = '(.*)'", text)[0], "HOLZHEBO_TOKEN": token, **given}
        env["PATH"] = f"{self.room}/bin:{os.environ['PATH']}"
        steps = [one or more for more, one in re.findall(r"(?s)sh (?:\'\'\'(.*?)\'\'\'|'(.*?)')\n", text)]
        return [self.lines(["sh", "-e"], it, env) for it in steps]


def in_live(server: Server) -> List[str]:
    said = json.loads(server.ask("GET", "/environments/live", RED).body)
    return [f"{it['pacticipant']} {it['version']} {it['instance']}".rstrip() for it in said["deployed"]]


def test_github(fleet: Server, client: Client, room: str) -> None:
    with Stock({"GET /": Reply()}) as stock:
        build, threads = Build(room, client, stock), []  # type: Build, List[concurrent.futures.Future[int]]
        with open(f"{room}/pact.json", "w", encoding="utf-8") as it:
            it.write(pact("a spoon"))
        with concurrent.futures.ThreadPoolExecutor(1) as workers:

            def after(line: str) -> None:
                if line.startswith("gh "):
                    with open(f"{room}/started", encoding="utf-8") as file:
                        given = {f"inputs.{key}": it for key, it in re.findall(r"(\w+)=(\S+)", file.read())}
                    runs = {"GITHUB_RUN_ID": "7", "GITHUB_RUN_ATTEMPT": "1"}
                    threads.append(workers.submit(build.github, "contract.yml", BLUE, {**given, **runs}))

            commit = {"GITHUB_SHA": "c0ffee", "GITHUB_REF_NAME": "main"}
            same("the consumer's build", build.github("consumer.yml", RED, commit, after), 0)
            same("the contract's build", [it.result() for it in threads], [0])
        rows = json.loads(fleet.ask("GET", "/matrix?pacticipant=shop&version=c0ffee", RED).body)["rows"]
        same(
            "the result",
            [(it["providerVersion"], it["evidence"], it["success"]) for it in rows],
            [("1", "checked", True)],
        )
        same("the release", build.github("release.yml", RED, {"inputs.version": "c0ffee"}), 0)
        same("what is live", in_live(fleet), ["shop c0ffee", "stock 1"])
        same("a rollout that fails", build.github("release.yml", RED, {"inputs.version": "1", "ROLLOUT": "1"}), 1)
        same("what is live then", in_live(fleet), ["shop c0ffee", "stock 1"])
        same("a release that isn't permitted", build.github("release.yml", RED, {"inputs.version": "2"}), 1)
        own = {"GITHUB_SHA": "f00d", "GITHUB_REF_NAME": "main", "GITHUB_RUN_ID": "8", "GITHUB_RUN_ATTEMPT": "1"}
        same("the provider's build", build.github("provider.yml", BLUE, own), 0)
        stock.answers["GET /"] = Reply(500)
        same(
            "one that breaks the contract",
            build.github("provider.yml", BLUE, {**own, "GITHUB_SHA": "bad", "GITHUB_RUN_ID": "9"}),
            1,
        )


def test_gitlab_and_jenkins(fleet: Server, client: Client, room: str) -> None:
    with Stock({"GET /": Reply()}) as stock:
        build = Build(room, client, stock)
        with open(f"{room}/pact.json", "w", encoding="utf-8") as it:
            it.write(pact("a spoon"))
        commit = {"CI_COMMIT_SHA": "c0ffee", "CI_COMMIT_BRANCH": "main"}
        same("the consumer's", build.gitlab("consumer", RED, **commit), 0)
        same(
            "the contract's",
            build.gitlab("contract", BLUE, CONSUMER="shop", CONSUMER_VERSION="c0ffee", CI_JOB_ID="1"),
            0,
        )
        same("the wait", build.gitlab("wait for the result", RED, **commit), 0)
        same("the release", build.gitlab("release", RED, VERSION="c0ffee"), 0)
        same("what is live", in_live(fleet), ["shop c0ffee", "stock 1"])
        same(
            "a rollout that fails",
            (build.gitlab("release", RED, VERSION="1", ROLLOUT="1"), in_live(fleet)),
            (1, ["shop c0ffee", "stock 1"]),
        )
        commit = {"CI_COMMIT_SHA": "f00d", "CI_COMMIT_BRANCH": "main", "CI_JOB_ID": "2"}
        same("the provider's", build.gitlab("provider", BLUE, **commit), 0)
        given = {"GIT_BRANCH": "origin/main", "GIT_COMMIT": "j1", "BUILD_TAG": "jenkins-1"}
        same("Jenkins", build.jenkins(BLUE, **given), [0, 0, 0, 0, 0])
        same("it is on main", branch_of(fleet, "stock", "j1"), "main")
        given.update(GIT_COMMIT="j2", BUILD_TAG="jenkins-2")
        same("Jenkins, a failure", build.jenkins(BLUE, **given, FAILS="a spoon"), [0, 0, 0, 1, 1])
        rows = json.loads(fleet.ask("GET", "/matrix?pacticipant=stock&version=j2", BLUE).body)["rows"]
        same("the failure is stored", [(it["consumerVersion"], it["success"]) for it in rows], [("c0ffee", False)])
        for number, other in enumerate(("broken", "ShelfTest"), 3):
            given.update(GIT_COMMIT=f"j{number}", BUILD_TAG=f"jenkins-{number}")
            same("Jenkins, without a report", build.jenkins(BLUE, **given, VERIFIER=other), [0, 0, 0, 1, 1])
            asked = f"/matrix?pacticipant=stock&version=j{number}"
            rows = json.loads(fleet.ask("GET", asked, BLUE).body)["rows"]
            same(f"nothing is claimed ({other})", [it["result"] for it in rows], [])


def branch_of(fleet: Server, pacticipant: str, version: str) -> str:
    """The branch of a version: the one on which its contract is found."""
    text = json.dumps({**json.loads(pact("its own")), "consumer": {"name": pacticipant}, "provider": {"name": "shop"}})
    fleet.do("PUT", f"/pacts/provider/shop/consumer/{pacticipant}/version/{version}", BLUE, text)
    found = [it for it in ("main", "origin/main") if fleet.ask("GET", branch_path(pacticipant, it), BLUE).status == 200]
    return " ".join(found)


def branch_path(pacticipant: str, branch: str) -> str:
    return f"/pacts/provider/shop/consumer/{pacticipant}/branch/{branch.replace('/', '%2F')}"


def test_one_outcome_a_contract(fleet: Server, client: Client, room: str) -> None:
    """Of two contracts one fails: a failure is claimed for it, and a pass for the other."""
    fleet.do("PUT", "/pacticipants/web", OFFICE, '{"team":"red"}')
    for name, text in ("shop", pact("a spoon")), ("web", pact("a fork").replace('"shop"', '"web"')):
        fleet.do("PUT", f"/pacts/provider/stock/consumer/{name}/version/s", RED, text)
        client.done("blue", "fetch", "--provider", "stock", "--contract", name, "s", "--into", name)
        client.done("blue", "result", "1", "pass", name)
        client.done("red", "deploy", name, "s", "live")
    with Stock({}) as stock:
        build = Build(room, client, stock)
        given = {"GIT_BRANCH": "main", "GIT_COMMIT": "k1", "BUILD_TAG": "jenkins-1"}
        same("the build", build.jenkins(BLUE, **given, FAILS="a spoon"), [0, 0, 0, 1, 1])
    rows = json.loads(fleet.ask("GET", "/matrix?pacticipant=stock&version=k1", BLUE).body)["rows"]
    same("what is claimed", [(it["consumer"], it["success"]) for it in rows], [("shop", False), ("web", True)])


def test_the_version_that_is_live(fleet: Server, client: Client, room: str) -> None:
    """A contract is verified with what is deployed without a name; not with what is released there too, or a canary."""
    fleet.do("PUT", "/pacts/provider/stock/consumer/shop/version/c1", RED, pact("a spoon"))
    client.done("blue", "register", "stock", "0.9")
    client.done("blue", "release", "stock", "0.9", "live")
    client.done("blue", "register", "stock", "1.1")
    client.done("blue", "deploy", "stock", "1.1", "live", "--instance", "canary")
    with Stock({"GET /": Reply()}) as stock:
        build = Build(room, client, stock)
        given = {"inputs.consumer": "shop", "inputs.version": "c1", "GITHUB_RUN_ID": "7", "GITHUB_RUN_ATTEMPT": "1"}
        same("GitHub's", build.github("contract.yml", BLUE, given), 0)
        job = {"CONSUMER": "shop", "CONSUMER_VERSION": "c1", "CI_JOB_ID": "1"}
        same("GitLab's", build.gitlab("contract", BLUE, **job), 0)
    rows = json.loads(fleet.ask("GET", "/matrix?pacticipant=shop&version=c1", RED).body)["rows"]
    same("verified with", [(it["providerVersion"], it["success"]) for it in rows if it["result"]], [("1", True)])


@pytest.mark.needs("git")
def test_the_version_of_a_branch(fleet: Server, client: Client, room: str) -> None:
    """What the newest commit of a consumer's main branch has published gets a result, by the words of docs/BUILDS.md;
    also beside another branch whose name ends as that one's. A commit that has published nothing ends with 3."""
    words, = re.findall(r"`(--contract shop \"\$\(git [^`]*)`", text_of("docs/BUILDS.md"))
    git = ["git", "-C", room, "-c", "user.name=shop", "-c", "user.email=shop@example.org"]
    run([*git, "init", "-q", "-b", "main"])
    run([*git, "commit", "-q", "--allow-empty", "-m", "one"])
    run([*git, "branch", "old/main"])
    run([*git, "commit", "-q", "--allow-empty", "-m", "another"])
    commit = run([*git, "rev-parse", "HEAD"]).strip()
    with Stock({"GET /": Reply()}) as stock:
        line = f"{shlex.join([*PYTHON, CLIENT])} verify --provider stock --version v1 --url {stock.url} {words}"
        asked = ["bash", "-eo", "pipefail", "-c", line.replace("URL", shlex.quote(room))]
        env = client.env("blue")
        same("before it has published", told(asked, env=env).status, 3)
        fleet.do("PUT", f"/pacts/provider/stock/consumer/shop/version/{commit}", RED, pact("a spoon"))
        same("then", told(asked, env=env).status, 0)
        other = line.replace("URL", shlex.quote(f"{room}/none"))
        same("a repository that isn't there", told(["bash", "-c", other], env=env).status, 2)
    rows = json.loads(fleet.ask("GET", f"/matrix?pacticipant=shop&version={commit}", RED).body)["rows"]
    same("the result", [(it["providerVersion"], it["success"]) for it in rows if it["result"]], [("v1", True)])


def test_a_client_that_fails_in_a_pipe(fleet: Server, client: Client, room: str) -> None:
    """Of GitHub's build for one contract: without an answer of the broker it ends before anything is checked out."""
    with Stock({}) as stock:
        build = Build(room, client, stock)
        build.places["https://broker.example.org"] = "http://127.0.0.1:1"
        build.env["HOLZHEBO_PATIENCE"] = "0"
        given = {"inputs.consumer": "shop", "inputs.version": "1", "GITHUB_RUN_ID": "7", "GITHUB_RUN_ATTEMPT": "1"}
        same("the build", build.github("contract.yml", BLUE, given), 3)
    same("no version is kept for the next step", os.path.exists(f"{room}/contract.yml.env"), False)


def test_a_reader_that_ends_early(fleet: Server, client: Client, room: str) -> None:
    """A listing of 200 services into a pipe whose reader takes one line: never a status of an error by the client's."""
    for number in range(200):
        fleet.do("PUT", f"/pacticipants/c{number}", OFFICE, '{"team":"red"}')
        fleet.do("PUT", f"/pacticipants/c{number}/versions/1", RED)
        fleet.do(
            "POST", "/environments/open/deployments", RED, json.dumps({"pacticipant": f"c{number}", "version": "1"})
        )
    line = f"{shlex.join([*PYTHON, CLIENT])} status open | head -n 1"
    for _ in range(20):
        done = ran(["bash", "-o", "pipefail", "-c", line], env=client.env("red"))
        same("status", (done.status, done.errors), (0, ""))
    line = f"{shlex.join([*PYTHON, CLIENT])} matrix stock 1 | true; echo ${{PIPESTATUS[0]}}"
    done = ran(["bash", "-c", line], env=client.env("blue"))
    same("141, as of others, or 0", (done.output.strip() in ("0", "141"), done.errors), (True, ""))
