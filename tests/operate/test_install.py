"""The installation of docs/OPERATING.md, and what its unit allows. The lines of the section Install are run as they
are, on a machine of their own, where systemd starts the service: it counts as started once it answers. Then
systemd-analyze reads the unit, and rates it at most 2.0; and the program, while it makes and serves a file, asks of the
system only what the unit allows."""
import os, re
from collections.abc import Callable
import pytest
from tests.operate.pages import section
from tests.process import TOP, Server, run, text_of
from tests.wire import Wrong, same
from tests.world import RED, new_file, register, verify

UNIT = f"{TOP}/examples/broker.service"
# The most that systemd-analyze may say, of 10.
MOST = 2.0
# What is looked for after the lines: whose is what they made, who may read it, and whether it is served.
MADE = """
echo
cd /var/lib/broker
stat -c '%n %U %G %a' . broker.db /usr/local/bin/broker /root/office-token /root/red.token /usr/local/bin/holzhebo
stat -L -c '%n %U %G %a' /usr/local/share/broker/desk/index.html /usr/local/share/broker/desk/holzhebo /backup/nightly
/usr/local/share/broker/tools/report --help | head -n 1
# the one file that the proxy gives to builds: the client, and anybody may read it
runuser -u nobody -- cmp /usr/local/share/broker/desk/holzhebo /usr/local/bin/holzhebo && echo 'one client'
getent passwd broker | cut -d: -f6-
systemd-analyze verify /etc/systemd/system/broker.service 2>&1
systemctl is-enabled broker
systemctl is-active broker
"""
PRINTED = """DIGEST  /usr/local/bin/holzhebo
{"answer":"no route"}new  environment live
new  team red
new  pacticipant shop
new  grant for live

. broker broker 700
broker.db broker broker 600
/usr/local/bin/broker root root 755
/root/office-token root root 600
/root/red.token root root 600
/usr/local/bin/holzhebo root root 755
/usr/local/share/broker/desk/index.html root root 644
/usr/local/share/broker/desk/holzhebo root root 755
/backup/nightly root root 700
usage: holzhebo report [-h] [--names FILE] [--output FILE] [--json]
one client
/var/lib/broker:/usr/sbin/nologin
enabled
active
"""
Machine = Callable[[str, list[str], float], tuple[int, str, str]]


def lines(program: str) -> str:
    """The lines of the section Install, with the program that is tried in the place of the one in the repository."""
    blocks = re.findall(r"(?ms)^```\n(.*?)^```$", section("OPERATING.md", "Install"))
    same("blocks of the section", len(blocks), 2)
    return "\n".join(blocks).replace("crates/broker/out/broker", program)


def tried(machine: Machine, program: str, text: str, *folders: str, seconds: float = 180) -> str:
    """What the lines of Install, and then this text, print on a machine of their own, which has these folders too:
    without the digest of the client, which each build has of its own."""
    clean = "userdel broker 2> /dev/null || true\nrm -rf /var/lib/broker /usr/local/*/broker\n"
    whole = f"export HOME=/root\ncd {TOP}\n{clean}{lines(program)}{text}"
    status, output, errors = machine(whole, [TOP, os.path.dirname(program), *folders], seconds)
    if status:
        raise Wrong(f"the lines end with {status}: {output}{errors}")
    return re.sub(r"(?m)^[0-9a-f]{64}(?=  )", "DIGEST", output)


@pytest.mark.root
@pytest.mark.needs("curl", "ip", "openssl", "systemd-analyze", "unshare")
def test_installed(machine: Machine, program: str) -> None:
    said = re.sub(r"(?m)^[0-9a-f]{64}  ", "DIGEST  ", tried(machine, program, MADE))
    same("what the lines print", said, PRINTED)


# Each line that begins with `== ` is followed by what is compared.
STARTED = r"""
echo "== started"
# as soon as it counts as started it answers
for _ in 1 2 3; do systemctl restart broker; curl -sS http://127.0.0.1:9292/; echo; done
echo "== why"
f=/var/lib/broker/broker.db
try() { systemctl start broker 2> /dev/null && echo "started with $1"; sleep 1.5; systemctl stop broker; }
said() { journalctl --no-pager -o cat -t which.sh -t broker -u broker | grep -E "^[a-z ]+: .*$f" | uniq; }
systemctl stop broker
mv $f $f.away; try missing; mv $f.away $f
chown root: $f; try forbidden; chown broker: $f
cp $f /root/sound.db
printf x | dd of=$f bs=1 seek=5000 conv=notrunc 2> /dev/null; try damaged
cat /root/sound.db > $f
said
systemctl start broker
echo "== again"
curl -sS http://127.0.0.1:9292/
"""
STARTS = {
    "started": '{"answer":"no route"}\n' * 3,
    "why": """missing: there is no file /var/lib/broker/broker.db
forbidden: broker may not read and write /var/lib/broker/broker.db, its log and their folder
damaged: restore the latest backup of /var/lib/broker/broker.db, and look for errors of the disk
""",
    "again": '{"answer":"no route"}',
}


@pytest.mark.root
@pytest.mark.needs("curl", "ip", "openssl", "systemd-analyze", "unshare")
def test_started(machine: Machine, program: str) -> None:
    """It counts as started once it answers; and why it doesn't open its file is a sentence in the journal."""
    output = tried(machine, program, STARTED)
    parts = re.split(r"(?m)^== (.*)\n", output)
    found = dict(zip(parts[1::2], parts[2::2]))
    for name, wanted in STARTS.items():
        same(name, found.get(name), wanted)


def block(name: str, begin: str) -> str:
    """The block of lines in a section of docs/OPERATING.md that begins so."""
    text = section("OPERATING.md", name)
    blocks = re.findall(r"(?ms)^```\n(.*?)^```$|(?<=\n\n)((?:    [^ \n][^\n]*\n)+)", text)
    texts = [str(one or two) for one, two in blocks]
    text, = [it for it in texts if it.strip().startswith(begin)]
    return text


# The lines of Install again, as somebody pastes them into a shell that goes on after a fault.
AGAIN = r"""
echo '{"environments":["live"]}' > /usr/local/share/broker/desk/desk.json
cat > /root/again << 'END'
@LINES@
END
echo "== again"
bash /root/again 2> /dev/null
echo "== then"
holzhebo environment later
cat /usr/local/share/broker/desk/desk.json
"""
SAID_AGAIN = """DIGEST  /usr/local/bin/holzhebo
{"answer":"no route"}known  environment live
known  team red
known  pacticipant shop
known  grant for live
"""


@pytest.mark.root
@pytest.mark.needs("curl", "ip", "openssl", "unshare")
def test_installed_again(machine: Machine, program: str) -> None:
    """As after a fault, or for an upgrade: the office is known by the same token, and the page's settings stay."""
    output = tried(machine, program, AGAIN.replace("@LINES@", lines(program)))
    _, again, then = re.split(r"(?m)^== .*\n", output)
    same("what they print", again, SAID_AGAIN)
    same("what is there", then, 'new  environment later\n{"environments":["live"]}\n')


# Where the lines are that make a proxy's files of tokens: the page or recipe, and the folder of these files.
TOKEN_FILES = {"docs/CLUSTER.md": "/etc/nginx", "examples/nginx.conf": "/etc/nginx", "examples/Caddyfile": "/etc/caddy"}


@pytest.mark.root
@pytest.mark.needs("caddy")
@pytest.mark.parametrize("page", TOKEN_FILES)
def test_files_of_tokens(room: str, page: str) -> None:
    """The lines that make a proxy's files of tokens keep those that are there, as of another machine."""
    folder = TOKEN_FILES[page]
    found = re.findall(rf"(?m)^(?:#|  ) +((?:\[ -e|echo) .*{folder}/broker-.*)$", text_of(page))
    words = ["bash", "-c", "\n".join(found).replace(folder, room)]
    names = "broker-teams", "broker-tokens"
    run(words)
    same("the files", sorted(os.listdir(room)), [*names])
    for name in names:
        with open(f"{room}/{name}", "a", encoding="ascii") as it:
            it.write(f'"{name}";\n')
    run(words)
    for name in names:
        same(f"the lines of {name}", [it[:1] for it in text_of(f"{room}/{name}").splitlines()], ["#", '"'])
        same(f"who may read {name}", os.stat(f"{room}/{name}").st_mode & 0o7, 0)


CARRIED = r"""
install -d -m 700 /backup
export HOLZHEBO_TOKEN_FILE=/root/red.token
for version in $(seq 40); do holzhebo register shop $version --branch main > /dev/null; done
holzhebo deploy shop 3 live > /dev/null
say() { holzhebo status live; }
rows() { sqlite3 "$1" 'SELECT count(*), min(version), max(number) FROM versions'; }
later=$(date -d '180 days' +%F)
say > /root/before
cat > /root/lines << 'END'
@LINES@
END
bash /root/lines
echo "== carried"
say | cmp - /root/before && stat -c %U /var/lib/broker/broker.db
rows /backup/carried-$(date +%F).db
holzhebo register shop 41 --branch main
echo "== on the same day"
bash /root/lines 2> /dev/null || echo "ended with $?"
say | cmp - /root/before && holzhebo register shop 41 --branch main
echo "== later"
{ echo "date() { command date -d '180 days' \"\$@\"; }"; cat /root/lines; } | bash > /dev/null
say | cmp - /root/before && holzhebo register shop 41 --branch main
rows /backup/carried-$later.db
export HOLZHEBO_TOKEN_FILE=/root/office-token
holzhebo environment later > /dev/null
echo "== back"
@BACK@
say | cmp - /root/before && holzhebo environment later
"""


@pytest.mark.root
@pytest.mark.needs("curl", "ip", "openssl", "sqlite3", "unshare")
def test_years(machine: Machine, program: str) -> None:
    """The lines of a quiet hour, in a shell that goes on after a fault; again on that day and half a year later, with
    what was sent meanwhile; and those that go back."""
    one, other = block("Years", "systemctl stop broker"), block("Years", "examples/restore.sh")
    back = re.sub(r"\d{4}-\d\d-\d\d", "$later", other)
    output = tried(machine, program, CARRIED.replace("@LINES@", one).replace("@BACK@", back))
    parts = re.split(r"(?m)^== (.*)\n", output)
    found = {name: text.splitlines() for name, text in zip(parts[1::2], parts[2::2])}
    # The last twenty, and the one that is deployed.
    same("carried", found["carried"], ["broker", "21|21|21", "shop 41 is new"])
    same("on the same day", found["on the same day"], ["ended with 1", "shop 41 is known"])
    same("later", found["later"], ["shop 41 is known", "21|22|21"])
    last = ["/var/lib/broker/broker.db is restored, and broker serves it", "new  environment later"]
    same("back", found["back"][-2:], last)


# The unit


@pytest.mark.needs("systemd-analyze")
def test_rated() -> None:
    text = run(["systemd-analyze", "security", "--no-pager", "--offline=true", UNIT])
    said = re.search(r"Overall exposure level for broker.service: ([0-9.]+)", text)
    if not said or float(said[1]) > MOST:
        raise Wrong(f"systemd-analyze rates it {said[1] if said else 'in no way'}, over {MOST}")
    stated = re.findall(r"`systemd-analyze security broker` says ([0-9.]+),", text_of("docs/OPERATING.md"))
    same("the rating that the section says", stated, [said[1]])


def setting(key: str) -> list[str]:
    return re.findall(rf"(?m)^{key}=(.*)$", text_of(UNIT))


def groups() -> dict[str, list[str]]:
    """The names in each group of calls, as systemd has them."""
    found: dict[str, list[str]] = {}
    for line in run(["systemd-analyze", "syscall-filter", "--no-pager"]).split("\n"):
        if line.startswith("@"):
            names = found.setdefault(line, [])
        elif line.startswith("    ") and not line.startswith("    #"):
            names.append(line.strip())
    return found


def calls_of(name: str, known: dict[str, list[str]]) -> set[str]:
    """The calls that a name of a filter means."""
    return {name} if not name.startswith("@") else {it for part in known[name] for it in calls_of(part, known)}


def allowed() -> set[str]:
    """The calls that the unit allows: those of its first line without those of the second."""
    known, (first, second) = groups(), setting("SystemCallFilter")
    same("the first letter of the second filter", second[0], "~")
    more = {call for it in ["@default", *first.split()] for call in calls_of(it, known)}
    return more - {call for it in second[1:].split() for call in calls_of(it, known)}


@pytest.mark.needs("strace", "systemd-analyze", "pkill")
def test_within(program: str, room: str) -> None:
    """The fleet is made and asked of a program whose calls are written down."""
    folder = f"{room}/lib"
    os.mkdir(folder)
    file, trace = new_file(program, folder), f"{room}/trace"
    with Server(program, file, before=["strace", "-f", "-qq", "-o", trace]) as server:
        register(server)
        verify(server)
        same("an answer", server.ask("GET", "/environments/live", RED).status, 200)
        run(["pkill", "-TERM", "-P", str(server.process.pid)])
        server.finish()
    text = text_of(trace)
    made = set(re.findall(r"(?m)^\d+ +(\w+)\(", text))
    same("calls that the unit forbids", sorted(made - allowed()), [])
    families = set(re.findall(r"socket\((\w+)", text)) - set(setting("RestrictAddressFamilies")[0].split())
    same("kinds of sockets that it forbids", sorted(families), [])
    run_memory = r"(?m)^.*(?:PROT_WRITE\|PROT_EXEC|mprotect\(.*PROT_EXEC).*$"
    same("memory that is written and run", re.findall(run_memory, text), [])
    opened = re.findall(r'openat\([^"]*"([^"]*)", [^)]*O_(?:RDWR|WRONLY|CREAT)', text)
    same("files that are written elsewhere", [it for it in opened if not it.startswith(folder)], [])
    if len(made) < 10 or not opened:
        raise Wrong(f"strace saw too little: {sorted(made)}")
