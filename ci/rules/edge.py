"""The rule of the edge: what of the system a crate may name, and where. No clause says that the program reads no other
file, opens no other address and writes to no other stream than its promises speak of, since every function that has
`rt` could. So each of these is named in the files of PLACES alone, which a reader has to look at, and nowhere else."""
import re

from definitions import TOP, text_of
from sources import bare, place

PLACES = (
    ("the standard streams", re.compile(r"\bstd(?:in|out|err)\b"), ("broker/src/main.rt",)),
    ("the words and variables of the process", re.compile(r"\benv\b"), ("broker_program/src/process.rt",)),
    ("files", re.compile(r"\bfs\b"), ("broker_program/src/files.rt", "program_io/src/check.rt")),
    ("a database's file", re.compile(r"\bopen_from\b|\bsqlite_std_file\b"), ("broker_program/src/files.rt",)),
    ("a seed", re.compile(r"\bRandomState\b"), ("broker_program/src/seed.rt",)),
    ("a listener", re.compile(r"\b(?:Tcp|Unix)Listener\b"), ("program_io/src/loopback.rt",)),
    ("a connection that it makes", re.compile(r"\b(?:TcpStream::connect\w*|UdpSocket|Unix(?:Stream|Datagram))\b"), ()),
    ("another program or a thread", re.compile(r"\bstd::process::(?!ExitCode\b)|\bprocess::Command\b|\bthread\b"), ()),
)


def places(crates, named):
    """The files that name it, each with the first place."""
    for path in (path for crate in crates for path in crate.files):
        if found := named.search(bare(text_of(path))):
            yield path.removeprefix(f"{TOP}/crates/"), place(path, text_of(path), found.start())


def faults(product, checks):
    for what, named, where in PLACES:
        found = dict(places(product, named))
        yield from (f"{found[it]}: names {what}: ci/rules/edge.py says where" for it in found if it not in where)
        yield from (f"ci/rules/edge.py: crates/{it} doesn't name {what}" for it in where if it not in found)
