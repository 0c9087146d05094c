"""Results without a run: what their rows have, and that neither the next one nor an opening pays for those before."""
import os, re, resource, shutil, sqlite3
import pytest
from tests.process import Ended, Server, ran, run, text_of
from tests.wire import Wrong, request, same
from tests.world import BLUE, RED, fleet_file

PATH = "/pacts/provider/stock/consumer/shop/version/1/results"
# Over how many results of one provider a cost is measured: some tenths of a second, of which a tick of the clock that
# tells of it, a hundredth, is little. How many come between that and the same again; and how many a file has that is
# opened.
MEASURED, BETWEEN, OPENED = 4000, 6000, 3000


def rows(file: str, room: str) -> list[tuple[int, str, int]]:
    """Of each result its number, its run, and whether it is one of those with a run; of a copy, so that no sum of the
    file is changed."""
    for end in "", "-wal":
        if os.path.exists(file + end):
            shutil.copy(file + end, f"{room}/copy.db{end}")
    base = sqlite3.connect(f"{room}/copy.db")
    found = base.execute("SELECT number, run, run >= ' ' FROM results ORDER BY number").fetchall()
    base.close()
    return found


def result(run: str = "") -> bytes:
    named = f',"run":"{run}"' if run else ""
    return request("POST", PATH, BLUE, '{"providerApplicationVersion":"1","success":true%s}' % named)


def report(server: Server, count: int, have_runs: bool = False) -> float:
    """Sends so many results, and tells the seconds of a processor that the broker took for them."""
    before = used(server)
    for begin in range(0, count, 100):
        answers = server.send(*(result(f"ci-{begin + at}" if have_runs else "") for at in range(100)))
        assert len(answers) == 100 and all(it.startswith('{"answer":"done","result":') for it in answers)
    return used(server) - before


def used(server: Server) -> float:
    """The seconds of a processor that the broker has taken so far."""
    fields = text_of(f"/proc/{server.process.pid}/stat").rpartition(")")[2].split()
    return (int(fields[11]) + int(fields[12])) / os.sysconf("SC_CLK_TCK")


def asked(program: str, file: str) -> Ended:
    """What can-i-deploy says over this file."""
    words = ["--token", RED, "--pacticipant", "shop", "--version", "1", "--to-environment", "live"]
    return ran([program, "can-i-deploy", "--file", file, *words])


def opening(program: str, room: str, have_runs: bool) -> float:
    """The seconds of a processor that an opening takes, of a file with so many results: the least of three."""
    with Server(program, fleet_file(program, room, f"{have_runs}.db")) as server:
        report(server, OPENED, have_runs)
        server.stop()
    times = []
    for _ in range(3):
        begun = resource.getrusage(resource.RUSAGE_CHILDREN)
        assert asked(program, server.file).status == 0
        ended = resource.getrusage(resource.RUSAGE_CHILDREN)
        times.append(ended.ru_utime + ended.ru_stime - begun.ru_utime - begun.ru_stime)
    return min(times)


def test_a_row_without_a_run_has_a_tab_and_its_number(fleet: Server, room: str) -> None:
    fleet.do("POST", PATH, BLUE, '{"providerApplicationVersion":"1","success":true,"run":"ci-7"}')
    fleet.stop()
    same("the rows", rows(fleet.file, room), [(1, "\t1", 0), (2, "\t2", 0), (3, "ci-7", 1)])


@pytest.mark.needs("sqlite3")
def test_the_rows_of_an_earlier_program_are_written_anew(program: str, fleet: Server, room: str) -> None:
    """By the statement of docs/OPERATING.md, and examples/add-sums.py."""
    found = re.search(r"`(UPDATE results [^`]*)`", text_of("docs/OPERATING.md"))
    if not found:
        raise Wrong("docs/OPERATING.md has no such statement")
    fleet.stop()
    old, new = f"{room}/old.db", f"{room}/new.db"
    dump = run(["sqlite3", "-bail", fleet.file, ".dump"])
    run(["sqlite3", "-bail", old], text=dump + "UPDATE results SET run = NULL;")
    before = asked(program, old)
    run(["sqlite3", "-bail", old, found[1]])
    run(["examples/add-sums.py", old, new])
    same("the rows", rows(new, room), [(1, "\t1", 0), (2, "\t2", 0)])
    same("can-i-deploy", asked(program, new), before)


def test_a_result_costs_the_same_behind_thousands(fleet: Server) -> None:
    first = report(fleet, MEASURED)
    report(fleet, BETWEEN)
    assert report(fleet, MEASURED) < 2.5 * first


def test_an_opening_costs_the_same_without_runs(program: str, room: str) -> None:
    assert opening(program, room, False) < 2 * opening(program, room, True)
