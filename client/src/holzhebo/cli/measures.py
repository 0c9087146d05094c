"""metrics: what Prometheus reads. A source that can't be read is said, and the others are written."""
import sqlite3, time
from typing import Callable, Dict, List, Optional

from holzhebo.api.shapes import key_of
from holzhebo.cli.logs import written
from holzhebo.cli.parser import Arguments
from holzhebo.faults import UNDONE, Json, Stop
from holzhebo.measures import file, gate
from holzhebo.measures.log import Counted, counted, rotated_since
from holzhebo.measures.measure import Measure, Number, label
from holzhebo.measures.service import Service, of_service, service_of
from holzhebo.pact.json import compact
from holzhebo.proxy.log import logs_of, requests_of
from holzhebo.report.copy import Refused
from holzhebo.text import note, shown

ABOUT = "Whether the log, the service, the file, its copies and the gate's verdict on the newest one could be read"


class Collected:
    """The measures of each source that is named, and of the log."""

    def __init__(self, args: Arguments) -> None:
        self.args = args
        self.sources: Dict[str, bool] = {}
        self.found: List[Measure] = []
        self.log: Optional[Counted] = None
        self.service: Optional[Service] = None
        self.copies: List[file.Kept] = []
        self.mark = ""
        # The service first: the log says how many requests came since it began.
        named = {"service": args.service, "log": True, "file": args.file, "copies": args.copies, "gate": args.copies}
        reads = [self.read_service, self.read_log, self.read_file, self.read_copies, self.read_gate]
        for (name, is_named), read in zip(named.items(), reads):
            if is_named:
                self.sources[name] = self.is_read(read)
        if self.service is not None:
            self.sources["service"] = self.is_read(self.tell_service)

    def is_read(self, read: Callable[[], None]) -> bool:
        try:
            read()
        except (Stop, Refused, OSError, sqlite3.Error) as why:
            note(shown(why))
            return False
        return True

    def read_service(self) -> None:
        self.service = service_of(self.args.service)

    def read_log(self) -> None:
        self.log = counted(requests_of(logs_of(self.args.log, False)), self.service and self.service.began)

    def tell_service(self) -> None:
        assert self.service is not None
        since = None if self.log is None else self.log.since
        if since is not None and self.service.began is not None and not self.args.log:
            since += rotated_since(set(logs_of([], True)) - set(logs_of([], False)), self.service.began)
        self.found += of_service(self.service, since)

    def read_file(self) -> None:
        self.found += file.of_file(self.args.file)

    def read_copies(self) -> None:
        self.copies = file.copies_in(self.args.copies, time.time())
        size = file.size_of(self.args.file) if self.args.file else self.copies[-1].size
        self.found += file.of_copies(self.copies, size, self.args.most)

    def read_gate(self) -> None:
        if not self.copies:
            raise Stop("without a copy the gate's verdict isn't known")
        mark = gate.mark_of(self.copies[-1].path)
        self.found.append(gate.of_gate(self.copies[-1].path, self.args.output, mark))
        self.mark = mark

    def text(self) -> str:
        sources: Dict[str, Number] = {label("source", name): int(it) for name, it in self.sources.items()}
        every = [Measure("measured", "gauge", ABOUT, sources), *self.found, *(self.log.measures() if self.log else [])]
        return "\n".join([*filter(None, [self.mark]), *(line for it in every for line in it.lines())])

    def json(self) -> Json:
        gauges = {key_of(it.name): it.json() for it in self.found}
        return {**(self.log.json() if self.log else {}), **gauges, "measured": self.sources}


def metrics(args: Arguments) -> int:
    found = Collected(args)
    status = written(args, compact(found.json()) if args.json else found.text())
    return status if all(found.sources.values()) else UNDONE
