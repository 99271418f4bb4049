"""Metrics for Prometheus, read from the service at each scrape."""

from __future__ import annotations

import io
import ipaddress
import socket
import ssl
import threading
import time
from contextlib import suppress
from http import HTTPStatus
from socketserver import ThreadingMixIn
from typing import Any, Callable, Iterable, Mapping
from wsgiref.simple_server import WSGIRequestHandler, WSGIServer, make_server

from prometheus_client import CollectorRegistry
from prometheus_client.core import CounterMetricFamily, GaugeMetricFamily, Metric
from prometheus_client.exposition import make_wsgi_app
from prometheus_client.registry import Collector

from pagelog.cli.side_by_side import Task, look_at_all
from pagelog.cli.watch import WatchedLook, Watch
from pagelog.errors import ConnectionLost, LogWentBack, TimedOut

_GAUGES = {
    "up": "1 where the database answers its operator in time.",
    "epoch": "The current epoch.",
    "primary": "The id of the epoch's primary.",
    "hardened_blocks": "Blocks in the log, which is the LSN of its end.",
    "audit_entries": "Entries of the audit list.",
    "audit_limit": "How many entries the audit list holds; then the database answers nothing.",
    "audit_full_in_seconds": "In how many seconds the audit list is full, at the rate since the scrape before.",
    "archive_up": "1 where the archive answers in time.",
    "archived_blocks": "The archived LSN.",
    "backlog_entries": "Entries of the audit list that it takes to archive what is not archived.",
}
_COUNTERS = {
    "audit_uncounted": "Entries that came too fast to be read: no request among them is counted.",
    "fenced_requests": "Requests of a primary that were denied since its epoch is over, or another's.",
    "log_went_back": "How often the service was found to be restarted.",
}
_PULL_BLOCKS = 16
_IDLE_SECONDS = 10.0
"""For how many seconds a request may come."""
_MOST_THREADS = 32
"""How many requests are answered at once."""


class WatchedDatabase:
    """A database that is looked at again and again, and need not be there when that begins."""

    def __init__(self, make: Callable[[], Watch]) -> None:
        self._make = make
        self._watch: Watch | None = None
        self.went_back = 0

    def look(self) -> WatchedLook:
        """A look. A connection that was lost since the one before, as by a restart or a move, is no reason to find it down."""
        for _ in range(2):
            try:
                return self._look()
            except LogWentBack:
                self.went_back += 1
            except ConnectionLost as error:
                if isinstance(error, TimedOut):
                    raise
        return self._look()

    def _look(self) -> WatchedLook:
        if self._watch is None:
            self._watch = self._make()
        return self._watch.look()


class DatabaseCollector(Collector):
    """Looks at all databases and archives at each scrape, side by side, for at most `within` seconds.

    One that does not answer by then has `pagelog_up` or `pagelog_archive_up` 0, and nothing else.
    """

    def __init__(
        self,
        watches: Mapping[int, Callable[[], Watch]],
        archived: Mapping[int, Callable[[], int]],
        within: float = 4.0,
    ) -> None:
        self.within = within
        self._databases = {db: WatchedDatabase(make) for db, make in watches.items()}
        self._looks = {db: Task(database.look) for db, database in self._databases.items()}
        self._archived = {db: Task(look) for db, look in archived.items()}
        self._turn = threading.Lock()

    def describe(self) -> Iterable[Metric]:
        """Nothing is looked at when it is registered."""
        return []

    def collect(self) -> Iterable[Metric]:
        """The metrics of all databases."""
        with self._turn:
            tasks: list[tuple[tuple[str, int], Task[Any]]] = [
                (("look", db), task) for db, task in self._looks.items()
            ]
            tasks += [(("archived", db), task) for db, task in self._archived.items()]
            found = look_at_all(tasks, self.within)
            return list(self._families(found))

    def _families(self, found: Mapping[tuple[str, int], object]) -> Iterable[Metric]:
        gauges = {
            name: GaugeMetricFamily(f"pagelog_{name}", text, labels=["db"])
            for name, text in _GAUGES.items()
        }
        counters = {
            name: CounterMetricFamily(f"pagelog_{name}", text, labels=["db"])
            for name, text in _COUNTERS.items()
        }
        applied = GaugeMetricFamily(
            "pagelog_applied_lsn", "The applied LSN of a partition.", labels=["db", "partition"]
        )
        requests = CounterMetricFamily(
            "pagelog_requests",
            "Requests by role, operation and verdict: allowed, or the rule that denied.",
            labels=["db", "role", "operation", "verdict"],
        )
        for db, database in self._databases.items():
            look, archived = found["look", db], found.get(("archived", db))
            gauges["up"].add_metric([str(db)], isinstance(look, WatchedLook))
            counters["log_went_back"].add_metric([str(db)], database.went_back)
            if db in self._archived:
                gauges["archive_up"].add_metric([str(db)], isinstance(archived, int))
            if isinstance(archived, int):
                gauges["archived_blocks"].add_metric([str(db)], archived)
            if isinstance(look, WatchedLook):
                _add_look(str(db), look, archived, gauges, counters)
                for partition, lsn in look.applied.items():
                    applied.add_metric([str(db), str(partition)], lsn)
                for (role, operation, verdict), count in sorted(look.requests.items()):
                    requests.add_metric([str(db), role, operation, verdict], count)
        yield from (*gauges.values(), *counters.values(), applied, requests)


def _add_look(
    db: str,
    look: WatchedLook,
    archived: object,
    gauges: Mapping[str, GaugeMetricFamily],
    counters: Mapping[str, CounterMetricFamily],
) -> None:
    for name, value in (
        ("epoch", look.state.epoch),
        ("primary", look.state.primary),
        ("hardened_blocks", look.state.hard),
        ("audit_entries", look.entries),
        ("audit_limit", look.limit),
    ):
        gauges[name].add_metric([db], value)
    if look.full_in is not None:
        gauges["audit_full_in_seconds"].add_metric([db], look.full_in)
    if isinstance(archived, int):
        gauges["backlog_entries"].add_metric(
            [db], -(-max(0, look.state.hard - archived) // _PULL_BLOCKS)
        )
    counters["audit_uncounted"].add_metric([db], look.uncounted)
    counters["fenced_requests"].add_metric([db], look.fenced)


# Serving.


class _Server(ThreadingMixIn, WSGIServer):
    """A thread for each connection, which ends with the program. Where there are many, another one is ended at once."""

    daemon_threads = True
    context: ssl.SSLContext | None = None
    """By which it speaks TLS."""

    def __init__(self, *arguments: Any) -> None:
        self._free = threading.BoundedSemaphore(_MOST_THREADS)
        super().__init__(*arguments)

    def process_request(self, request: Any, address: Any) -> None:
        if not self._free.acquire(blocking=False):
            return self.shutdown_request(request)
        try:
            super().process_request(request, address)
        except BaseException:
            self._free.release()
            raise

    def process_request_thread(self, request: Any, address: Any) -> None:
        try:
            secured = self._secured(request)
            if secured is not None:
                super().process_request_thread(secured, address)
        finally:
            self._free.release()

    def _secured(self, request: Any) -> Any:
        """The connection by TLS, if that is spoken; None where it does not come to it in time."""
        if self.context is None:
            return request
        try:
            request.settimeout(_IDLE_SECONDS)
            return self.context.wrap_socket(request, server_side=True)
        except OSError:
            self.shutdown_request(request)
            return None


class _Within(io.RawIOBase):
    """What comes over a connection within a time, however slowly it comes. Then it raises `TimeoutError`."""

    def __init__(self, line: socket.socket, seconds: float) -> None:
        self._line, self._ends = line, time.monotonic() + seconds

    def readable(self) -> bool:
        return True

    def readinto(self, buffer: Any) -> int:
        left = self._ends - time.monotonic()
        if left <= 0:
            raise TimeoutError("the request does not come to its end")
        self._line.settimeout(left)
        return self._line.recv_into(buffer)


class _Handler(WSGIRequestHandler):
    """One that says nothing on standard error, and ends a connection whose request does not come to its end. At an address of this
    machine alone it answers who names this machine: a page of another site could else read all, by a name of its own that leads here.
    """

    def setup(self) -> None:
        super().setup()
        self.rfile = io.BufferedReader(_Within(self.connection, _IDLE_SECONDS))

    def handle(self) -> None:
        with suppress(TimeoutError, ConnectionError):
            super().handle()

    def parse_request(self) -> bool:
        if not super().parse_request():
            return False
        listens = str(self.connection.getsockname()[0])
        named = _host_of(self.headers.get("Host", ""))
        if ipaddress.ip_address(listens).is_loopback and named not in (
            "localhost",
            "127.0.0.1",
            "[::1]",
            listens,
        ):
            self.send_error(
                HTTPStatus.MISDIRECTED_REQUEST,
                "these metrics are for this machine alone: ask for them as localhost",
            )
            return False
        return True

    def log_message(self, format: str, *arguments: object) -> None:
        """Nothing."""


def _host_of(header: str) -> str:
    """The host of a header, without its port: `[::1]:9500` is `[::1]`."""
    name, colon, port = header.rpartition(":")
    return (name if colon and port.isdecimal() else header).lower()


def serve(collector: Collector, host: str, port: int, context: ssl.SSLContext | None = None) -> int:
    """Serves the metrics in threads of their own, by TLS where there is a context. Returns the port. Raises `OSError`."""
    registry = CollectorRegistry()
    registry.register(collector)
    family, address = socket.getaddrinfo(host, port, type=socket.SOCK_STREAM)[0][::4]
    kind: type[_Server] = type(
        "_ServerOfFamily", (_Server,), {"address_family": family, "context": context}
    )
    made: WSGIServer = make_server(address[0], port, make_wsgi_app(registry), kind, _Handler)
    threading.Thread(target=made.serve_forever, daemon=True).start()
    return int(made.server_port)
