"""What Prometheus is told of page servers beside what keepers say of them."""

from __future__ import annotations

from contextlib import suppress
from pathlib import Path
from typing import Callable, Iterable, Mapping

from prometheus_client.core import GaugeMetricFamily, Metric
from prometheus_client.registry import Collector

from pagelog.keeper.certificate import CertificateError, Pair, Watched
from pagelog.pages.process import ServedBounds


class PagesCollector(Collector):
    """Those of a machine: where each is, and how many of its stores were damaged, by database, and of TLS the `file` with the certificate that
    they show."""

    def __init__(
        self,
        states: Callable[[], Mapping[str, ServedBounds]],
        damages: Callable[[], Mapping[str, int]],
        file: Path | None,
    ) -> None:
        self._states, self._damages = states, damages
        self._file = None if file is None else Watched(file, Pair)

    def collect(self) -> Iterable[Metric]:
        """The metrics of all of them."""
        position = GaugeMetricFamily(
            "pagelog_pages_position", "Up to which position it answers.", labels=["name"]
        )
        connections = GaugeMetricFamily(
            "pagelog_pages_connections", "Connections of readers.", labels=["name"]
        )
        for name, where in self._states().items():
            position.add_metric([name], where.confirmed)
            connections.add_metric([name], where.connections)
        damaged = GaugeMetricFamily(
            "pagelog_pages_damaged",
            "How many of its stores were found damaged since this process began.",
            labels=["name"],
        )
        for name, count in self._damages().items():
            damaged.add_metric([name], count)
        yield from (position, connections, damaged)
        if self._file is not None:
            yield from _of_certificate(self._file)


def _of_certificate(file: Watched[Pair]) -> Iterable[Metric]:
    """What cannot be used is not shown: what was read before is, and counts."""
    with suppress(CertificateError):
        file.changed()
    if file.now is not None:
        yield GaugeMetricFamily(
            "pagelog_pages_certificate_ends",
            "When their certificate ends, in seconds since 1970.",
            value=file.now.ends,
        )
