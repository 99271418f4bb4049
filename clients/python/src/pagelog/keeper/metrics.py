"""A keeper's metrics for Prometheus."""

from __future__ import annotations

from typing import Any, Callable, Iterable, Mapping

from prometheus_client.core import CounterMetricFamily, GaugeMetricFamily, Metric
from prometheus_client.registry import Collector

_GAUGES = {
    "pagelog_keeper_generation": "The generation of a named database.",
    "pagelog_keeper_archived": "Its archived position.",
    "pagelog_keeper_behind": "Blocks that its service has hardened and that are not archived.",
    "pagelog_keeper_waits": "Connections that wait for something to be durable.",
    "pagelog_keeper_quick": "1 while its durable commits take the fast path.",
    "pagelog_keeper_standby": "1 while a standby is here that may take over, 0 while one should be. None where none should be.",
    "pagelog_keeper_list_share": "The share of its service's audit list that is full. At 0.5 the next generation is made, by default.",
    "pagelog_keeper_stored": "All blocks up to this position are in the store. None where there is none.",
    "pagelog_keeper_store_behind": "Seconds for which the oldest block that is not in the store, or base, has been archived.",
    "pagelog_keeper_store_broken": "1 while blocks cannot go to the store since something is damaged, or the mover says nothing.",
    "pagelog_keeper_store_foreign": "Objects of the database in the store that PostgreSQL does not know: it went back.",
    "pagelog_keeper_pages": "Its page servers whose heartbeat moves.",
    "pagelog_keeper_pages_gone": "Its page servers whose heartbeat stalled. `forget` takes one out that is gone for good.",
    "pagelog_keeper_pages_behind": "Blocks that the one of them lacks which is most behind. None where none is up.",
    "pagelog_keeper_pages_aside": "Stores that they have quarantined, as PostgreSQL went back.",
    "pagelog_keeper_memory_share": "The share of `memory` that its service holds. None without that limit.",
}


class KeeperCollector(Collector):
    """The databases of a keeper, as `states` returns them, and what it knows of itself: how many `looks` PostgreSQL has confirmed,
    how many `synchronous_standbys` that has, how many services were `set_aside`, what comes without TLS, and when its certificate ends.
    """

    def __init__(
        self, states: Callable[[], list[dict[str, Any]]], itself: Callable[[], Mapping[str, float]]
    ) -> None:
        self._states, self._itself = states, itself

    def collect(self) -> Iterable[Metric]:
        """The metrics of all databases."""
        gauges = {
            name: GaugeMetricFamily(name, text, labels=["name"]) for name, text in _GAUGES.items()
        }
        state = GaugeMetricFamily(
            "pagelog_keeper_state",
            "1 for the state that the database has here.",
            labels=["name", "state"],
        )
        unproved = CounterMetricFamily(
            "pagelog_keeper_unproved",
            "Lines of clients that have proved no principal, which `unproved` allows "
            "or refuses.",
            labels=["name"],
        )
        for found in self._states():
            state.add_metric([found["name"], found["state"]], 1)
            for name, gauge in gauges.items():
                if (value := found[name.removeprefix("pagelog_keeper_")]) is not None:
                    gauge.add_metric([found["name"]], value)
            unproved.add_metric([found["name"]], found["unproved"])
        itself = self._itself()
        standbys = GaugeMetricFamily(
            "pagelog_keeper_synchronous_standbys",
            "Synchronous standbys of PostgreSQL, by the last poll. With 0 durable means one disk, or PostgreSQL did not answer.",
            value=itself["synchronous_standbys"],
        )
        aside = GaugeMetricFamily(
            "pagelog_keeper_set_aside",
            "Services here that were quarantined, since PostgreSQL lacks what they have. Only a person ends one.",
            value=itself["set_aside"],
        )
        looks = CounterMetricFamily(
            "pagelog_keeper_looks",
            "Polls that PostgreSQL has confirmed: four in a ttl.",
            value=itself["looks"],
        )
        yield from (state, unproved, standbys, aside, looks, *_of_tls(itself), *gauges.values())


def _of_tls(itself: Mapping[str, float]) -> Iterable[Metric]:
    yield GaugeMetricFamily(
        "pagelog_keeper_plain_lines",
        "Connections to its lines without TLS that are open.",
        value=itself.get("plain_lines", 0),
    )
    yield CounterMetricFamily(
        "pagelog_keeper_plain_connections",
        "Connections to its lines that came without TLS.",
        value=itself.get("plain_connections", 0),
    )
    if "certificate_ends" in itself:
        yield GaugeMetricFamily(
            "pagelog_keeper_certificate_ends",
            "When its certificate ends, in seconds since 1970.",
            value=itself["certificate_ends"],
        )
