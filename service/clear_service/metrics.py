"""The figures of /metrics, in the form of Prometheus."""

from __future__ import annotations

import os
from collections.abc import Iterator
from pathlib import Path

from prometheus_client import CollectorRegistry, Counter, Histogram, generate_latest
from prometheus_client.core import CounterMetricFamily, GaugeMetricFamily, Metric

from clear_service.engine import Engine
from clear_service.exposures import exposures
from clear_service.log_writer import MESSAGES, REQUESTS
from clear_service.outbox import Outbox
from clear_service.registers import Registers

BUCKETS = (0.001, 0.0025, 0.005, 0.01, 0.025, 0.05, 0.1, 0.25, 0.5, 1, 2.5, 5, 10, 60)
PAGE = os.sysconf("SC_PAGE_SIZE")
COUNTED = {
    "cdrs": "CDRs and Credit CDRs of an operator",
    "tariffs": "Tariff versions of an operator",
    "entries": "Entries of a provider's account",
}


def memory_of(pid: int | str) -> int:
    """The bytes of memory of a process; 0 if it has ended."""
    try:
        return int(Path(f"/proc/{pid}/statm").read_text().split()[1]) * PAGE
    except OSError:
        return 0


class Metrics:
    """Counts requests, and reads what the engine and the registers have when it is asked."""

    def __init__(self, engine: Engine, registers: Registers, outbox: Outbox) -> None:
        self._engine, self._registers, self._outbox = engine, registers, outbox
        self._registry = CollectorRegistry()
        self._requests = Counter(
            "clear_requests",
            "HTTP requests by area, status and platform",
            ["area", "status", "platform"],
            registry=self._registry,
        )
        self._seconds = Histogram(
            "clear_request_seconds",
            "Time to the response",
            ["area"],
            buckets=BUCKETS,
            registry=self._registry,
        )
        self._registry.register(self)  # type: ignore[arg-type]

    def request(self, method: str, path: str, status: int, seconds: float, platform: str) -> None:
        """Counts a request. The area is the path's first member, so that no id becomes a label; a platform is that of a token."""
        area = path.split("/", 2)[1] if path.count("/") > 1 else "other"
        area = area if area in ("ocpi", "clearing") else "other"
        self._requests.labels(f"{method} {area}", str(status), platform).inc()
        self._seconds.labels(area).observe(seconds)

    def collect(self) -> Iterator[Metric]:
        """The figures of the house, for the registry."""
        answers = CounterMetricFamily("clear_answers", "Answers and refusals by name", labels=["name"])
        for name, count in sorted(self._registers.answers.items()):
            answers.add_metric([name], count)
        yield answers
        for name, (help_text, value) in self._figures().items():
            yield GaugeMetricFamily(name, help_text, value=value)
        yield self._version()
        yield self._memory()
        yield self._commands()
        yield from self._exposures()
        yield from self._counts()
        yield from self._deliveries()

    def _figures(self) -> dict[str, tuple[str, int]]:
        state, waiting = self._engine.state, self._engine.waiting
        return {
            "clear_lines": ("Answered lines", self._registers.lines),
            "clear_events": ("Events of the house", self._registers.events),
            "clear_cdrs": ("Accepted CDRs and Credit CDRs", len(self._registers.cdrs)),
            "clear_open_holds": ("Open holds", len(self._registers.holds)),
            "clear_queue_lines": ("Lines that wait for their answers", waiting.lines),
            "clear_queue_bytes": ("Bytes of these lines", waiting.bytes),
            "clear_engine_ready": ("Whether the house answers", int(self._engine.is_ready)),
            "clear_engine_starts": ("Starts of the house", state.starts),
            "clear_replayed_lines": ("Kept lines that are answered again since the start", state.replayed),
            "clear_kept_lines": ("Kept lines at the start", state.kept),
            "clear_store_bytes": ("Bytes of the store", self._engine.store_bytes),
            "clear_log_dropped": ("Lines of the log that nobody read", REQUESTS.dropped + MESSAGES.dropped),
        }

    def _version(self) -> Metric:
        family = GaugeMetricFamily("clear_version", "The version of the program", labels=["version"])
        family.add_metric([self._engine.state.version], 1)
        return family

    def _memory(self) -> Metric:
        family = GaugeMetricFamily("clear_memory_bytes", "Memory of a process", labels=["process"])
        family.add_metric(["service"], memory_of("self"))
        for name in ("pid", "worker"):
            if name in self._engine.state.details:
                family.add_metric(["program"], memory_of(self._engine.state.details[name]))
        return family

    def _commands(self) -> Metric:
        family = CounterMetricFamily(
            "clear_command_answers", "Answers and refusals by command and name", labels=["command", "name"]
        )
        for labels, count in sorted(list(self._registers.commands.items())):
            family.add_metric(list(labels), count)
        return family

    def _exposures(self) -> Iterator[Metric]:
        """Prometheus has binary fractions; the endpoints have exact amounts."""
        families = {
            name: GaugeMetricFamily(
                f"clear_exposure_{name}",
                f"{text} of a provider, in units of the currency",
                labels=["provider", "currency"],
            )
            for name, text in (("holds", "Open holds"), ("debts", "Debts"), ("limit", "Credit limit"))
        }
        for each in exposures(self._registers):
            for name, amount in (("holds", each.holds), ("debts", each.debts), ("limit", each.limit)):
                families[name].add_metric([each.provider, each.currency], amount / 10_000)
        yield from families.values()

    def _counts(self) -> Iterator[Metric]:
        """How many entries each party has, and how many it may have."""
        configuration = self._registers.configuration
        if configuration is None:
            return
        counts = list(self._registers.counts.items())
        for name, text in COUNTED.items():
            family = GaugeMetricFamily(f"clear_party_{name}", text, labels=["party"])
            for (counted, party), count in counts:
                if counted == name:
                    family.add_metric([configuration.spelled(party) or party], count)
            yield family
            limit = configuration.count_limit(name)
            yield GaugeMetricFamily(f"clear_party_{name}_limit", f"{text}, at most", value=limit)

    def _deliveries(self) -> Iterator[Metric]:
        """What waits for each peer, what it has taken since the start, what it refused, and whether it can be called."""
        peers = self._outbox.peers
        families = {
            name: GaugeMetricFamily(f"clear_peer_{name}", text, labels=["platform"])
            for name, text in (
                ("waiting", "Objects that wait for a peer"),
                ("sent", "Objects that a peer has taken since it is known to the running service"),
                ("refused", "Objects that a peer has refused"),
                ("connected", "Whether a peer answered the last call"),
            )
        }
        for key, queue in list(self._outbox.queues.items()):
            values = {
                "waiting": len(queue.waiting),
                "sent": queue.sent,
                "refused": len(self._outbox.refused(key)),
                "connected": int(peers.contact(key).failure is None),
            }
            for name, value in values.items():
                families[name].add_metric([queue.peer.platform], value)
        yield from families.values()

    def text(self) -> bytes:
        """The figures as text."""
        return bytes(generate_latest(self._registry))
