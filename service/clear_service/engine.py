"""What answers lines: the engine's interface."""

from __future__ import annotations

from dataclasses import dataclass, field
from typing import Any, Protocol

from clear_service.waiting import Waiting


@dataclass
class EngineState:
    """What /health reports of an engine. `replayed` of `kept` lines are answered again; the house is not ready before that."""

    engine: str
    starts: int = 0
    torn: bool = False
    last_end: str | None = None
    replayed: int = 0
    kept: int = 0
    version: str = ""
    details: dict[str, Any] = field(default_factory=dict)


class Engine(Protocol):
    """Answers lines in one order, each durable before its answer is returned."""

    state: EngineState
    waiting: Waiting

    @property
    def is_ready(self) -> bool:
        """Whether lines are taken, and answered in time."""

    @property
    def store_bytes(self) -> int:
        """The bytes of the answered lines in the store."""

    async def start(self) -> None:
        """Starts the engine's tasks and returns at once."""

    async def stop(self) -> None:
        """Waits until the lines that wait are answered, for a few seconds, and ends the engine."""

    async def line(self, number: int) -> bytes:
        """The answered line of this number, from 1."""

    async def head(self, count: int) -> bytes | None:
        """The head after the store's record and so many answered lines; None if the engine's store has no heads. Raises Unavailable."""
