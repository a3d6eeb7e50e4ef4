"""The house as the endpoints see it: lines of a sender, and lines by which a hub reads what another party may read."""

from __future__ import annotations

import asyncio
import hashlib
import json
import logging
import time
from collections.abc import Callable, Sequence
from dataclasses import dataclass, field
from functools import cached_property
from itertools import islice
from pathlib import Path

from clear_service.answers import Answer
from clear_service.configuration import Configuration, differences
from clear_service.engine import Engine
from clear_service.json_text import text_of
from clear_service.lines import RELEASED_BY, folded, request_line
from clear_service.pace import Pace
from clear_service.registers import Hold, HubRelease, Registers
from clear_service.rows import Reads
from clear_service.senders import Sender
from clear_service.settings import Settings
from clear_service.shares import Shares
from clear_service.waiting import Unavailable


log = logging.getLogger("clear_service")

DIFFERENCES = 5  # members of a configuration that are named


@dataclass
class House:
    """The engine with the registers of its answers."""

    engine: Engine
    registers: Registers
    settings: Settings
    shares: Shares
    pace: Pace = field(default_factory=Pace)
    reads: Reads = field(default_factory=Reads)
    began: float = field(default_factory=time.time)
    config_differs: list[str] = field(default_factory=list)
    more_warnings: list[Callable[[], list[str]]] = field(default_factory=list)
    _changing: dict[str, asyncio.Lock] = field(default_factory=dict)
    _statements: dict[tuple[int, str], tuple[int, Answer]] = field(default_factory=dict)
    _exposures: dict[tuple[str, str], tuple[tuple[int, int], Answer]] = field(default_factory=dict)

    @property
    def configuration(self) -> Configuration:
        """The configuration in force. Raises Unavailable until the registers have all lines of the store."""
        if not self.registers.are_complete:
            raise Unavailable("the house is starting")
        return self.registers.in_force

    def changing(self, party: str) -> asyncio.Lock:
        """One change at a time of an object that was read before, among those of a folded party."""
        return self._changing.setdefault(party, asyncio.Lock())

    async def ask(
        self, platform: str, do: str, members: Sequence[tuple[str, bytes]], request_id: str | None = None
    ) -> Answer:
        """The answer to one line. Raises Unavailable and LineError."""
        line = request_line(platform, do, members, request_id)
        answers = await self.answers([line])
        return Answer(answers[0])

    async def answers(self, lines: Sequence[bytes]) -> list[bytes]:
        """The answers to these lines. Raises Unavailable."""
        return await self.engine.waiting.answers(lines, self.settings.answer_seconds)

    def reader(self, sender: Sender, party: str) -> str:
        """The platform by which the sender reads what belongs to the party: itself, or for a hub one that acts for it.

        The house refuses the line if this platform may not read it.
        """
        configuration = self.configuration
        acts = folded(party) in configuration.parties_of(sender.platform)
        if not acts and configuration.is_hub(sender.platform):
            return configuration.platform_for(party) or sender.platform
        return sender.platform

    def may_read(self, sender: Sender, party: str) -> bool:
        """Whether the house lets the sender read what belongs to the party, by its own platform or for a hub by another one."""
        return folded(party) in self.configuration.parties_of(self.reader(sender, party))

    async def statement(self, sender: Sender, party: str, period: int) -> Answer:
        """The statement of a closed period. A closed period never changes, so its rows are asked for once.

        They are asked for again after a change of the configuration, which may change how parties are written.
        """
        changes = self.registers.changes
        platform = self.reader(sender, party)
        may = self.may_read(sender, party)
        kept = self._statements.get((period, folded(party)))
        if may and kept is not None and kept[0] == changes:
            return kept[1]
        answer = await self.ask(
            platform, "statement", [("party", text_of(party)), ("period", text_of(period))]
        )
        if not answer.is_refusal:
            self._statements[(period, folded(party))] = (changes, answer)
        return answer

    async def exposure(self, sender: Sender, provider: str, currency: str) -> Answer:
        """The provider's exposure in the currency. It is asked for again only after an event or a change."""
        platform = self.reader(sender, provider)
        may = self.may_read(sender, provider)
        state, key = (self.registers.events, self.registers.changes), (folded(provider), currency)
        kept = self._exposures.get(key)
        if may and kept is not None and kept[0] == state:
            return kept[1]
        members = [("provider", text_of(provider)), ("currency", text_of(currency))]
        answer = await self.ask(platform, "exposure", members)
        if not answer.is_refusal and answer.at == state[0]:
            self._exposures[key] = (state, answer)
        return answer

    def warnings(self) -> list[str]:
        """What somebody should look at: counts near their limits, tokens near their quotas, peers that cannot be called."""
        near = [
            f"{party} has {count} of {limit} {name}"
            for name, party, count, limit in self.registers.near_limits()
        ]
        more = [warning for warnings in self.more_warnings for warning in warnings()]
        return [*near, *self.shares.quotas.warnings(), *more]

    @cached_property
    def _given(self) -> object:
        return json.loads(Path(self.settings.config).read_text(encoding="utf-8"))

    def differing(self, configuration: Configuration) -> list[str]:
        """The first members in which the file CONFIG is not this configuration."""
        try:
            return list(islice(differences(self._given, configuration.members), DIFFERENCES))
        except (OSError, ValueError) as error:
            return [f"CONFIG cannot be read: {error}"]

    def compare(self, configuration: Configuration) -> None:
        """Warns if the file CONFIG is not the configuration that is in force from now on."""
        self.config_differs = self.differing(configuration)
        if self.config_differs:
            config = self.settings.config
            log.warning(
                "%s is not the configuration in force, first in %s; a hub applies it by the line that `clear configure %s HUB` prints",
                config,
                ", ".join(self.config_differs),
                config,
            )

    def released(self, sender: Sender, request_id: str | None) -> Sequence[HubRelease]:
        """What was released for the hub under this request id."""
        if request_id is None:
            return ()
        return self.registers.hub_releases.get((folded(sender.platform), request_id), ())

    def release_of(self, hold: Hold) -> HubRelease:
        """The release of a hold by a platform that acts for its operator."""
        platform = self.configuration.platform_for(hold.operator) or ""
        return HubRelease(platform, hold.operator, hold.provider, hold.reference)

    async def release(
        self,
        sender: Sender,
        request_id: str | None,
        releases: Sequence[HubRelease],
        one_of_many: bool = False,
    ) -> list[Answer]:
        """Releases holds for a hub. Each line says for which one, and has a request id that is made of the hub's.

        Of several lines of a request each has an id of its own.
        """
        by: dict[str, str] = {"platform": sender.platform}
        if request_id is not None:
            by["request_id"] = request_id
        lines = []
        for each in releases:
            line_id = None
            if request_id is not None:
                line_id = hub_id(folded(sender.platform), request_id, *[each.reference][: int(one_of_many)])
            members = [(name, text_of(getattr(each, name))) for name in HubRelease.NAMES]
            members.append((RELEASED_BY, text_of(by)))
            lines.append(request_line(each.platform, "release", members, line_id))
        return [Answer(line) for line in await self.answers(lines)]


def hub_id(*parts: str) -> str:
    """The request id of a line that the service sends by another platform for a hub: that platform's own ids are others."""
    return "hub-" + hashlib.sha256("\n".join(parts).encode()).hexdigest()[:40]
