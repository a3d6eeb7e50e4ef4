"""Peers: OCPI platforms that have registered, the tokens of both directions, and when they were heard of last.

The token by which a peer calls the service is kept as its SHA-256, as in the file of tokens; the token by which the service calls the
peer is encrypted. Both are in the records, so that all services of a database know a peer that has registered at one of them.
"""

from __future__ import annotations

import asyncio
import contextlib
import logging
import time
from collections.abc import Callable
from dataclasses import asdict, dataclass, field, fields
from typing import Any

from clear_service.lines import folded
from clear_service.records import Changes, Key, Records, RecordsDenied, RecordsError, Value
from clear_service.senders import Sender

log = logging.getLogger("clear_service")

PEER = "peer"  # the kind of a record
LOOKS = 2.0  # seconds between two looks at records that other services may change


@dataclass(frozen=True)
class Endpoint:
    """An endpoint of a peer."""

    identifier: str
    role: str
    url: str


@dataclass(frozen=True)
class Peer:
    """A platform that has registered. `after` is the last line of the house when it did."""

    platform: str
    digest: str
    secret: str
    url: str
    endpoints: tuple[Endpoint, ...]
    roles: tuple[dict[str, Any], ...]
    registered: str
    after: int

    def endpoint(self, identifier: str, role: str) -> str | None:
        """The URL of an endpoint, or None."""
        for each in self.endpoints:
            if (each.identifier, each.role) == (identifier, role):
                return each.url.rstrip("/")
        return None


def peer_of(value: Value) -> Peer:
    """The peer of a record."""
    given = {each.name: value[each.name] for each in fields(Peer)}
    given["endpoints"] = tuple(Endpoint(**each) for each in given["endpoints"])
    given["roles"] = tuple(given["roles"])
    return Peer(**given)


@dataclass
class Contact:
    """What is known of a peer since the service started: when it was heard of last, and why it cannot be called."""

    heard: float | None = None
    failure: str | None = None
    failing_since: float | None = None


@dataclass
class Peers:
    """All peers, as the records have them."""

    records: Records
    unavailable: str | None = "the service is starting"
    all: dict[str, Peer] = field(default_factory=dict)
    found: dict[Key, Value] = field(default_factory=dict)
    contacts: dict[str, Contact] = field(default_factory=dict)
    listeners: list[Callable[[], None]] = field(default_factory=list)
    heard_listeners: list[Callable[[str], None]] = field(default_factory=list)
    _was_read: bool = False
    _has_tried: asyncio.Event = field(default_factory=asyncio.Event)
    _task: asyncio.Task[None] | None = None

    async def start(self) -> None:
        """Reads the records, without a long wait for a database; if that fails, or other services may change them, again and again."""
        self._task = asyncio.create_task(self._look())
        with contextlib.suppress(TimeoutError):
            async with asyncio.timeout(LOOKS):
                await self._has_tried.wait()

    async def stop(self) -> None:
        """Ends the task, and the use of the records."""
        if self._task is not None:
            self._task.cancel()
            with contextlib.suppress(asyncio.CancelledError):
                await self._task
        await self.records.close()

    async def _look(self) -> None:
        while True:
            if self.unavailable is not None or self.records.are_shared:
                await self._load()
            self._has_tried.set()
            await asyncio.sleep(LOOKS)

    async def _load(self) -> None:
        try:
            found = await self.records.load()
        except RecordsError as error:
            if self.unavailable != str(error):
                log.warning("peers cannot be read: %s", error)
            self.unavailable = str(error)
            self._was_read = self._was_read or isinstance(error, RecordsDenied)
            return
        self.unavailable, self._was_read = None, True
        if found != self.found or not self.found:
            self._take(found)

    def _take(self, found: dict[Key, Value]) -> None:
        self.found = found
        self.all = {key: peer_of(value) for (kind, key), value in found.items() if kind == PEER}
        for listener in self.listeners:
            listener()

    def find(self, platform: str) -> Peer | None:
        """The peer of this platform, or None."""
        return self.all.get(folded(platform))

    def contact(self, platform: str) -> Contact:
        """What is known of contacts with the platform."""
        return self.contacts.setdefault(folded(platform), Contact())

    def senders(self) -> list[Sender]:
        """The senders of the peers' tokens."""
        return [Sender(peer.platform, peer.digest) for peer in self.all.values()]

    @property
    def are_unknown(self) -> bool:
        """Whether the records were never read, so that nobody knows yet whose a token is."""
        return not self._was_read

    def heard_of(self, sender: Sender) -> None:
        """The sender has made a request; if it is a peer, this was a contact."""
        peer = self.find(sender.platform)
        if peer is not None and peer.digest == sender.digest:
            self.contact(sender.platform).heard = time.time()
            for listener in self.heard_listeners:
                listener(sender.platform)

    def reached(self, platform: str) -> None:
        """The peer has answered a request."""
        contact = self.contact(platform)
        contact.heard, contact.failure, contact.failing_since = time.time(), None, None

    def failed(self, platform: str, reason: str) -> None:
        """The peer did not answer a request."""
        contact = self.contact(platform)
        contact.failure = reason
        contact.failing_since = contact.failing_since or time.time()

    async def change(self, changes: Changes) -> None:
        """Changes records, first where they are durable. Raises RecordsError."""
        await self.records.change(changes)
        found = {**self.found, **{key: value for key, value in changes.items() if value is not None}}
        for key, value in changes.items():
            if value is None:
                found.pop(key, None)
        self._take(found)

    async def put(self, peer: Peer, others: Changes | None = None) -> None:
        """Keeps a peer, with other changes of records. Raises RecordsError."""
        await self.change({(PEER, folded(peer.platform)): asdict(peer), **(others or {})})
