"""What is delivered to peers: each CDR to the provider that it bills, tokens to operators, tariffs to providers.

The store has every object already, so the outbox is a place in it for each peer: the line of the last object that was delivered. The
place is a record, kept at most a second after a delivery. Objects go in their order, one at a time for each peer, and again with the same
ids until the peer answers. An object that the peer refuses is kept as a record, and the next one goes.

Of several services of a database one delivers.
"""

from __future__ import annotations

import asyncio
import contextlib
import logging
import time
import uuid
from collections import deque
from collections.abc import Sequence
from dataclasses import dataclass, field
from urllib.parse import quote

from clear_service.engine import Engine
from clear_service.json_text import member_text, object_of
from clear_service.lines import folded
from clear_service.moments import moment_of, now
from clear_service.objects import Kind
from clear_service.peer_calls import CallError, PeerCalls, Refused
from clear_service.peers import Peer, Peers
from clear_service.records import Changes, Key, RecordsError, Value
from clear_service.registers import Registers, party
from clear_service.secret_texts import SecretError, SecretTexts
from clear_service.settings import Settings
from clear_service.waiting import Unavailable

log = logging.getLogger("clear_service")

DELIVERED = "delivered"  # the kind of a record: the place of a peer
REFUSED = "refused"  # the kind of a record: an object that a peer refused
FIRST_PAUSE = 1.0  # seconds after the first failure; after each further one twice as long
LOOKS = 2.0  # seconds between two looks at whether this service is the one that delivers
LONGEST_END = 2.0  # seconds that the places may take to be kept at the end
KEPT = 1.0  # seconds after which a place is kept
MOST = (
    10_000  # objects that are listed for a peer; further ones are found in the store when these are delivered
)
MODULES = {Kind.TOKEN: "tokens", Kind.TARIFF: "tariffs", Kind.CDR: "cdrs"}
MEMBERS = {Kind.TOKEN: "token", Kind.TARIFF: "tariff", Kind.CDR: "cdr"}


@dataclass(frozen=True)
class Delivery:
    """An object on its way: how it is sent, and what names it."""

    method: str
    path: str
    sender: str
    receiver: str
    id: str
    body: bytes


@dataclass
class Queue:
    """What waits for a peer: the lines and kinds of the objects after the last one that was delivered."""

    peer: Peer
    after: int
    place: int = 0
    waiting: deque[tuple[int, Kind]] = field(default_factory=deque)
    attempts: int = 0
    sent: int = 0
    more: asyncio.Event = field(default_factory=asyncio.Event)
    heard: asyncio.Event = field(default_factory=asyncio.Event)
    task: asyncio.Task[None] | None = None
    kept: int = 0
    kept_at: float = 0.0


class Outbox:
    """The queues of all peers."""

    def __init__(self, settings: Settings, engine: Engine, registers: Registers, peers: Peers) -> None:
        self._settings, self._engine, self._registers = settings, engine, registers
        self.peers = peers
        self.calls = PeerCalls(settings)
        self.secrets = SecretTexts(settings.tokens)
        self.queues: dict[str, Queue] = {}
        self._locks: dict[str, asyncio.Lock] = {}
        self._more = asyncio.Event()
        self._task: asyncio.Task[None] | None = None
        self._delivers = False
        self._looked = 0.0
        peers.listeners.append(self._more.set)
        peers.heard_listeners.append(self._heard)
        registers.object_listeners.append(self._more.set)

    def registering(self, platform: str) -> asyncio.Lock:
        """One registration of a platform at a time."""
        return self._locks.setdefault(folded(platform), asyncio.Lock())

    async def start(self) -> None:
        """Starts the task that hands objects to the queues."""
        self._task = asyncio.create_task(self._run())

    async def stop(self) -> None:
        """Ends all tasks, and keeps the places."""
        tasks = [self._task, *(queue.task for queue in self.queues.values())]
        for task in tasks:
            if task is not None:
                task.cancel()
                with contextlib.suppress(asyncio.CancelledError):
                    await task
        with contextlib.suppress(RecordsError, TimeoutError):
            async with asyncio.timeout(LONGEST_END):
                for queue in self.queues.values():
                    await self._keep(queue, at_once=True)
        await self.calls.close()

    async def _run(self) -> None:
        while True:
            with contextlib.suppress(TimeoutError):
                async with asyncio.timeout(LOOKS):
                    await self._more.wait()
            self._more.clear()
            try:
                await self._hand_over()
            except Exception:
                log.exception("nothing can be handed over to be delivered")
                await asyncio.sleep(LOOKS)

    async def _hand_over(self) -> None:
        """Hands what came since the last time over to the queues."""
        if not self._registers.are_complete or self.peers.unavailable is not None:
            return
        await self._look()
        self._adjust()
        for queue in list(self.queues.values()):
            while self._fill(queue):
                await asyncio.sleep(0)

    async def _look(self) -> None:
        """Looks from time to time whether this service is the one that delivers. One that begins to takes the places from the records."""
        if time.monotonic() - self._looked < LOOKS:
            return
        self._looked = time.monotonic()
        try:
            delivers = bool(self.peers.all) and await self.peers.records.may_deliver()
        except RecordsError as error:
            log.warning("it is not known who delivers to peers: %s", error)
            delivers = False
        if delivers != self._delivers:
            self._delivers = delivers
            for key in list(self.queues):
                await self._end_queue(key)

    def _adjust(self) -> None:
        """A queue for each peer, and for nobody else."""
        after: dict[str, int] = {}
        for key, queue in list(self.queues.items()):
            if self.peers.all.get(key) != queue.peer:
                if queue.task is not None:
                    queue.task.cancel()
                del self.queues[key]
                after[key] = queue.after
        for key, queue in self.queues.items():
            if queue.task is None:
                self._follow(key, queue)
        for key, peer in self.peers.all.items():
            if key not in self.queues:
                record = self.peers.found.get((DELIVERED, key), {})
                line = max(peer.after, int(record.get("line", 0)), after.get(key, 0))
                queue = Queue(peer, line, self._registers.objects.place_after(line), kept=line)
                self.queues[key] = queue
                if self._delivers:
                    queue.task = asyncio.create_task(self._deliver_all(queue))

    def _follow(self, key: str, queue: Queue) -> None:
        """Follows what another service delivers, by the record of the place."""
        record = self.peers.found.get((DELIVERED, key), {})
        queue.after = max(queue.after, int(record.get("line", 0)))
        while queue.waiting and queue.waiting[0][0] <= queue.after:
            queue.waiting.popleft()
        contact = self.peers.contact(key)
        contact.failure, contact.failing_since = record.get("failure"), record.get("since")

    async def _end_queue(self, key: str) -> None:
        queue = self.queues.pop(key)
        if queue.task is not None:
            queue.task.cancel()
            with contextlib.suppress(asyncio.CancelledError):
                await queue.task

    def _fill(self, queue: Queue) -> bool:
        """Hands over some of the objects that came since the last look and concern the peer; whether there are more."""
        parties = self._registers.in_force.parties_of(queue.peer.platform)
        is_operator = any(each in self._registers.in_force.operators for each in parties)
        is_provider = any(each in self._registers.in_force.providers for each in parties)
        wanted = {kind for kind in Kind if queue.peer.endpoint(MODULES[kind], "RECEIVER") is not None}
        for number, kind, owner in self._registers.objects.some(queue.place):
            queue.place += 1
            if kind not in wanted:
                continue
            concerns = {
                Kind.CDR: owner in parties,
                Kind.TOKEN: is_operator and owner not in parties,
                Kind.TARIFF: is_provider and owner not in parties,
            }
            if concerns[kind]:
                queue.waiting.append((number, kind))
        if queue.waiting:
            queue.more.set()
        return queue.place < len(self._registers.objects) and len(queue.waiting) < MOST

    async def _deliver_all(self, queue: Queue) -> None:
        """Delivers what waits, one object after the other."""
        while True:
            while not queue.waiting:
                await self._keep_place(queue, at_once=True)
                queue.more.clear()
                await queue.more.wait()
            number, kind = queue.waiting[0]
            if await self._is_delivered(queue, number, kind):
                queue.waiting.popleft()
                queue.after, queue.attempts = number, 0
                if len(queue.waiting) < MOST // 2:
                    self._more.set()
                await self._keep_place(queue)
            else:
                await self._pause(queue)

    async def _pause(self, queue: Queue) -> None:
        """Waits before the next attempt: longer after each one, but no longer than until the peer makes a request itself."""
        queue.attempts += 1
        await asyncio.sleep(FIRST_PAUSE)
        queue.heard.clear()
        more = min(FIRST_PAUSE * 2 ** min(queue.attempts - 1, 30), self._settings.peer_pause) - FIRST_PAUSE
        with contextlib.suppress(TimeoutError):
            async with asyncio.timeout(max(more, 0)):
                await queue.heard.wait()

    def _heard(self, platform: str) -> None:
        queue = self.queues.get(folded(platform))
        if queue is not None:
            queue.heard.set()

    async def _is_delivered(self, queue: Queue, number: int, kind: Kind) -> bool:
        """Sends an object; whether the peer has taken or refused it."""
        peer = queue.peer
        try:
            delivery = await self._delivery(peer, number, kind)
            token = await asyncio.to_thread(self.secrets.decrypted, peer.secret)
            try:
                await self._send(peer, delivery, number, token)
                queue.sent += 1
            except Refused as refused:
                await self.peers.change(self._refused(peer, delivery, number, kind, str(refused)))
            self.peers.reached(peer.platform)
            return True
        except (CallError, SecretError, RecordsError, Unavailable) as error:
            reason = error.reason if isinstance(error, Unavailable) else str(error)
            if not queue.attempts:
                log.warning("nothing can be delivered to %s: %s", peer.platform, reason)
        except Exception as error:
            log.exception("line %s cannot be delivered to %s", number, peer.platform)
            reason = repr(error)[:200]
        self.peers.failed(peer.platform, reason)
        if not queue.attempts:
            queue.kept = -1  # so that the record gets the failure
            await self._keep_place(queue, at_once=True)
        return False

    async def _send(self, peer: Peer, delivery: Delivery, number: int, token: str) -> None:
        """Sends the object. The ids are those of the peer's registration and the line, so another attempt has the same ones."""
        space = uuid.uuid5(uuid.NAMESPACE_URL, f"{peer.registered} {self._settings.party} {peer.platform}")
        headers = {
            "X-Request-ID": str(uuid.uuid5(space, f"request {number}")),
            "X-Correlation-ID": str(uuid.uuid5(space, f"correlation {number}")),
        }
        for name, of in (("from", delivery.sender), ("to", delivery.receiver)):
            country, _, party_id = of.partition("/")
            headers[f"OCPI-{name}-country-code"] = country
            headers[f"OCPI-{name}-party-id"] = party_id
        await self.calls.call(delivery.method, delivery.path, token, headers, delivery.body)

    async def _delivery(self, peer: Peer, number: int, kind: Kind) -> Delivery:
        """The object of a line as the peer gets it. Raises Unavailable and CallError."""
        url = peer.endpoint(MODULES[kind], "RECEIVER")
        if url is None:
            raise CallError(f"the peer has no endpoint {MODULES[kind]}")
        body = member_text(await self._engine.line(number), MEMBERS[kind])
        members = object_of(body)
        parties = self._registers.in_force.parties
        owner = parties[party(members)].spelled
        if kind is Kind.CDR:
            return Delivery(
                "POST", url, owner, parties[party(members["cdr_token"])].spelled, members["id"], body
            )
        name = members["uid" if kind is Kind.TOKEN else "id"]
        path = "/".join([url, *owner.split("/"), quote(name, safe="")])
        path += f"?type={quote(members['type'], safe='')}" if kind is Kind.TOKEN else ""
        return Delivery("PUT", path, owner, self._receiver(peer, kind), name, body)

    def _receiver(self, peer: Peer, kind: Kind) -> str:
        """The first operator of the peer for a token, and the first provider for a tariff."""
        configuration = self._registers.in_force
        parties = configuration.parties_of(peer.platform)
        choices = configuration.operators if kind is Kind.TOKEN else configuration.providers
        return next((spelled for key, spelled in choices.items() if key in parties), "")

    def _refused(self, peer: Peer, delivery: Delivery, number: int, kind: Kind, reason: str) -> Changes:
        """The record of an object that the peer refused."""
        value: Value = {
            "platform": peer.platform,
            "line": number,
            "module": MODULES[kind],
            "owner": delivery.sender,
            "id": delivery.id,
            "reason": reason,
            "time": now(),
        }
        return {(REFUSED, f"{folded(peer.platform)} {number}"): value}

    async def _keep_place(self, queue: Queue, at_once: bool = False) -> None:
        with contextlib.suppress(RecordsError):
            await self._keep(queue, at_once)

    async def _keep(self, queue: Queue, at_once: bool) -> None:
        """Keeps the place of a queue, about once a second. Raises RecordsError."""
        if queue.kept == queue.after or queue.task is None:
            return
        if not at_once and time.monotonic() - queue.kept_at < KEPT:
            return
        contact = self.peers.contact(queue.peer.platform)
        value: Value = {"line": queue.after}
        if contact.failure is not None:
            value |= {"failure": contact.failure, "since": contact.failing_since}
        await self.peers.change({(DELIVERED, folded(queue.peer.platform)): value})
        queue.kept, queue.kept_at = queue.after, time.monotonic()

    async def send_refused(self, peer: Peer) -> str | None:
        """Sends again what the peer has refused. Returns why the peer cannot be called, or None. Raises no error."""
        for record in self.refused(peer.platform):
            number = int(record["line"])
            kind = next(kind for kind, module in MODULES.items() if module == record["module"])
            try:
                delivery = await self._delivery(peer, number, kind)
                token = await asyncio.to_thread(self.secrets.decrypted, peer.secret)
                await self._send(peer, delivery, number, token)
                await self.peers.change({(REFUSED, f"{folded(peer.platform)} {number}"): None})
            except Refused:
                continue
            except (CallError, SecretError, RecordsError) as error:
                return str(error)
        return None

    def ended(self, platform: str) -> Changes:
        """The changes by which the records of a peer's deliveries end."""
        ours = f"{folded(platform)} "
        keys: Sequence[Key] = [
            key for key in self.peers.found if key[0] == REFUSED and key[1].startswith(ours)
        ]
        return {key: None for key in [*keys, (DELIVERED, folded(platform))]}

    def refused(self, platform: str) -> list[Value]:
        """What the peer refused, in the order of the lines."""
        ours = f"{folded(platform)} "
        found = [
            value
            for (kind, key), value in self.peers.found.items()
            if kind == REFUSED and key.startswith(ours)
        ]
        return sorted(found, key=lambda value: int(value["line"]))

    def warnings(self) -> list[str]:
        """A warning for each peer for which something waits though it was tried, or that has refused something."""
        found = []
        for key, peer in self.peers.all.items():
            contact, queue = self.peers.contact(key), self.queues.get(key)
            if queue is not None and queue.waiting and contact.failure is not None:
                since = moment_of(contact.failing_since or 0)
                found.append(
                    f"{counted(len(queue.waiting))} for {peer.platform} since {since}: {contact.failure}"
                )
            if count := len(self.refused(key)):
                found.append(f"{peer.platform} has refused {count} object{'s'[: count - 1]}")
        return found


def counted(count: int) -> str:
    """How many objects wait."""
    return "1 object waits" if count == 1 else f"{count} objects wait"
