"""The lines that wait for their answers: a bounded queue in which the tokens take turns."""

from __future__ import annotations

import asyncio
import time
from collections import OrderedDict, deque
from collections.abc import Sequence
from itertools import islice
from typing import NamedTuple

from clear_service.settings import LONGEST_LINE
from clear_service.shares import Held, Shares, held_now

TURN_LINES = 32  # that one token sends before the next one does
TURN_BYTES = 1 << 16
RECENT = 1.0  # seconds
SILENT = 2.0  # seconds without an answer to waiting lines, after which the house does not answer


class Unavailable(Exception):
    """The lines may have been done or not; the sender asks again with the same request ids."""

    status = 503

    def __init__(self, reason: str, retry_after: int = 1) -> None:
        super().__init__(reason)
        self.reason = reason
        self.retry_after = retry_after


class QueueFull(Unavailable):
    """Too many lines wait for their answers. The lines were not sent."""


class OverQuota(Unavailable):
    """The token has had as much kept as it may in a day. The lines were not sent."""

    status = 429


class Window(NamedTuple):
    """How much is sent at most and has no answer yet.

    The smaller it is, the sooner a line of another token has its turn, and the more often the program syncs. So it is smaller if
    several tokens have sent lines in the last second.
    """

    lines: int
    bytes: int
    shared_lines: int
    shared_bytes: int


class Batch:
    """Lines of one request, which are sent in their order, and their answers so far."""

    __slots__ = ("lines", "size", "sent", "answers", "is_over", "held", "future")

    def __init__(self, lines: Sequence[bytes], held: Held, future: asyncio.Future[list[bytes]]) -> None:
        self.lines = lines
        self.size = sum(map(len, lines)) + len(lines)
        self.sent = 0
        self.answers: list[bytes] = []
        self.is_over = False
        self.held = held
        self.future = future

    def take(self, most_lines: int, most_bytes: int) -> tuple[int, int]:
        """The next lines, at least one: the place after the last one, and their bytes."""
        end, size = self.sent, 0
        while end < len(self.lines) and end - self.sent < most_lines:
            size += len(self.lines[end]) + 1
            end += 1
            if size >= most_bytes:
                break
        return end, size

    def add(self, answers: Sequence[bytes]) -> None:
        """Takes the next answers. If nobody waits for them, or the token has no bytes left, they are dropped and counted."""
        if not self.is_over:
            self.is_over = self.future.done() or not self.held.take(sum(map(len, answers)))
        self.answers += [b""] * len(answers) if self.is_over else answers

    def end(self) -> None:
        """Hands the answers over, if somebody still waits for them."""
        if self.future.done():
            return
        if self.is_over:
            reason = "the answers are too long together; ask again for fewer lines, with the same request ids"
            self.future.set_exception(Unavailable(reason))
        else:
            self.future.set_result(self.answers)


class Sent(NamedTuple):
    """Lines of a batch that were sent together: from one place to before another."""

    batch: Batch
    end: int
    size: int


class Waiting:
    """A bounded queue: lines that are not sent yet, by token, then those that are sent and have no answers yet."""

    def __init__(self, shares: Shares, window: Window) -> None:
        self._shares, self._window = shares, window
        self._queued: OrderedDict[str, deque[Batch]] = OrderedDict()
        self._sent: deque[Sent] = deque()
        self._sent_lines = self._sent_bytes = 0
        self._more = asyncio.Event()
        self._last: dict[str, float] = {}  # when each token sent lines last
        self.lines = 0
        self.bytes = 0
        self.closed: str | None = "the house is starting"
        self._since = 0.0  # when the last answer came, or the first line after nothing waited

    async def answers(self, lines: Sequence[bytes], seconds: float) -> list[bytes]:
        """Sends the lines, one after another, and returns their answers. Lines of other tokens may come between them.

        Raises QueueFull and OverQuota if they are not taken, and Unavailable if the engine ends or does not answer in time.
        """
        batch = self._put(lines, held_now(self._shares))
        try:
            async with asyncio.timeout(seconds):
                return await batch.future
        except TimeoutError:
            raise Unavailable(f"no answer within {seconds} seconds") from None

    def _put(self, lines: Sequence[bytes], held: Held) -> Batch:
        if self.closed is not None:
            raise Unavailable(self.closed)
        batch = Batch(lines, held, asyncio.get_running_loop().create_future())
        if any(b"\n" in line or len(line) > LONGEST_LINE for line in lines):
            raise ValueError("no line")
        if not lines:
            batch.future.set_result([])
            return batch
        self._admit(batch)
        if not self.lines:
            self._since = time.monotonic()
        held.share()
        self.lines += len(lines)
        self.bytes += batch.size
        self._queue(batch)
        self._more.set()
        return batch

    def _admit(self, batch: Batch) -> None:
        """Takes the lines from the share of the token and from its quota. Raises QueueFull and OverQuota."""
        sender, count = batch.held.sender, len(batch.lines)
        if not self._shares.lines.take(sender.digest, count):
            raise QueueFull("too many requests wait for their answers")
        quotas = self._shares.quotas
        if not quotas.take(sender, count, batch.size):
            self._shares.lines.give(sender.digest, count)
            raise OverQuota("the token's quota of today is used up", quotas.seconds_left())

    def _queue(self, batch: Batch) -> None:
        """A token that had nothing to send has the next turn, before those that send much."""
        token = batch.held.sender.digest
        self._last.pop(token, None)
        self._last[token] = time.monotonic()
        if token in self._queued:
            self._queued[token].append(batch)
        else:
            self._queued[token] = deque((batch,))
            if all(each.batch.held.sender.digest != token for each in self._sent):
                self._queued.move_to_end(token, last=False)

    async def take(self) -> list[bytes]:
        """Waits until there are queued lines and room in the window; returns the next lines, which then are sent."""
        while not self._queued or self._is_full():
            self._more.clear()
            await self._more.wait()
        lines: list[bytes] = []
        while self._queued and not self._is_full():
            lines += self._turn()
        return lines

    def _is_full(self) -> bool:
        window = self._window
        if self._is_shared():
            return self._sent_lines >= window.shared_lines or self._sent_bytes >= window.shared_bytes
        return self._sent_lines >= window.lines or self._sent_bytes >= window.bytes

    def _is_shared(self) -> bool:
        """Whether another token than the last one has lines queued, or has sent some in the last second."""
        if len(self._queued) > 1:
            return True
        before = next(islice(reversed(self._last.values()), 1, None), None)
        return before is not None and time.monotonic() - before < RECENT

    def _turn(self) -> list[bytes]:
        """The lines of one turn of the next token, which then is the last one."""
        token, batches = next(iter(self._queued.items()))
        lines: list[bytes] = []
        size = 0
        while batches and len(lines) < TURN_LINES and size < TURN_BYTES:
            some, taken = self._send(batches, TURN_LINES - len(lines), TURN_BYTES - size)
            lines += some
            size += taken
        if batches:
            self._queued.move_to_end(token)
        else:
            del self._queued[token]
        return lines

    def _send(self, batches: deque[Batch], most_lines: int, most_bytes: int) -> tuple[Sequence[bytes], int]:
        """The next lines of the first batch, which now are sent, and their bytes."""
        batch = batches[0]
        end, size = batch.take(most_lines, most_bytes)
        lines = batch.lines[batch.sent : end]
        self._sent.append(Sent(batch, end, size))
        self._sent_lines += len(lines)
        self._sent_bytes += size
        batch.sent = end
        if end == len(batch.lines):
            batches.popleft()
        return lines, size

    def next_lines(self, count: int) -> list[bytes]:
        """The first sent lines that have no answer, so many of them. Raises IndexError if there are fewer."""
        lines: list[bytes] = []
        places: dict[int, int] = {}
        for batch, end, _ in self._sent:
            place = places.get(id(batch), len(batch.answers))
            lines += batch.lines[place : min(end, place + count - len(lines))]
            places[id(batch)] = end
            if len(lines) == count:
                return lines
        raise IndexError("an answer without a line")

    def stuck_line(self, seconds: float) -> bytes | None:
        """The first sent line that has no answer, if no answer came for so long while lines waited."""
        if not self._sent or time.monotonic() - self._since <= seconds:
            return None
        return self.next_lines(1)[0]

    @property
    def is_answered(self) -> bool:
        """Whether lines are taken, and answers come while lines wait."""
        return self.closed is None and (not self._sent or time.monotonic() - self._since <= SILENT)

    def settle(self, answers: Sequence[bytes]) -> None:
        """The answers to the first sent lines that have none."""
        if not answers:
            return
        place = 0
        while place < len(answers):
            batch, end, size = self._sent[0]
            some = answers[place : place + end - len(batch.answers)]
            batch.add(some)
            place += len(some)
            self._sent_lines -= len(some)
            if len(batch.answers) == end:
                self._sent.popleft()
                self._sent_bytes -= size
                self._end(batch)
        self._since = time.monotonic()
        self._more.set()

    def _end(self, batch: Batch) -> None:
        if len(batch.answers) == len(batch.lines):
            self._forget(batch)
            batch.end()

    def _forget(self, batch: Batch) -> None:
        batch.held.end()
        self.lines -= len(batch.lines)
        self.bytes -= batch.size
        self._shares.lines.give(batch.held.sender.digest, len(batch.lines))

    def open(self) -> None:
        """Takes batches from now on."""
        self.closed = None

    def close(self, reason: str) -> None:
        """Ends all that wait as Unavailable, and takes no more until `open`."""
        self.closed = reason
        for batch in self._all():
            self._forget(batch)
            if not batch.future.done():
                batch.future.set_exception(Unavailable(reason))
        self._queued.clear()
        self._sent.clear()
        self._sent_lines = self._sent_bytes = 0

    def _all(self) -> list[Batch]:
        """Each batch that waits, once."""
        sent = [each.batch for each in self._sent]
        queued = [batch for batches in self._queued.values() for batch in batches]
        return list({id(batch): batch for batch in [*sent, *queued]}.values())

    async def emptied(self, seconds: float) -> None:
        """Waits until nothing waits, at most so long."""
        until = asyncio.get_running_loop().time() + seconds
        while self.lines and asyncio.get_running_loop().time() < until:
            await asyncio.sleep(0.02)
