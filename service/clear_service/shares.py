"""What may be in flight at once, in all and for each token, and what a token may have kept in a day."""

from __future__ import annotations

import logging
import time
from collections import Counter
from contextvars import ContextVar
from dataclasses import dataclass

from clear_service.senders import Sender
from clear_service.settings import Settings

log = logging.getLogger("clear_service")

SPARED = 32  # a token that uses no more than this part of the bound of all is served though others use it up
WARNED = 0.8  # of a day's quota, from which there is a warning
DAY = 86_400  # seconds


class Bounded:
    """An amount that is in use, bounded in all and for each token."""

    def __init__(self, most: int, share: int) -> None:
        self._most, self._share, self._spared = most, share, most // SPARED
        self._used: Counter[str] = Counter()
        self.total = 0

    def take(self, token: str, amount: int) -> bool:
        """Takes the amount for the token, if it is left. What is spared for each token is left though the others took all."""
        used = self._used[token] + amount
        if used > self._share or (self.total + amount > self._most and used > self._spared):
            return False
        self._used[token] = used
        self.total += amount
        return True

    def give(self, token: str, amount: int) -> None:
        """Gives an amount back that was taken for the token."""
        self.total -= amount
        self._used[token] -= amount
        if not self._used[token]:
            del self._used[token]


@dataclass
class Kept:
    """What a token has sent to be kept on a day, which is a number of days since 1970."""

    platform: str
    day: int = 0
    lines: int = 0
    bytes: int = 0
    is_warned: bool = False


class Quotas:
    """Lines and bytes that each token may have kept in a day of UTC, as far as this service has counted them."""

    def __init__(self, lines: int, size: int) -> None:
        self._lines, self._bytes = lines, size
        self._kept: dict[str, Kept] = {}

    def take(self, sender: Sender, lines: int, size: int) -> bool:
        """Counts lines of the sender, if its quota has them left. Logs a warning before the quota is used up."""
        kept = self._of(sender)
        if kept.lines + lines > self._lines or kept.bytes + size > self._bytes:
            return False
        kept.lines += lines
        kept.bytes += size
        if self._is_near(kept) and not kept.is_warned:
            kept.is_warned = True
            log.warning("%s", self._warning(sender.digest, kept))
        return True

    def _of(self, sender: Sender) -> Kept:
        today = int(time.time()) // DAY
        kept = self._kept.get(sender.digest)
        if kept is None or kept.day != today:
            kept = self._kept[sender.digest] = Kept(sender.platform, today)
        return kept

    def _is_near(self, kept: Kept) -> bool:
        return kept.lines > WARNED * self._lines or kept.bytes > WARNED * self._bytes

    def _warning(self, digest: str, kept: Kept) -> str:
        return (
            f"token {digest[:12]} of {kept.platform} has {kept.lines} of {self._lines} lines "
            f"and {kept.bytes} of {self._bytes} bytes of its day's quota"
        )

    def warnings(self) -> list[str]:
        """A warning for each token that nears its quota today."""
        today = int(time.time()) // DAY
        near = [(digest, kept) for digest, kept in self._kept.items() if kept.day == today]
        return [self._warning(digest, kept) for digest, kept in near if self._is_near(kept)]

    @staticmethod
    def seconds_left() -> int:
        """How long the day of UTC still is."""
        return DAY - int(time.time()) % DAY


class Shares:
    """All bounds of a service."""

    def __init__(self, settings: Settings) -> None:
        self.bytes = Bounded(settings.queue_bytes, settings.token_bytes)
        self.lines = Bounded(settings.queue_lines, settings.token_lines)
        self.requests = Bounded(1 << 62, settings.token_requests)
        self.quotas = Quotas(settings.day_lines, settings.day_bytes)


NOBODY = Sender("", "")


@dataclass
class Held:
    """What one request has taken: bytes of its body and of its answers, and its place among the requests of its token.

    All of it is given back when the request has ended, and so have its lines that wait for answers.
    """

    shares: Shares
    sender: Sender = NOBODY
    size: int = 0
    users: int = 0

    def begin(self) -> bool:
        """Counts the request among those of its token that are served at once, if there is room."""
        if not self.shares.requests.take(self.sender.digest, 1):
            return False
        self.users = 1
        return True

    def share(self) -> None:
        """Lines of the request wait for answers, until another `end`."""
        self.users += 1

    def take(self, size: int) -> bool:
        """Takes bytes for the request, if there are some left for its token."""
        if not self.shares.bytes.take(self.sender.digest, size):
            return False
        self.size += size
        return True

    def give(self, size: int) -> None:
        """Gives some of the bytes back."""
        self.size -= size
        self.shares.bytes.give(self.sender.digest, size)

    def end(self) -> None:
        """The request, or its lines, have ended. With the last of them all is given back."""
        self.users -= 1
        if not self.users:
            self.give(self.size)
            self.shares.requests.give(self.sender.digest, 1)


HELD: ContextVar[Held] = ContextVar("held")


def held_now(shares: Shares) -> Held:
    """What the request that is being served has taken; of a request of no token, nothing yet."""
    held = HELD.get(None)
    if held is None:
        held = Held(shares)
        held.begin()
        HELD.set(held)
    return held
