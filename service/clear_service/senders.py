"""Senders: which platform a token belongs to, and how many requests a second it may make.

The file of tokens has a line for each token: its SHA-256, a space, the time of its making, a space, and the platform.
A token has 256 random bits, so its hash needs no salt and no slow function.
"""

from __future__ import annotations

import base64
import binascii
import fcntl
import hashlib
import hmac
import logging
import os
import re
import secrets
import time
from collections.abc import Callable, Iterable, Iterator
from contextlib import contextmanager
from dataclasses import dataclass
from pathlib import Path
from time import monotonic

log = logging.getLogger("clear_service")

SECONDS_BETWEEN_LOOKS = 1.0
DIGEST = re.compile(r"[0-9a-f]{64}")
# In place of the platform of a token that only reads figures; no platform has such a name.
METRICS = "→ /metrics"
# Before the platform of a token that only registers it as a peer: token A of OCPI's registration.
REGISTER = "→ register "


class TokenFileError(Exception):
    """The file of tokens cannot be read."""


@dataclass(frozen=True)
class Sender:
    """The holder of a token."""

    platform: str
    digest: str

    @property
    def registers(self) -> str | None:
        """The platform that the token registers as a peer, if it is for that alone."""
        return self.platform[len(REGISTER) :] if self.platform.startswith(REGISTER) else None


@dataclass(frozen=True)
class TokenRow:
    """A line of the file of tokens."""

    digest: str
    made: str
    platform: str

    @property
    def name(self) -> str:
        """What names the token on the command line: the first digits of its hash."""
        return self.digest[:12]


def digest_of(token: bytes) -> str:
    """The hash that the file keeps of a token."""
    return hashlib.sha256(token).hexdigest()


class TokenFile:
    """The file of tokens, for the command line."""

    def __init__(self, path: str) -> None:
        self._path = Path(path)

    def rows(self) -> list[TokenRow]:
        """The rows of the file; none if there is no file. Raises TokenFileError."""
        try:
            lines = self._path.read_text(encoding="utf-8").splitlines()
        except FileNotFoundError:
            return []
        except (OSError, UnicodeDecodeError) as error:
            raise TokenFileError(f"cannot read the file of tokens {self._path}: {error}") from None
        parts = [line.split(" ", 2) for line in lines if line]
        return [TokenRow(*part) for part in parts if len(part) == 3 and DIGEST.fullmatch(part[0])]

    def add(self, platform: str) -> str:
        """Makes a token for the platform, keeps its hash, and returns the token. Raises TokenFileError."""
        token = secrets.token_urlsafe(32)
        made = time.strftime("%Y-%m-%dT%H:%M:%SZ", time.gmtime())
        with self._locked():
            self._write([*self.rows(), TokenRow(digest_of(token.encode()), made, platform)])
        return token

    def remove(self, name: str) -> int:
        """Removes the tokens of that name, or of that platform and those that register it; returns how many. Raises TokenFileError."""
        with self._locked():
            rows = self.rows()
            left = [
                row
                for row in rows
                if name not in (row.name, row.platform, row.platform.removeprefix(REGISTER))
            ]
            self._write(left)
        return len(rows) - len(left)

    @contextmanager
    def _locked(self) -> Iterator[None]:
        """One program at a time changes the file."""
        with open(self._beside(".lock"), "a", opener=_private) as file:
            fcntl.flock(file, fcntl.LOCK_EX)
            yield

    def _beside(self, ending: str) -> Path:
        return self._path.with_name(self._path.name + ending)

    def platforms(self) -> list[str] | None:
        """The platforms of the configuration in force, as the service has written them; None if none has. Raises TokenFileError."""
        try:
            return self._beside(".platforms").read_text(encoding="utf-8").splitlines()
        except FileNotFoundError:
            return None
        except (OSError, UnicodeDecodeError) as error:
            raise TokenFileError(f"cannot read the platforms: {error}") from None

    def note_platforms(self, platforms: Iterable[str]) -> None:
        """Writes the platforms of the configuration in force beside the file. Raises OSError."""
        _replace(self._beside(".platforms"), "".join(f"{name}\n" for name in platforms))

    def _write(self, rows: list[TokenRow]) -> None:
        _replace(self._path, "".join(f"{row.digest} {row.made} {row.platform}\n" for row in rows))


def _private(path: str, flags: int) -> int:
    return os.open(path, flags, 0o600)


def _replace(path: Path, text: str) -> None:
    """Writes a file so that a reader sees it whole, as it was or as it is."""
    beside = path.with_name(path.name + ".new")
    with open(beside, "w", encoding="utf-8", opener=_private) as file:
        file.write(text)
        file.flush()
        os.fsync(file.fileno())
    os.replace(beside, path)


class Senders:
    """The senders by their tokens. A change of the file is seen within a second; one that cannot be read is passed over with a warning."""

    def __init__(self, path: str, of_peers: Callable[[], list[Sender]] = list) -> None:
        self._file = TokenFile(path)
        self._path = path
        self._of_peers = of_peers
        self._senders: list[Sender] = []
        self._changed: tuple[int, int] | None = None
        self._looked = float("-inf")

    def of(self, header: str | None) -> Sender | None:
        """The sender by the header Authorization, `Token TOKEN`; None if there is none.

        OCPI 2.2.1 has the token in Base64; a token as it was printed is taken too. Each token of the file is compared,
        each in constant time.
        """
        kind, _, token = (header or "").partition(" ")
        if kind.lower() != "token":
            return None
        self._look()
        found = None
        for digest in _digests(token.strip()):
            for sender in (*self._senders, *self._of_peers()):
                if hmac.compare_digest(sender.digest, digest):
                    found = sender
        return found

    def _look(self) -> None:
        if monotonic() - self._looked < SECONDS_BETWEEN_LOOKS:
            return
        self._looked = monotonic()
        try:
            status = os.stat(self._path)
            changed = (status.st_mtime_ns, status.st_ino)
        except FileNotFoundError:
            changed = (0, 0)
        if changed != self._changed:
            self._changed = changed
            try:
                self.load()
            except TokenFileError as error:
                log.warning("%s; the tokens stay as they were", error)

    def forget(self, sender: Sender) -> None:
        """Removes the token of the sender from the file. Raises TokenFileError and OSError."""
        self._file.remove(sender.digest[:12])
        self.load()

    def load(self) -> None:
        """Reads the file. Raises TokenFileError."""
        self._senders = [Sender(row.platform, row.digest) for row in self._file.rows()]


def _digests(token: str) -> list[str]:
    digests = [digest_of(token.encode("latin-1", "replace"))]
    try:
        digests.append(digest_of(base64.b64decode(token, validate=True)))
    except (binascii.Error, ValueError):
        pass
    return digests


class Rates:
    """How many requests each sender has left. A sender may save up the requests of one second."""

    def __init__(self, a_second: int) -> None:
        self._a_second = a_second
        self._left: dict[str, tuple[float, float]] = {}

    def take(self, sender: Sender) -> bool:
        """Takes one request of the sender, if there is one left."""
        now = monotonic()
        left, since = self._left.get(sender.digest, (float(self._a_second), now))
        left = min(float(self._a_second), left + (now - since) * self._a_second)
        if left < 1:
            self._left[sender.digest] = (left, now)
            return False
        self._left[sender.digest] = (left - 1, now)
        return True
