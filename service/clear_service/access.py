"""What every HTTP request passes first: its sender, its limits, its ids, its line in the log.

This is an ASGI application around another one, which finds a `Call` under `clear` in its scope.
"""

from __future__ import annotations

import asyncio
import re
import time
from collections.abc import Awaitable, Callable, Iterator, MutableMapping
from dataclasses import dataclass, field
from typing import Any

from clear_service.json_text import text_of
from clear_service.log_writer import REQUESTS
from clear_service.metrics import Metrics
from clear_service.moments import now
from clear_service.peers import Peers
from clear_service.senders import METRICS, Rates, Sender, Senders
from clear_service.server import ABORT
from clear_service.settings import Settings
from clear_service.shares import HELD, Held, Shares

Scope = MutableMapping[str, Any]
Message = MutableMapping[str, Any]
Receive = Callable[[], Awaitable[Message]]
Send = Callable[[Message], Awaitable[None]]
Application = Callable[[Scope, Receive, Send], Awaitable[None]]

OPEN = frozenset(("/", "/health", "/ready", "/openapi.json"))
FIGURES = "/metrics"
IDS = (b"x-request-id", b"x-correlation-id")
ID = re.compile(rb"[\x20-\x7e]{1,64}")
BULK = "/clearing/lines"
REGISTERING = (
    "/ocpi/versions",
    "/ocpi/2.2.1",
    "/ocpi/2.2.1/credentials",
)  # what a token that registers a peer may ask for
CLOSE = (b"connection", b"close")
PIECE = 1 << 16  # bytes of a response that are written together


@dataclass
class Call:
    """A request: its headers, body and sender. `sender` is None only for the open paths, whose bodies are not read."""

    headers: dict[bytes, bytes]
    body: bytes = b""
    sender: Sender | None = None
    status: int = 0
    began: float = 0.0
    more_headers: list[tuple[bytes, bytes]] = field(default_factory=list)

    def take_body(self) -> bytes:
        """The body, which the call then has no longer."""
        body, self.body = self.body, b""
        return body

    def header(self, name: str) -> str | None:
        """The header of this name in small letters, or None."""
        value = self.headers.get(name.encode())
        return None if value is None else value.decode("latin-1")

    @property
    def request_id(self) -> str | None:
        """X-Request-ID, which is the request id of the line; None if it is missing or empty."""
        return self.header("x-request-id") or None


class Rejected(Exception):
    """A request that goes no further."""

    def __init__(self, status: int, message: str, *headers: tuple[bytes, bytes]) -> None:
        super().__init__(message)
        self.status, self.message, self.headers = status, message, headers


class ClientGone(Exception):
    """The client closed the connection before its request was read."""


class Access:
    """Checks the sender, its rate, and the size and time of the body; echoes the ids; logs the request."""

    def __init__(
        self,
        app: Application,
        settings: Settings,
        senders: Senders,
        metrics: Metrics,
        shares: Shares,
        peers: Peers,
    ) -> None:
        self._app, self._settings, self._senders, self._metrics = app, settings, senders, metrics
        self._shares, self._peers = shares, peers
        self._rates = Rates(settings.requests_a_second)

    async def __call__(self, scope: Scope, receive: Receive, send: Send) -> None:
        """Serves one request."""
        if scope["type"] != "http":
            await self._app(scope, receive, send)
            return
        call = Call(dict(scope["headers"]), began=time.monotonic())
        scope["clear"] = call
        try:
            await self._serve(scope, receive, send, call)
        finally:
            self._log(scope, call)

    async def _serve(self, scope: Scope, receive: Receive, send: Send, call: Call) -> None:
        echoed = [(name, call.headers[name]) for name in IDS if ID.fullmatch(call.headers.get(name, b""))]

        async def answer(message: Message) -> None:
            if message["type"] == "http.response.start":
                call.status = message["status"]
                message["headers"] = [*message.get("headers", ()), *echoed, *call.more_headers]
            await self._write(message, send, scope)

        held: Held | None = None
        try:
            _check_ids(call)
            if scope["path"] not in OPEN and not scope["path"].startswith("/page/"):
                held = self._held(call, scope["path"])
                HELD.set(held)
                call.body = await self._body(scope["path"], receive, call, held)
            await self._app(scope, receive, answer)
        except Rejected as rejected:
            await _reject(answer, scope["path"], rejected)
        except ClientGone:
            call.status = 499
        finally:
            if held is not None:
                held.end()

    async def _write(self, message: Message, send: Send, scope: Scope) -> None:
        """Writes a message in pieces. A client that does not read a piece in time loses its connection."""
        for piece in _pieces(message):
            try:
                async with asyncio.timeout(self._settings.write_seconds):
                    await send(piece)
            except TimeoutError:
                if ABORT in scope:
                    scope[ABORT]()
                raise ClientGone from None

    def _held(self, call: Call, path: str) -> Held:
        """Finds the sender, and counts the request among those of its token. A token for figures reads them alone."""
        call.sender = self._senders.of(call.header("authorization"))
        if call.sender is None and self._peers.are_unknown:
            raise Rejected(503, "the tokens of peers cannot be read yet", (b"retry-after", b"1"))
        if call.sender is None or (call.sender.registers is not None and path not in REGISTERING):
            raise Rejected(401, "a valid token is required", (b"www-authenticate", b"Token"))
        self._peers.heard_of(call.sender)
        if (path == FIGURES) != (call.sender.platform == METRICS):
            raise Rejected(
                403, "figures need a token that `service/tokens add --metrics` made, which is for them alone"
            )
        if not self._rates.take(call.sender):
            raise Rejected(429, "too many requests of this token", (b"retry-after", b"1"))
        held = Held(self._shares, call.sender)
        if not held.begin():
            raise Rejected(429, "too many requests of this token at once", (b"retry-after", b"1"), CLOSE)
        return held

    async def _body(self, path: str, receive: Receive, call: Call, held: Held) -> bytes:
        length = call.headers.get(b"content-length")
        if length is None and b"transfer-encoding" not in call.headers:
            return b""
        most = self._settings.bulk_bytes if path == BULK else self._settings.body_bytes
        expected = min(most, int(length)) if length is not None and length.isdigit() else most
        try:
            async with asyncio.timeout(self._settings.body_seconds):
                if not held.take(expected):
                    await _drop(receive, self._settings.bulk_bytes)
                    raise Rejected(
                        503, "too many bytes of this token are in flight", (b"retry-after", b"1"), CLOSE
                    )
                body = await _read(receive, most, self._settings.bulk_bytes)
        except TimeoutError:
            raise Rejected(408, "the body did not come in time", CLOSE) from None
        held.give(expected - len(body))
        return body

    def _log(self, scope: Scope, call: Call) -> None:
        seconds = time.monotonic() - call.began
        platform = call.sender.platform if call.sender else ""
        self._metrics.request(scope["method"], scope["path"], call.status, seconds, platform)
        line = {
            "time": now(),
            "method": scope["method"],
            "path": scope["path"],
            "status": call.status,
            "ms": round(seconds * 1000, 1),
            "platform": call.sender.platform if call.sender else None,
            "request_id": call.request_id,
            "correlation_id": call.header("x-correlation-id"),
        }
        REQUESTS.write(text_of(line) + b"\n")


def _check_ids(call: Call) -> None:
    """The ids have to be as a line and a header take them. Raises Rejected."""
    for name in IDS:
        value = call.headers.get(name)
        if value and not ID.fullmatch(value):
            raise Rejected(400, f"{name.decode()} has to have 1 to 64 printable ASCII characters")


def _pieces(message: Message) -> Iterator[Message]:
    """The message, or a long body in several."""
    body = message.get("body", b"")
    for place in range(0, max(len(body) - PIECE, 0), PIECE):
        yield {"type": message["type"], "body": body[place : place + PIECE], "more_body": True}
    rest = max(0, -(-len(body) // PIECE) - 1) * PIECE
    yield {**message, "body": body[rest:]} if rest else message


async def _drop(receive: Receive, most: int) -> None:
    """Reads a body of at most so many bytes, and keeps nothing of it, so that the client can read the answer."""
    size = 0
    while size <= most:
        message = await receive()
        if message["type"] == "http.disconnect":
            raise ClientGone
        size += len(message.get("body", b""))
        if not message.get("more_body", False):
            return


async def _read(receive: Receive, most: int, dropped: int) -> bytes:
    """Reads a body. Of one that is too long up to `dropped` bytes are read, so that the client can read the answer."""
    parts: list[bytes] = []
    size = 0
    while True:
        message = await receive()
        if message["type"] == "http.disconnect":
            raise ClientGone
        part = message.get("body", b"")
        size += len(part)
        if size <= most:
            parts.append(part)
        if size > max(most, dropped):
            raise _too_large(most)
        if not message.get("more_body", False):
            if size > most:
                raise _too_large(most)
            return b"".join(parts)


def _too_large(most: int) -> Rejected:
    return Rejected(413, f"the body is longer than {most} bytes", CLOSE)


async def _reject(send: Send, path: str, rejected: Rejected) -> None:
    body = error_body(path, 2000 if rejected.status < 500 else 3000, rejected.message)
    headers = [(b"content-type", b"application/json"), (b"content-length", str(len(body)).encode())]
    await send(
        {"type": "http.response.start", "status": rejected.status, "headers": [*headers, *rejected.headers]}
    )
    await send({"type": "http.response.body", "body": body})


def error_body(path: str, status_code: int, message: str) -> bytes:
    """An error of the service itself: OCPI's envelope under /ocpi, and `{"error": ..}` elsewhere."""
    if path.startswith("/ocpi"):
        return text_of({"status_code": status_code, "status_message": message, "timestamp": now()}) + b"\n"
    return text_of({"error": message}) + b"\n"
