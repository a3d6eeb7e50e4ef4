"""Calls to the OCPI endpoints of peers: over HTTPS, without redirects, in a bounded time, with a bounded response.

A peer names its URLs itself. So they have to begin with `https://`, or with `http://` and a host that the setting `peer_hosts` lists.
"""

from __future__ import annotations

import asyncio
import base64
import uuid
from collections.abc import Mapping
from typing import Any
from urllib.parse import urlsplit

import httpx

from clear_service.json_text import NotJson, object_of
from clear_service.settings import Settings

MOST_BYTES = 1 << 20  # of a response
LONGEST_URL = 255  # OCPI 2.2.1, type URL
LONGEST_OF_OBJECT = 2048  # of the URL of an object, below an endpoint


class CallError(Exception):
    """The peer did not answer, or with something that is no answer by OCPI: the call may be tried again."""


class Refused(CallError):
    """The peer understood the request and refuses it, with a status code from 2000 to 2999."""


def is_url(settings: Settings, text: object, longest: int = LONGEST_URL) -> bool:
    """Whether the service calls this URL."""
    if not isinstance(text, str) or len(text) > longest or not text.isascii() or not text.isprintable():
        return False
    try:
        parts = urlsplit(text)
        host = parts.netloc
    except ValueError:
        return False
    if not host or "@" in host or " " in text:
        return False
    return parts.scheme == "https" or (parts.scheme == "http" and host in settings.listed_peer_hosts)


class PeerCalls:
    """A client for all peers."""

    def __init__(self, settings: Settings) -> None:
        self._settings = settings
        self._client: httpx.AsyncClient | None = None

    async def call(
        self,
        method: str,
        url: str,
        token: str,
        headers: Mapping[str, str] | None = None,
        content: bytes | None = None,
    ) -> Any:
        """The `data` of the response. Without ids in the headers the request has new ones. Raises CallError and Refused."""
        if not is_url(self._settings, url, LONGEST_OF_OBJECT):
            raise CallError(f"{url[:80]!a} is no URL that may be called")
        ids = {name: str(uuid.uuid4()) for name in ("X-Request-ID", "X-Correlation-ID")}
        authorization = "Token " + base64.b64encode(token.encode()).decode()
        given = {
            "Authorization": authorization,
            "Accept-Encoding": "identity",
            **ids,
            **(headers or {}),
        }
        if content is not None:
            given["Content-Type"] = "application/json"
        try:
            async with asyncio.timeout(self._settings.peer_seconds):
                status, body = await self._send(method, url, given, content)
        except TimeoutError:
            raise CallError(f"no answer within {self._settings.peer_seconds} seconds") from None
        except (httpx.HTTPError, httpx.InvalidURL, ValueError, OSError) as error:
            raise CallError(f"{type(error).__name__}: {error}"[:200]) from None
        return data_of(status, body)

    async def _send(
        self, method: str, url: str, headers: Mapping[str, str], content: bytes | None
    ) -> tuple[int, bytes]:
        if self._client is None:
            self._client = httpx.AsyncClient(timeout=None, follow_redirects=False, trust_env=False)
        body = b""
        async with self._client.stream(method, url, headers=headers, content=content) as response:
            async for piece in response.aiter_raw():
                body += piece
                if len(body) > MOST_BYTES:
                    raise ValueError(f"the response is longer than {MOST_BYTES} bytes")
            return response.status_code, body

    async def close(self) -> None:
        """Closes all connections."""
        if self._client is not None:
            await self._client.aclose()
            self._client = None


def data_of(status: int, body: bytes) -> Any:
    """The `data` of an envelope with success. Raises CallError and Refused."""
    try:
        envelope = object_of(body)
        code = int(envelope["status_code"])
    except (NotJson, KeyError, TypeError, ValueError):
        raise CallError(f"status {status} without an answer by OCPI") from None
    if 200 <= status < 300 and 1000 <= code < 2000:
        return envelope.get("data")
    said = envelope.get("status_message")
    message = f"status {status}, status code {code}" + (f": {said[:200]}" if isinstance(said, str) else "")
    if 2000 <= code < 3000 and status not in (401, 403, 408, 429) and status < 500:
        raise Refused(message)
    raise CallError(message)
