"""neighbour.py KIND PORT TOKEN SECONDS [A_SECOND [PATH [HEADER ..]]]: a client of a service, in a process of its own.

KIND is `platform`, which posts to PATH, as it is authorisations, A_SECOND times a second, or one of the hostile ones below. It prints a JSON object with the
milliseconds until each answer, counted from when the request was due, and the number of answers by status.
"""

from __future__ import annotations

import asyncio
import json
import sys
import time
from collections import Counter
from collections.abc import Callable, Coroutine
from typing import Any

A_SECOND = 100
AUTHORIZE = "/ocpi/2.2.1/tokens/U1/authorize"
CONNECTIONS = 64
MEBIBYTE = 1 << 20
FIND = b'{"do":"find","operator":"NL/CPA","id":"S%d"}'
FOREIGN = b'{"do":"release","request_id":"%d-%d","operator":"NL/CPA","provider":"NL/MSA","reference":"x","y":"%b"}\n'


class Client:
    """Requests over connections that are opened again when they end."""

    def __init__(
        self,
        port: int,
        token: str,
        seconds: float,
        a_second: int = A_SECOND,
        path: str = AUTHORIZE,
        more: str = "",
    ) -> None:
        self._port, self._token = port, token
        self.a_second, self.path, self.more = a_second, path, more
        self.until = time.monotonic() + seconds
        self.took: list[float] = []
        self.statuses: Counter[int] = Counter()

    def head(self, method: str, path: str, length: int | None, more: str = "") -> bytes:
        """The head of a request."""
        sized = "" if length is None else f"Content-Length: {length}\r\n"
        return f"{method} {path} HTTP/1.1\r\nHost: x\r\nAuthorization: Token {self._token}\r\n{more}{sized}\r\n".encode()

    async def opened(self) -> tuple[asyncio.StreamReader, asyncio.StreamWriter]:
        """A new connection."""
        return await asyncio.open_connection("127.0.0.1", self._port, limit=1 << 16)

    async def ask(self, reader: asyncio.StreamReader, writer: asyncio.StreamWriter, sent: bytes) -> None:
        """Sends a request, and reads its response to the end. Raises OSError and EOFError."""
        writer.write(sent)
        await writer.drain()
        head = (await reader.readuntil(b"\r\n\r\n")).lower()
        self.statuses[int(head.split(b" ", 2)[1])] += 1
        if b"content-length: " in head:
            await reader.readexactly(int(head.split(b"content-length: ")[1].split(b"\r\n")[0]))
        elif b"chunked" in head:
            while size := int(await reader.readline(), 16):
                await reader.readexactly(size + 2)
            await reader.readline()
        if b"connection: close" in head:
            raise EOFError

    async def repeat(self, sent: Callable[[int], bytes]) -> None:
        """Sends one request after another on a connection."""
        number = 0
        while time.monotonic() < self.until:
            try:
                reader, writer = await self.opened()
                while time.monotonic() < self.until:
                    number += 1
                    await self.ask(reader, writer, sent(number))
            except (OSError, EOFError):
                await asyncio.sleep(0.05)


async def closes(client: Client) -> None:
    """Closes of one period after the other."""
    period = 0

    def sent(_: int) -> bytes:
        nonlocal period
        body = b'{"period":%d}' % period
        period += 1
        return client.head("POST", "/clearing/close", len(body)) + body

    await client.repeat(sent)


async def many(client: Client, count: int, sent: Callable[[int], bytes]) -> None:
    """Several connections that send without an end."""
    await asyncio.gather(*(client.repeat(sent) for _ in range(count)))


async def platform(client: Client) -> None:
    """Requests that are due each hundredth of a second, whether the one before has its answer or not."""
    sent = client.head("POST", client.path, None, client.more)
    due: asyncio.Queue[float] = asyncio.Queue()

    async def work() -> None:
        reader, writer = await client.opened()
        while (at := await due.get()) > 0:
            await client.ask(reader, writer, sent)
            client.took.append((time.monotonic() - at) * 1000)

    workers = [asyncio.create_task(work()) for _ in range(CONNECTIONS)]
    at = time.monotonic()
    while at < client.until:
        await asyncio.sleep(max(0.0, at - time.monotonic()))
        due.put_nowait(at)
        at += 1 / client.a_second
    for _ in workers:
        due.put_nowait(0)
    await asyncio.gather(*workers)


async def bodies(client: Client) -> None:
    """Bodies of 15 MB, many at once."""
    line = b'{"do":"find","operator":"NL/CPA","id":"S","x":"%b"}\n' % (b"y" * 200_000)
    body = line * (15_000_000 // len(line))
    await many(client, 12, lambda _: client.head("POST", "/clearing/lines", len(body)) + body)


async def ids(client: Client) -> None:
    """Lines with request ids that are not this platform's to send."""

    def sent(number: int) -> bytes:
        body = b"".join(FOREIGN % (number, each, b"z" * 2000) for each in range(500))
        return client.head("POST", "/clearing/lines", len(body)) + body

    await many(client, 4, sent)


async def finds(client: Client) -> None:
    """Bulk lines, as many as a body may have."""
    body = b"\n".join(FIND % number for number in range(20_000))
    await many(client, 4, lambda _: client.head("POST", "/clearing/lines", len(body)) + body)


async def lists(client: Client) -> None:
    """Lists without an end."""
    paths = ("/clearing/holds", "/clearing/balances", "/clearing/refusals", "/clearing/periods")
    await many(client, 8, lambda number: client.head("GET", paths[number % 4], None))


async def readers(client: Client) -> None:
    """Clients that send much and read nothing."""
    body = b"\n".join(FIND % number for number in range(10_000))
    writers = []
    while time.monotonic() < client.until:
        try:
            _, writer = await client.opened()
            writer.transport.pause_reading()  # type: ignore[attr-defined]
            writer.write(client.head("POST", "/clearing/lines", len(body)) + body)
            writers.append(writer)
        except OSError:
            pass
        await asyncio.sleep(0.05)


async def lines(client: Client) -> None:
    """Bodies of one line of a mebibyte, and objects that are long to read."""
    line = b'{"do":"find","operator":"NL/CPA","id":"S","x":"%b"}\n' % (b"y" * (MEBIBYTE - 100))
    deep = b'{"token":[' + b"[]," * 300_000 + b"0]}"
    put = client.head("PUT", "/ocpi/2.2.1/tokens/NL/MSA/U9", len(deep)) + deep
    bulk = client.head("POST", "/clearing/lines", len(line)) + line
    await many(client, 8, lambda number: put if number % 2 else bulk)


KINDS: dict[str, Callable[[Client], Coroutine[Any, Any, None]]] = {
    each.__name__: each for each in (platform, closes, bodies, ids, finds, lists, readers, lines)
}
HOSTILE = [name for name in KINDS if name not in ("platform", "closes")]


def main(words: list[str]) -> None:
    """Runs the command line."""
    kind, port, token, seconds, *more = words
    a_second, path = int(more[0]) if more else A_SECOND, more[1] if more[1:] else AUTHORIZE
    headers = "".join(f"{each}\r\n" for each in more[2:])
    client = Client(int(port), token, float(seconds), a_second, path, headers)
    asyncio.run(KINDS[kind](client))
    print(json.dumps({"took": client.took, "statuses": client.statuses}))


if __name__ == "__main__":
    main(sys.argv[1:])
