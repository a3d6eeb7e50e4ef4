"""A share for each token: bytes, lines and requests in flight, turns, quotas, lists, slow readers."""

from __future__ import annotations

import asyncio
import json
import os
import signal
import socket
import threading
import time
from collections import Counter
from collections.abc import Coroutine, Iterator, Sequence
from dataclasses import replace
from typing import Any

import pytest
from clear_service.access import Message
from clear_service.log_writer import LogWriter
from clear_service.rows import CSV, JSON, Reads, Rows, csv_pieces, json_pieces
from clear_service.senders import Sender
from clear_service.settings import settings_of
from clear_service.shares import HELD, Bounded, Held, Quotas, Shares
from clear_service.waiting import OverQuota, QueueFull, Unavailable, Waiting, Window

from conftest import Make, Service, wait_until
from examples import TOKEN, TOKENS, line
from test_access import answering

EXPOSURE = line("exposure", provider="NL/MSA", currency="EUR").encode()


def test_a_share_and_what_is_spared() -> None:
    bounded = Bounded(64, 40)
    assert bounded.take("a", 40) and not bounded.take("a", 1)
    assert bounded.take("b", 24) and not bounded.take("b", 4)
    assert bounded.take("c", 2) and not bounded.take("c", 1)
    bounded.give("a", 40)
    assert bounded.take("c", 30) and bounded.total == 56


def test_a_quota(caplog: pytest.LogCaptureFixture) -> None:
    quotas = Quotas(10, 1000)
    one, other = Sender("one", "1" * 64), Sender("other", "2" * 64)
    assert quotas.take(one, 8, 10) and quotas.warnings() == []
    assert quotas.take(one, 1, 10)
    (warning,) = quotas.warnings()
    assert "9 of 10 lines" in warning and "of one " in warning and warning in caplog.text
    assert not quotas.take(one, 2, 10) and quotas.take(one, 1, 10)
    assert quotas.take(other, 1, 900) and not quotas.take(other, 1, 101)
    assert 0 < quotas.seconds_left() <= 86_400


class Queue:
    """A queue with a window of 64 lines, and requests of tokens in it."""

    def __init__(self, **changes: int) -> None:
        self.shares = Shares(replace(settings_of("", "", {}), **changes))
        self.waiting = Waiting(self.shares, Window(256, 1 << 20, 64, 1 << 20))
        self.waiting.open()

    def send(self, token: str, lines: Sequence[bytes]) -> asyncio.Task[list[bytes]]:
        """Requests the answers as a request of this token."""
        return asyncio.create_task(self._send(Held(self.shares, Sender(token, token)), lines))

    async def _send(self, held: Held, lines: Sequence[bytes]) -> list[bytes]:
        held.begin()
        HELD.set(held)
        try:
            return await self.waiting.answers(lines, 60)
        finally:
            held.end()

    async def answer(self) -> list[bytes]:
        """Takes lines, and answers each with itself."""
        lines = await self.waiting.take()
        assert self.waiting.next_lines(len(lines)) == lines
        self.waiting.settle(lines)
        return lines


def run(work: Coroutine[Any, Any, None]) -> None:
    asyncio.run(asyncio.wait_for(work, 180))


def test_tokens_take_turns() -> None:
    """A single line beside four bulk senders has its answer within two windows."""

    async def work() -> None:
        queue = Queue(queue_lines=100_000)
        bulk = [queue.send(token, [token.encode()] * 10_000) for token in "abcd"]
        await asyncio.sleep(0)
        for _ in range(20):
            await queue.answer()
        single = queue.send("single", [b"single"])
        await asyncio.sleep(0)
        assert b"single" in await queue.answer()
        assert await single == [b"single"]
        counts = {token: 0 for token in b"abcd"}
        for _ in range(40):
            for each in await queue.answer():
                counts[each[0]] += 1
        assert max(counts.values()) - min(counts.values()) <= 64
        while not all(task.done() for task in bulk):
            await queue.answer()
            await asyncio.sleep(0)
        assert [task.result() == [token.encode()] * 10_000 for task, token in zip(bulk, "abcd")] == [True] * 4
        assert (
            queue.waiting.lines,
            queue.waiting.bytes,
            queue.shares.bytes.total,
            queue.shares.lines.total,
        ) == (0,) * 4

    run(work())


def test_a_token_has_its_share_of_the_queue() -> None:
    async def work() -> None:
        queue = Queue(queue_lines=100, token_lines=60)
        first = queue.send("a", [b"x"] * 60)
        with pytest.raises(QueueFull):
            await queue.send("a", [b"x"])
        others = [queue.send("b", [b"x"] * 40), queue.send("c", [b"x"] * 3)]
        with pytest.raises(QueueFull):
            await queue.send("d", [b"x"] * 4)
        queue.waiting.close("it ended")
        for task in (first, *others):
            with pytest.raises(Unavailable, match="it ended"):
                await task
        assert queue.shares.lines.total == queue.shares.requests.total == 0

    run(work())


def test_a_day_is_used_up() -> None:
    async def work() -> None:
        queue = Queue(day_lines=10)
        with pytest.raises(OverQuota):
            await queue.send("a", [b"x"] * 11)
        task = queue.send("a", [b"x"] * 10)
        await asyncio.sleep(0)
        await queue.answer()
        await task
        with pytest.raises(OverQuota) as error:
            await queue.send("a", [b"x"])
        assert error.value.status == 429 and error.value.retry_after > 0

    run(work())


def test_answers_that_are_too_long_together() -> None:
    async def work() -> None:
        queue = Queue(token_bytes=1 << 20, queue_bytes=1 << 20)
        task = queue.send("a", [b"x"] * 64)
        await asyncio.sleep(0)
        lines = await queue.waiting.take()
        queue.waiting.settle([b"y" * (1 << 16) for _ in lines])
        with pytest.raises(Unavailable, match="too long together"):
            await task
        assert queue.shares.bytes.total == queue.waiting.lines == 0

    run(work())


def test_the_quota_over_http(make: Make) -> None:
    service = make(day_lines=5)
    service.lines("emp", *[EXPOSURE.decode()] * 5)
    response = service.send("emp", "POST", "/clearing/lines", content=EXPOSURE)
    assert response.status_code == 429 and int(response.headers["Retry-After"]) > 0
    assert service.send("cpo", "POST", "/clearing/lines", content=b"{}").status_code == 200
    assert any("emp" in warning for warning in service.health()["warnings"])
    assert service.health()["lines"] == 6


def test_bodies_of_one_token_are_bounded(make: Make) -> None:
    """While the program does not answer, bodies above the share of the token get 503, and others are taken."""
    service = make(token_bytes=1 << 20, queue_bytes=4 << 20)
    process = answering(service)
    os.kill(process, signal.SIGSTOP)
    body = b'{"do":"x","y":"%b"}' % (b"y" * 400_000)
    statuses: list[int] = []

    def send() -> None:
        statuses.append(service.send("emp", "POST", "/clearing/lines", content=body).status_code)

    threads = [threading.Thread(target=send) for _ in range(6)]
    try:
        for thread in threads:
            thread.start()
        assert wait_until(lambda: len(statuses) == 4)
        assert statuses == [503] * 4
        single = threading.Thread(
            target=lambda: service.send("cpo", "POST", "/clearing/lines", content=EXPOSURE)
        )
        single.start()
        assert wait_until(lambda: service.health()["waiting"] == 3)
    finally:
        os.kill(process, signal.SIGCONT)
    for thread in (*threads, single):
        thread.join()
    assert sorted(statuses) == [200, 200, 503, 503, 503, 503]


def test_requests_of_one_token_at_once(make: Make) -> None:
    service = make(token_requests=3)
    process = answering(service)
    os.kill(process, signal.SIGSTOP)
    threads = [
        threading.Thread(target=lambda: service.send("emp", "POST", "/clearing/lines", content=EXPOSURE))
        for _ in range(3)
    ]
    try:
        for thread in threads:
            thread.start()
        assert wait_until(lambda: service.health()["waiting"] == 3)
        assert service.send("emp", "GET", "/clearing/sender").status_code == 429
        assert service.send("cpo", "GET", "/clearing/sender").status_code == 200
    finally:
        os.kill(process, signal.SIGCONT)
    for thread in threads:
        thread.join()
    assert service.send("emp", "GET", "/clearing/sender").status_code == 200


def many_holds(service: Service, count: int) -> None:
    """Puts many holds into the register, so that their list is long."""
    registers = service.app._app.state.house.registers  # type: ignore[attr-defined]
    service.send("emp", "PUT", TOKENS, json=TOKEN)
    service.send("cpo", "POST", "/ocpi/2.2.1/tokens/U1/authorize")
    (hold,) = registers.holds.values()
    for number in range(count):
        registers.holds[f"x{number}"] = replace(hold, reference=f"X-{number}")


def ask_for_holds(service: Service) -> socket.socket:
    """A client that has asked for the holds, and has read only the beginning of the response."""
    client = socket.socket()
    client.setsockopt(socket.SOL_SOCKET, socket.SO_RCVBUF, 4096)
    client.settimeout(180)
    client.connect(("127.0.0.1", service.settings.port))
    head = f"GET /clearing/holds HTTP/1.1\r\nHost: x\r\nAuthorization: Token {service.tokens['hub']}\r\n\r\n"
    client.sendall(head.encode())
    return client


def test_a_client_that_does_not_read(make: Make) -> None:
    """It loses its connection after `write_seconds`, and nobody else waits for it."""
    service = make(write_seconds=4)
    many_holds(service, 100_000)
    connections = service.server.server_state.connections
    before = len(connections)
    with ask_for_holds(service) as client:
        assert client.recv(100).startswith(b"HTTP/1.1 200")
        assert len(connections) == before + 1
        assert service.send("cpo", "GET", "/clearing/sender").status_code == 200
        assert wait_until(lambda: len(connections) == before)


def test_an_idle_connection(make: Make) -> None:
    service = make(idle_seconds=2)
    for sent in (b"", b"GET /health HT", b"GET /health HTTP/1.1\r\nHost: x\r\n"):
        with socket.create_connection(("127.0.0.1", service.settings.port)) as client:
            client.sendall(sent)
            client.settimeout(60)
            try:
                assert client.recv(1000) == b""
            except ConnectionResetError:
                pass


def test_a_log_that_nobody_reads() -> None:
    reading, writing = os.pipe()
    writer = LogWriter(writing)
    began = time.monotonic()
    for _ in range(20_000):
        writer.write(b"x" * 100 + b"\n")
    assert time.monotonic() - began < 5 and writer.dropped > 0
    writer.flush(0.1)
    os.close(reading)


@pytest.mark.parametrize("media_type", [JSON, CSV])
def test_lists_keep_nobody_waiting(media_type: str) -> None:
    """Others have their turn after each hundred rows of a list, also after rows that the sender may not see."""

    async def work() -> None:
        turns = 0
        made: Counter[int] = Counter()
        written = bytearray()

        async def others() -> None:
            nonlocal turns
            while True:
                await asyncio.sleep(0)
                turns += 1

        def rows() -> Iterator[list[object] | None]:
            for number in range(20_000):
                made[turns] += 1
                yield [number] if number < 10_000 else None

        async def receive() -> Message:
            raise AssertionError

        async def send(message: Message) -> None:
            written.extend(message.get("body", b""))

        beside = asyncio.create_task(others())
        pieces = json_pieces(rows()) if media_type == JSON else csv_pieces(["number"], rows())
        await Rows((Reads(), "token"), pieces, media_type)({}, receive, send)
        beside.cancel()
        assert made.total() == 20_000 and max(made.values()) <= 100
        assert written.count(b"[") == 10_001 if media_type == JSON else written.count(b"\n") == 10_001

    run(work())


def test_two_lists_of_a_token_at_once(make: Make) -> None:
    """Further lists of the token wait for the first two; other tokens do not."""
    service = make(write_seconds=60)
    many_holds(service, 100_000)
    clients = [ask_for_holds(service) for _ in range(2)]
    for client in clients:
        assert client.recv(100).startswith(b"HTTP/1.1 200")
    with ask_for_holds(service) as third:
        assert service.get("emp", "/clearing/refusals").status_code == 200
        third.settimeout(2)
        with pytest.raises(TimeoutError):
            third.recv(100)
        clients[0].close()
        third.settimeout(180)
        assert third.recv(100).startswith(b"HTTP/1.1 200")
    clients[1].close()
