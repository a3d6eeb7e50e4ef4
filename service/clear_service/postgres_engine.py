"""The engine over PostgreSQL: this front end adds requests to the database, and reads the answers that a worker stores.

One task sends what is queued, many lines in one transaction. Another one follows the answers of all front ends in their
order. An answer can be seen when it is committed, so nothing is answered before it is durable. It also looks which worker
has the lock, and kills that of this service if it answers nothing though requests wait.
"""

from __future__ import annotations

import asyncio
import contextlib
import logging
import os
import signal
import sys
import time
import uuid
from asyncio.subprocess import PIPE, Process
from typing import Any, NamedTuple

import psycopg
from psycopg import AsyncConnection

from clear_service.engine import EngineState
from clear_service.child import version_of
from clear_service.json_text import with_numbers
from clear_service.postgres_database import (
    AT_ONCE,
    DatabaseError,
    configuration_of,
    connect,
    notified,
    one_may_take_long,
    state_of,
    worker_name,
)
from clear_service.registers import Registers
from clear_service.settings import REPOSITORY, Settings
from clear_service.shares import Shares
from clear_service.waiting import Unavailable, Waiting, Window

log = logging.getLogger("clear_service")

SECONDS = 1.0  # after which the follower asks again without a notification
FIRST_PAUSE = 0.1
STEADY = 10.0  # seconds after which a worker counts as one that runs
WINDOW = Window(1_000, 1 << 20, 250, 1 << 18)

# The next answers with their requests in one row, as a driver in Python takes longer for rows than for bytes. No line has a newline.
ANSWERED = """
    select count(*), coalesce(min(number), 0), coalesce(max(number), 0),
        string_agg(request, '\\x0a'::bytea order by number), string_agg(answer, '\\x0a'::bytea order by number),
        string_agg(sender, E'\\n' order by number), string_agg(floor(extract(epoch from sent))::bigint::text, E'\\n' order by number)
    from (
        select number, requests.line as request, answers.line as answer, sender, sent
        from answers join requests using (number)
        where answers.number > %(before)s and answers.number <= %(before)s + %(count)s
            and requests.number > %(before)s and requests.number <= %(before)s + %(count)s
    ) as next"""
AGAIN = "start the service again"
ANSWERED_UP_TO = "select coalesce(max(number), 0) from answers"


class Answered(NamedTuple):
    """A request with its answer, the front end that sent it, and when it did."""

    number: int
    line: bytes
    answer: bytes
    sender: str
    seconds: float


async def answered(session: AsyncConnection[Any], before: int) -> list[Answered]:
    """Some of the answers after so many. Raises DatabaseError if there is a gap."""
    row = await (
        await session.execute(ANSWERED, {"before": before, "count": AT_ONCE}, binary=True)
    ).fetchone()
    if row is None or row[0] == 0:
        return []
    count, first, last, lines, answers, senders, seconds = row
    if first != before + 1 or last != before + count:
        raise DatabaseError(f"the answer to request {before + 1} or one after it is missing")
    parts = (
        bytes(lines).split(b"\n"),
        bytes(answers).split(b"\n"),
        senders.split("\n"),
        map(float, seconds.split("\n")),
    )
    return list(map(Answered, range(first, last + 1), *parts))


class PostgresEngine:
    """A front end, and by the setting `worker` a worker process beside it."""

    def __init__(self, settings: Settings, registers: Registers, shares: Shares) -> None:
        self._settings = settings
        self._registers = registers
        self._runner: asyncio.Task[None] | None = None
        self._worker: asyncio.Task[None] | None = None
        self._process: Process | None = None
        self._looked = 0.0
        self._answered = (0, 0.0)
        self._reader: AsyncConnection[Any] | None = None
        self._reading = asyncio.Lock()
        self._has_worker = False
        self._bytes = 0
        self.waiting = Waiting(shares, WINDOW)
        self.state = EngineState("postgresql")

    async def start(self) -> None:
        """Starts the tasks."""
        self._runner = asyncio.create_task(self._run())
        if self._settings.worker:
            self._worker = asyncio.create_task(self._run_worker())

    async def stop(self) -> None:
        """Waits for answers for a few seconds, and ends the tasks."""
        await self.waiting.emptied(self._settings.longest_pause)
        self.waiting.close("the service stops")
        for task in (self._runner, self._worker):
            if task is not None:
                task.cancel()
                with contextlib.suppress(asyncio.CancelledError):
                    await task
        if self._reader is not None:
            await self._reader.close()

    @property
    def is_ready(self) -> bool:
        """Whether some worker has the lock, and requests of this service are answered."""
        return self._has_worker and self.waiting.is_answered

    @property
    def store_bytes(self) -> int:
        """The bytes of the requests that are answered."""
        return self._bytes

    async def line(self, number: int) -> bytes:
        """The request of this number. Raises Unavailable."""
        async with self._reading:
            try:
                if self._reader is None or self._reader.closed:
                    self._reader = await connect(self._settings.store, "reader")
                found = await self._reader.execute("select line from requests where number = %s", (number,))
                row = await found.fetchone()
            except psycopg.Error as error:
                raise Unavailable(f"the database: {error}") from None
            except asyncio.CancelledError:
                # A session with half a query would take no other one.
                if self._reader is not None:
                    await self._reader.close()
                raise
        if row is None:
            raise Unavailable(f"there is no request {number}")
        return bytes(row[0])

    async def head(self, count: int) -> bytes | None:
        """None: the tables have no record that begins a store, so no head of theirs is that of a store."""
        return None

    async def _run(self) -> None:
        pause = FIRST_PAUSE
        while True:
            try:
                await self._follow()
            except (psycopg.Error, DatabaseError, OSError) as error:
                self.state.last_end = str(error).partition("\n")[0]
            except Exception as error:
                log.exception("the engine failed")
                self.state.last_end = repr(error)
            if self.waiting.closed is None:
                pause = FIRST_PAUSE
            self._note(None)
            self.waiting.close("the house is starting again")
            log.warning("the database: %s", self.state.last_end)
            await asyncio.sleep(pause)
            pause = min(pause * 2, self._settings.longest_pause)

    async def _begin(self) -> None:
        """The configuration under which the house begins."""
        if self._registers.configuration is None:
            self.state.version = await version_of(self._settings.program)
            self._registers.begin(
                with_numbers((await asyncio.to_thread(configuration_of, self._settings.store)).encode())
            )

    async def _follow(self) -> None:
        """Sends what is queued under a new name, and follows the answers, until a session fails."""
        await self._begin()
        name = f"{os.uname().nodename}-{uuid.uuid4()}"
        async with await connect(self._settings.store, "follower") as session:
            row = await (await session.execute(ANSWERED_UP_TO)).fetchone()
            if row is None or row[0] < self._registers.lines:
                raise DatabaseError(f"the database has fewer answers than this service has seen; {AGAIN}")
            self.state.kept = row[0]
            await session.execute("listen answers")
            while await self._read(session, ""):
                self.state.replayed = self._registers.lines
            self.state.starts += 1
            sender = asyncio.create_task(self._send(name))
            try:
                self._registers.complete()
                self.waiting.open()
                while not sender.done():
                    if not await self._read(session, name):
                        await self._look(session)
                        await notified(session, SECONDS)
                sender.result()
            finally:
                sender.cancel()

    async def _read(self, session: AsyncConnection[Any], name: str) -> bool:
        """Takes some of the next answers; whether there were any."""
        found = await answered(session, self._registers.lines)
        for answer in found:
            self._registers.fold(answer.number, answer.line, answer.answer, answer.seconds)
        self._bytes += sum(len(answer.line) for answer in found)
        self.waiting.settle([answer.answer for answer in found if answer.sender == name])
        return bool(found)

    def _note(self, worker: str | None) -> None:
        """The worker that has the lock. The house answers if there is one."""
        self._has_worker = worker is not None
        self.state.details["answering"] = worker

    async def _look(self, session: AsyncConnection[Any]) -> None:
        """Looks which worker has the lock, about once a second while one has it, and whether it answers if it is this service's."""
        now = time.monotonic()
        if self._has_worker and now - self._looked < SECONDS / 2:
            return
        self._looked = now
        last_request, worker = await state_of(session)
        lines = self._registers.lines
        if last_request < lines:
            raise DatabaseError(
                f"the database has {last_request} requests, and {lines} were answered; {AGAIN}"
            )
        self._note(worker)
        own = self._process is not None and worker == worker_name(self._process.pid)
        if not own or last_request <= lines or self._answered[0] != lines:
            self._answered = (lines, now)
        elif now - self._answered[1] > self._settings.answer_seconds:
            if not await one_may_take_long(session, lines):
                self.state.last_end = (
                    f"the worker answered nothing for {self._settings.answer_seconds} seconds and was killed"
                )
                self._kill_worker()
                self._note(None)

    def _kill_worker(self) -> None:
        """Kills this service's worker with its program, which is of its process group."""
        if self._process is not None and self._process.returncode is None:
            with contextlib.suppress(ProcessLookupError):
                os.killpg(self._process.pid, signal.SIGKILL)

    async def _send(self, name: str) -> None:
        """Adds the queued lines, in transactions of many lines each."""
        place = 1
        async with await connect(self._settings.store, "sender") as session:
            while True:
                lines = await self.waiting.take()
                await session.execute("select send(%s, %s, %s)", (name, place, lines), binary=True)
                place += len(lines)

    async def _run_worker(self) -> None:
        """A worker process, started again when it ends."""
        words = [sys.executable, "-m", "clear_service.postgres_worker", self._settings.store, "--child"]
        environment = {
            **os.environ,
            "CLEAR": self._settings.program,
            "PYTHONPATH": str(REPOSITORY / "service"),
        }
        pause = FIRST_PAUSE
        while True:
            began = time.monotonic()
            if self._registers.configuration is not None:
                self._process = process = await asyncio.create_subprocess_exec(
                    *words, env=environment, stdin=PIPE, stderr=PIPE, start_new_session=True
                )
                said = asyncio.create_task(relay(process))
                self.state.details["worker"] = process.pid
                try:
                    await process.wait()
                finally:
                    self._kill_worker()
                    await process.wait()
                    said.cancel()
                log.warning("the worker ended with status %s", process.returncode)
                pause = (
                    FIRST_PAUSE
                    if time.monotonic() - began > STEADY
                    else min(pause * 2, self._settings.longest_pause)
                )
            await asyncio.sleep(pause)


async def relay(process: Process) -> None:
    """Logs what a process writes on standard error, so that it never waits for somebody who reads it."""
    assert process.stderr is not None
    while True:
        try:
            line = await process.stderr.readline()
        except ValueError:
            continue  # A line that is longer than the stream takes.
        if not line:
            return
        log.warning("%s", line.decode(errors="replace").rstrip())
