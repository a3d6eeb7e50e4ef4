"""The engine over a child `clear keep`, with a durable store in a folder.

Lines are pipelined to the child, and one task reads the answers in their order. The child syncs all lines that it has
read before it writes their answers. When it ends, what waits is unavailable, and it is started again after a pause. It is
not started if `clear check` refuses the store, or if the store is not the one that was opened first.

A child first answers the kept lines again, which takes as long as it takes. From then on, a child that answers nothing
though lines wait is killed.
"""

from __future__ import annotations

import asyncio
import contextlib
import json
import logging
import time
from collections.abc import Sequence

from clear_service.child import Child, ChildEnded, options_of, output_of, version_of
from clear_service.engine import EngineState
from clear_service.lines import may_take_long
from clear_service.registers import Registers
from clear_service.settings import Settings
from clear_service.shares import Shares
from clear_service.store_file import StoreError, StoreFile, TimeMarks
from clear_service.waiting import Unavailable, Waiting, Window

log = logging.getLogger("clear_service")

FIRST_PAUSE = 0.1
STEADY = 10.0  # seconds after which a child counts as one that runs
WATCH = 0.25  # seconds between two looks at the store and at whether the child answers
WINDOW = Window(1_024, 1 << 20, 64, 1 << 16)
TORN = b"they are cut off, and added to torn\n"


class KeepEngine:
    """One child `clear keep` at a time."""

    def __init__(self, settings: Settings, registers: Registers, shares: Shares) -> None:
        self._settings = settings
        self._registers = registers
        self._store = StoreFile(settings.store)
        self._times = TimeMarks(settings.store)
        self._runner: asyncio.Task[None] | None = None
        self._child: Child | None = None
        self._stopping = False
        self.waiting = Waiting(shares, WINDOW)
        self.state = EngineState("keep")

    async def start(self) -> None:
        """Starts the task that runs children."""
        self._runner = asyncio.create_task(self._run())

    async def stop(self) -> None:
        """Lets the child answer what it has, and ends it."""
        self._stopping = True
        await self.waiting.emptied(self._settings.longest_pause)
        self.waiting.close("the service stops")
        if self._child is not None:
            await self._child.stop(self._settings.longest_pause)
        if self._runner is not None:
            self._runner.cancel()
            with contextlib.suppress(asyncio.CancelledError):
                await self._runner
        self._store.close()
        self._times.close()

    @property
    def is_ready(self) -> bool:
        """Whether the child answers."""
        return self.waiting.is_answered

    @property
    def store_bytes(self) -> int:
        """The bytes of the store up to its last answered line."""
        return self._store.size

    async def line(self, number: int) -> bytes:
        """The answered line of this number, from 1. Raises Unavailable."""
        try:
            return self._store.line(number)
        except StoreError as error:
            raise Unavailable(str(error)) from None

    async def head(self, count: int) -> bytes | None:
        """The head after the record and so many answered lines. Raises Unavailable."""
        try:
            return await asyncio.to_thread(self._store.head, count)
        except StoreError as error:
            raise Unavailable(str(error)) from None

    async def _run(self) -> None:
        pause = FIRST_PAUSE
        while not self._stopping:
            began = time.monotonic()
            try:
                await self._run_child()
            except (ChildEnded, StoreError, OSError) as error:
                self.state.last_end = str(error)
            except Exception as error:
                log.exception("the engine failed")
                self.state.last_end = repr(error)
            self.waiting.close("the house is starting again")
            if self._stopping:
                return
            log.warning("the house ended: %s", self.state.last_end)
            pause = (
                FIRST_PAUSE
                if time.monotonic() - began > STEADY
                else min(pause * 2, self._settings.longest_pause)
            )
            await asyncio.sleep(pause)

    async def _run_child(self) -> None:
        await self._check_store()
        answered = len(self._store)
        first = str(max(answered - 1, 0))
        options = await options_of(self._settings.program, "keep")
        words = [self._settings.program, "keep", self._settings.store, "--from", first, *options]
        child = await Child.start(words, self._listened)
        self._child = child
        try:
            self.state.kept = int(json.loads(await child.first_line())["kept"])
            self.state.replayed = 0
            self.state.starts += 1
            self.state.details = {"pid": child.pid}
            await self._answer(child, answered)
        finally:
            child.kill()
            await child.stop(1)
            self._child = None

    def _listened(self, line: bytes) -> bool:
        """Whether the line on standard error is no error: it says how far the child is, or what the child has cut off the store's end."""
        if line.endswith(TORN):
            log.warning("%s", line.decode(errors="replace").rstrip())
            return True
        if not line.startswith(b'{"progress":'):
            return False
        progress = json.loads(line)
        if progress["progress"] == "answered" and not self.is_ready:
            self.state.replayed = max(self.state.replayed, progress["lines"])
        return True

    async def _check_store(self) -> None:
        """The store has to be there, whole, and the one that was opened first. Raises StoreError."""
        self._store.check_in_place()
        status, out, err = await output_of(
            [self._settings.program, "check", self._settings.store], seconds=None
        )
        if status != 0:
            raise StoreError(err or f"`check` of the store ended with status {status}")
        self.state.version = await version_of(self._settings.program)
        self.state.torn = bool(json.loads(out)["torn"])

    async def _answer(self, child: Child, answered: int) -> None:
        """First the answers to kept lines, then those to new ones.

        The child writes the first answer when it has replayed the lines before it. So it is asked for that to the last answered line
        again, which is known already.
        """
        kept = self.state.kept
        self._store.open()
        self._times.open()
        if not answered:
            self._registers.begin(self._store.record["config"])
        if kept < answered:
            raise StoreError(f"the store keeps {kept} lines, and {answered} were answered")
        known = min(answered, 1)
        tasks: list[asyncio.Task[None]] = []
        try:
            if not kept:
                tasks = self._open(child)
            async for answers in child.pieces():
                answers, known = answers[known:], max(0, known - len(answers))
                to_kept = answers[: max(0, kept - len(self._store))]
                self._follow(to_kept)
                if not tasks and kept == len(self._store) and not known:
                    tasks = self._open(child)
                self._settle(answers[len(to_kept) :])
                await asyncio.sleep(0)
        finally:
            for task in tasks:
                task.cancel()

    def _open(self, child: Child) -> list[asyncio.Task[None]]:
        """Takes requests from now on; the tasks that write lines to the child and watch it."""
        self._registers.complete()
        self.state.replayed = self.state.kept
        self.waiting.open()
        return [asyncio.create_task(self._write(child)), asyncio.create_task(self._watch(child))]

    def _follow(self, answers: Sequence[bytes]) -> None:
        """Answers to kept lines, which the registers do not have yet."""
        for number, answer in enumerate(answers, len(self._store) + 1):
            self._registers.fold(number, self._store.read_next(), answer, self._times.of(number))
        self.state.replayed = len(self._store)

    def _settle(self, answers: Sequence[bytes]) -> None:
        """Answers to new lines."""
        if not answers:
            return
        self._store.check_in_place()
        lines = self.waiting.next_lines(len(answers))
        first = self._store.passed(lines)
        answered = self._times.mark(first)
        for number, (line, answer) in enumerate(zip(lines, answers), first):
            self._registers.fold(number, line, answer, answered)
        self.waiting.settle(answers)

    async def _write(self, child: Child) -> None:
        with contextlib.suppress(ChildEnded):
            while True:
                await child.write(b"\n".join([*await self.waiting.take(), b""]))

    async def _watch(self, child: Child) -> None:
        """Kills the child if its store is gone, or if it answers nothing though lines wait."""
        while True:
            await asyncio.sleep(WATCH)
            try:
                self._store.check_in_place()
            except StoreError as error:
                self.waiting.close(str(error))
                child.kill(str(error))
                return
            if self._hangs():
                # A service that was paused itself first reads what the child has answered.
                await asyncio.sleep(WATCH)
                if self._hangs():
                    seconds = self._settings.answer_seconds
                    child.kill(f"it answered nothing for {seconds} seconds and was killed")
                    return

    def _hangs(self) -> bool:
        line = self.waiting.stuck_line(self._settings.answer_seconds)
        return line is not None and not may_take_long(line)
