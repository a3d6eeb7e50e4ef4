"""A child process that answers lines: `clear keep` or another command of the program."""

from __future__ import annotations

import asyncio
import contextlib
import fcntl
import os
import tempfile
from asyncio import StreamWriter
from asyncio.streams import FlowControlMixin
from asyncio.subprocess import PIPE, Process
from collections import deque
from collections.abc import AsyncIterator, Callable, Sequence

PIECE = 1 << 18
OPTIONS = ("--causes", "--progress=json")  # of `keep` and `stream`, as far as a program has them
PIPE_BYTES = 1 << 20  # as many as the program takes at once, so that few syncs are for many lines


class ChildEnded(Exception):
    """The child ended or closed its output."""


class PipeEnd:
    """The end of a pipe to which a loop writes.

    uvloop closes the descriptor and then this object. A second `close` of the number would be that of a file which another thread has
    opened in the meantime, so there is none.
    """

    def __init__(self, descriptor: int, loop: asyncio.AbstractEventLoop) -> None:
        self._descriptor = descriptor
        self._is_closed_by_loop = type(loop).__module__.startswith("uvloop")

    def fileno(self) -> int:
        """The descriptor."""
        return self._descriptor

    def close(self) -> None:
        """Closes the descriptor, if the loop has not."""
        if not self._is_closed_by_loop:
            os.close(self._descriptor)


class Child:
    """A started process. Its standard error is read all the time. Its last lines are kept, but for those that `takes` takes."""

    def __init__(self, process: Process, writer: StreamWriter, takes: Callable[[bytes], bool]) -> None:
        assert process.stdout is not None and process.stderr is not None
        self._takes = takes
        self._process, self._input = process, writer
        self._output, self._errors = process.stdout, process.stderr
        self._rest = b""
        self._said: deque[str] = deque(maxlen=5)
        self._listener = asyncio.create_task(self._listen())

    @classmethod
    async def start(cls, words: Sequence[str], takes: Callable[[bytes], bool] = lambda line: False) -> Child:
        """Starts the program. Raises OSError."""
        reading, writing = os.pipe()
        with contextlib.suppress(OSError):
            fcntl.fcntl(writing, fcntl.F_SETPIPE_SZ, PIPE_BYTES)
        try:
            process = await asyncio.create_subprocess_exec(*words, stdin=reading, stdout=PIPE, stderr=PIPE)
        except BaseException:
            os.close(writing)
            raise
        finally:
            os.close(reading)
        loop = asyncio.get_running_loop()
        transport, protocol = await loop.connect_write_pipe(FlowControlMixin, PipeEnd(writing, loop))
        return cls(process, StreamWriter(transport, protocol, None, loop), takes)

    @property
    def pid(self) -> int:
        """The process's id."""
        return self._process.pid

    async def _listen(self) -> None:
        while line := await self._errors.readline():
            if not self._takes(line):
                self._said.append(line.decode(errors="replace").strip()[:500])

    async def write(self, text: bytes) -> None:
        """Writes lines, each with its newline. Raises ChildEnded."""
        try:
            self._input.write(text)
            await self._input.drain()
        except (OSError, RuntimeError):
            raise ChildEnded("the program ended") from None

    async def first_line(self) -> bytes:
        """The first line of its output. Raises ChildEnded."""
        while b"\n" not in self._rest:
            self._rest += await self._piece()
        line, _, self._rest = self._rest.partition(b"\n")
        return line

    async def pieces(self) -> AsyncIterator[list[bytes]]:
        """Its further lines, those of one piece of output together. Raises ChildEnded at the end."""
        while True:
            lines = self._rest.split(b"\n")
            self._rest = lines.pop()
            if lines:
                yield lines
            self._rest += await self._piece()

    async def _piece(self) -> bytes:
        piece = await self._output.read(PIECE)
        if not piece:
            raise ChildEnded(await self._end())
        return piece

    async def _end(self) -> str:
        with contextlib.suppress(TimeoutError, ProcessLookupError):
            async with asyncio.timeout(5):
                await self._process.wait()
                await self._listener
        said = "; ".join(self._said)
        return f"the program ended with status {self._process.returncode}" + (f": {said}" if said else "")

    async def stop(self, seconds: float) -> None:
        """Closes its input, waits for its end at most so long, and then kills it."""
        with contextlib.suppress(OSError, RuntimeError):
            self._input.close()
        try:
            async with asyncio.timeout(seconds):
                await self._process.wait()
        except TimeoutError:
            self.kill()
            await self._process.wait()
        self._listener.cancel()

    def kill(self, reason: str = "") -> None:
        """Kills it at once; what is reported of its end has the reason."""
        if reason:
            self._said.append(reason)
        with contextlib.suppress(ProcessLookupError):
            self._process.kill()


async def output_of(
    words: Sequence[str], given: bytes = b"", seconds: float | None = 600
) -> tuple[int, bytes, str]:
    """Runs a program to its end: its status, output, and what it wrote on standard error. It is killed after so long, if there is a limit."""
    with tempfile.TemporaryFile() as file:
        file.write(given)
        file.seek(0)
        process = await asyncio.create_subprocess_exec(*words, stdin=file, stdout=PIPE, stderr=PIPE)
    try:
        async with asyncio.timeout(seconds):
            out, err = await process.communicate()
    except BaseException:
        with contextlib.suppress(ProcessLookupError):
            process.kill()
        raise
    return process.returncode or 0, out, err.decode(errors="replace").strip()


async def options_of(program: str, command: str) -> list[str]:
    """Those of the service's options that the command of this program has. Raises OSError."""
    _, out, _ = await output_of([program, command, "--help"], seconds=10)
    return options_in(out.decode(errors="replace"))


def options_in(help_text: str) -> list[str]:
    """Those of the service's options that are in the help of a command."""
    return [option for option in OPTIONS if option.partition("=")[0] in help_text]


async def version_of(program: str) -> str:
    """What the program says of its version; nothing if it cannot be run."""
    try:
        _, out, _ = await output_of([program, "--version"], seconds=10)
    except OSError:
        return ""
    return out.decode(errors="replace").strip()
