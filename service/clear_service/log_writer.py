"""Lines for a descriptor that perhaps nobody reads: a thread writes them, and what it cannot write in time is dropped."""

from __future__ import annotations

import logging
import os
import queue
import threading
import time

MOST = 10_000  # lines that wait to be written


class LogWriter:
    """Writes lines to a descriptor, such as a pipe, and never waits for its reader."""

    def __init__(self, descriptor: int) -> None:
        self._descriptor = descriptor
        self._lines: queue.Queue[bytes] = queue.Queue(MOST)
        self._thread: threading.Thread | None = None
        self._is_writing = False
        self.dropped = 0

    def write(self, line: bytes) -> None:
        """Takes a line with its newline, or drops it if too many wait."""
        if self._thread is None:
            self._thread = threading.Thread(target=self._run, daemon=True)
            self._thread.start()
        try:
            self._lines.put_nowait(line)
        except queue.Full:
            self.dropped += 1

    def _run(self) -> None:
        while True:
            text = self._lines.get()
            self._is_writing = True
            while text:
                try:
                    text = text[os.write(self._descriptor, text) :]
                except OSError:
                    self.dropped += 1
                    break
            self._is_writing = False

    def flush(self, seconds: float) -> None:
        """Waits until all lines are written, at most so long."""
        until = time.monotonic() + seconds
        while (self._is_writing or not self._lines.empty()) and time.monotonic() < until:
            time.sleep(0.01)


class LogHandler(logging.Handler):
    """Hands the records of the logging module to a writer."""

    def __init__(self, writer: LogWriter) -> None:
        super().__init__()
        self._writer = writer

    def emit(self, record: logging.LogRecord) -> None:
        """Writes a record on one line, or on several with a trace."""
        self._writer.write(self.format(record).encode(errors="replace") + b"\n")


REQUESTS = LogWriter(1)
MESSAGES = LogWriter(2)
