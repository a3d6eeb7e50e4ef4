"""Ends what a command has started, when a signal ends the command.

`python3 tests/runner/ending.py COMMAND WORD..` runs the command so, and ends with its status.
"""

from __future__ import annotations

import ctypes
import os
import signal
import subprocess
import sys
import threading
import time
from collections.abc import Iterator
from pathlib import Path
from types import FrameType

SIGNALS = (signal.SIGHUP, signal.SIGINT, signal.SIGTERM)
PR_SET_CHILD_SUBREAPER = 36
GRACE = 2.0
PAUSE = 0.05


class Ended(BaseException):
    """A signal ends this process."""

    def __init__(self, number: int) -> None:
        super().__init__(number)
        self.number = number


class Ending:
    """Which signal ends this process, if one does."""

    number = 0

    @classmethod
    def check(cls) -> None:
        """Goes no further if a signal ends this process."""
        if cls.number:
            raise Ended(cls.number)


def parents() -> Iterator[tuple[int, int]]:
    """Each process that runs, and its parent."""
    for folder in Path("/proc").iterdir():
        if folder.name.isdigit():
            try:
                fields = (folder / "stat").read_text(errors="replace").rpartition(")")[2].split()
            except OSError:
                continue
            if fields[0] != "Z":
                yield int(folder.name), int(fields[1])


def descendants() -> set[int]:
    """The processes that this one has started, and those that they have."""
    children: dict[int, list[int]] = {}
    for process, parent in parents():
        children.setdefault(parent, []).append(process)
    found: set[int] = set()
    left = [os.getpid()]
    while left:
        for child in children.get(left.pop(), []):
            if child not in found:
                found.add(child)
                left.append(child)
    return found


def end_descendants(since: dict[int, float]) -> bool:
    """Asks each of them to end, once, and makes it end after a while. Returns whether there is one."""
    now, found = time.monotonic(), descendants()
    for process in found:
        first = since.setdefault(process, now)
        try:
            if first == now:
                os.kill(process, signal.SIGTERM)
            elif now - first > GRACE:
                os.kill(process, signal.SIGKILL)
        except ProcessLookupError:
            pass
    return bool(found)


def keep_ending() -> None:
    """Ends all that is started, as long as this process runs."""
    since: dict[int, float] = {}
    while True:
        end_descendants(since)
        time.sleep(PAUSE)


def on_signal(number: int, _frame: FrameType | None) -> None:
    """Ends all that was started, and then what this process does."""
    if Ending.number:
        return
    Ending.number = number
    threading.Thread(target=keep_ending, daemon=True).start()
    raise Ended(number)


def end_all_at_signals() -> None:
    """From now on a signal ends all processes that this one starts, also those whose parent has ended."""
    ctypes.CDLL(None, use_errno=True).prctl(PR_SET_CHILD_SUBREAPER, 1, 0, 0, 0)
    for number in SIGNALS:
        if signal.getsignal(number) != signal.SIG_IGN:
            signal.signal(number, on_signal)


def end_by(ended: Ended) -> None:
    """Ends this process by the signal, when all that it has started has ended."""
    since: dict[int, float] = {}
    while end_descendants(since):
        time.sleep(PAUSE)
    signal.signal(ended.number, signal.SIG_DFL)
    os.kill(os.getpid(), ended.number)


def main(words: list[str]) -> int:
    """Runs the command of these words, and returns its status."""
    end_all_at_signals()
    try:
        status = subprocess.run(words, check=False).returncode
    except Ended as ended:
        end_by(ended)
        return 128 + ended.number
    return status if status >= 0 else 128 - status


if __name__ == "__main__":
    sys.exit(main(sys.argv[1:]))
