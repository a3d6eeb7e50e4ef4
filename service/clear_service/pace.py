"""Work of some milliseconds on the loop: one piece at a time, and between two pieces all that waits has its turn."""

from __future__ import annotations

import asyncio
from collections.abc import AsyncIterator
from contextlib import asynccontextmanager

SMALL = 1 << 14  # bytes that are read as JSON without waiting for a turn


class Pace:
    """A turn for each piece of work, first come first served."""

    def __init__(self) -> None:
        self._lock = asyncio.Lock()

    @asynccontextmanager
    async def turn(self, size: int = SMALL) -> AsyncIterator[None]:
        """Waits for a turn for work over so many bytes. Small work needs none."""
        if size < SMALL:
            yield
            return
        async with self._lock:
            yield
            await asyncio.sleep(0)
