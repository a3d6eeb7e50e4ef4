"""Random request files: the lines of one random script, shared out over the files of one to six platforms, so that these meet in the
same books, accounts, ids, holds and periods.
"""
from __future__ import annotations

import random

from history import KeptHouse
from random_lines import Script


class Files:
    """The first tariffs and tokens are put by all files. One file closes the periods, and sometimes another one too; any other line
    is in one file, and sometimes in a second one.
    """

    def __init__(self, seed: int | str, fewest: int = 60, most: int = 200) -> None:
        self.rng = rng = random.Random(f"files {seed}")
        count = rng.choice([1, 2, 2, 3, 3, 4, 5, 6])
        script = Script(seed, KeptHouse, 30 * count)
        self.config = script.house.config
        files: list[list[str]] = [[] for _ in range(count)]
        closing = rng.randrange(count)
        for number, (line, _) in enumerate(script.lines(count * rng.randint(fewest, most))):
            closes = closing if '"do":"close"' in line else None
            for file in range(count) if number < 10 else self.takers(count, closes):
                files[file].append(line)
        self.contents: list[bytes | None] = [
            ("\n".join(lines) + "\n" * (rng.random() < 0.8)).encode() for lines in files
        ]

    def lose(self) -> None:
        """One of the files is not there."""
        self.contents[self.rng.randrange(len(self.contents))] = None

    def lengthen(self) -> None:
        """One of the files has a line that is too long."""
        file = self.rng.randrange(len(self.contents))
        content = self.contents[file] or b""
        at = self.rng.randrange(len(content))
        self.contents[file] = content[:at] + b" " * 1048577 + content[at:]

    def takers(self, count: int, closing: int | None) -> set[int]:
        first = self.rng.randrange(count) if closing is None else closing
        more = self.rng.random() < (0.1 if closing is None else 0.5)
        return {first, self.rng.randrange(count)} if more else {first}
