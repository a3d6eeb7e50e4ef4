"""A plain reading of the command `run`: one house answers the lines of all files, each file's in their order, while at each line it is
chosen at random which file goes on. Some answers that add no event are those of an older state, as far as the file has seen no more.
"""
from __future__ import annotations

import random
from collections.abc import Callable, Sequence

from history import File, KeptHouse, fault_of, lines_of, order_text, printed_line, statements, text_of
from rules import Config


class Run:
    """What is left in OUT, by the names of the files, and what is written on standard output and standard error."""

    def __init__(
        self,
        rng: random.Random,
        config: Config,
        files: Sequence[File],
        house: Callable[[Config], KeptHouse] = KeptHouse,
    ) -> None:
        self.rng, self.config = rng, config
        self.house = house(config)
        faults = [fault_of(number, *file) for number, file in enumerate(files, 1)]
        self.told, self.status = "".join(told for told, _ in faults), int(any(told for told, _ in faults))
        self.left: dict[str, bytes] = {}
        self.printed = ""
        waiting = {
            number: [*map(text_of, lines_of(content)[: faults[number][1]])]
            for number, (_, content) in enumerate(files)
            if content is not None
        }
        opened = list(waiting)
        self.answers: dict[int, list[str]] = {number: [] for number in opened}
        self.seen = dict.fromkeys(opened, 0)
        while any(waiting.values()):
            number = rng.choice([it for it in opened if waiting[it]])
            for _ in range(min(len(waiting[number]), rng.choice([1, 1, 1, 2, 10]))):
                self.go_on(number, waiting[number].pop(0))
        if opened:
            self.leave()

    def go_on(self, number: int, line: str) -> None:
        before = len(self.house.events)
        text, at = self.answer(line, self.seen[number])
        self.answers[number].append(text)
        self.seen[number] = max(self.seen[number], at, *([at + 1] if len(self.house.events) > before else []))

    def older(self, seen: int) -> tuple[KeptHouse, int]:
        """A house of some of the last events fewer, and how many it has."""
        at = self.rng.randint(max(seen, len(self.house.events) - 4), len(self.house.events))
        return KeptHouse(self.config, self.house.events[:at]), at

    def answer(self, line: str, seen: int) -> tuple[str, int]:
        """The answer, and the number of events before it; 0 where it has none."""
        if self.rng.random() < 0.3:
            older, at = self.older(seen)
            text = older.answer(line)
            if len(older.events) == at:
                return text, at if '"at":' in text else 0
        at = len(self.house.events)
        text = self.house.answer(line)
        return text, at if '"at":' in text else 0

    def leave(self) -> None:
        texts = {
            f"answers-{number + 1}.jsonl": "".join(it + "\n" for it in answers)
            for number, answers in self.answers.items()
        }
        texts |= statements(self.house) | {"order.csv": order_text(self.house.events)}
        self.left = {name: text.encode() for name, text in texts.items()}
        self.printed = printed_line(self.house, 0)
