"""Decides by rules.py whether what `run` has left is one history of one house: the answers of all files, the order of events,
the statements, and what was printed. Of tariffs it rates those that rules.py rates.

An answer that tells of an added event has its own place, `at`, among the events, and each place from 0 on is of one such answer. The
lines of these answers are given to one house in the order of their places, and it has to answer each as it was answered. Any other
answer with `at` has to be the one of the house after its first `at` events. No file goes back: what it has seen are the events before
an answer, and the event that the answer tells of, and no later answer of it has an `at` below that.
"""
from __future__ import annotations

import itertools
import json
import os
from collections.abc import Iterable, Mapping, Sequence
from typing import TypeAlias

from rules import Config, Event, House, Json, Refused, money, price, request_of

ADDING = ("Stored", "ALLOWED", "Released", "Accepted", "Closed", "Settled")
LONGEST = 1048576

HoldKey: TypeAlias = tuple[str, str, str]  # operator, provider and reference
File: TypeAlias = tuple[str, bytes | None]  # path and content of a request file


class KeptHouse(House):
    """The same house, for long lists: it keeps the events of each kind, the open holds and the debts."""

    def __init__(self, config: Config, events: Iterable[Event] = ()) -> None:
        super().__init__(config)
        self.events = list(events)
        self.kinds: dict[str, tuple[int, list[Event]]] = {}
        self.holds: dict[HoldKey, Event] = {}
        self.owed: dict[tuple[str, str], Event] = {}
        self.counted = 0

    def all(self, kinds: str, **values: object) -> list[Event]:
        known, of_kinds = self.kinds.get(kinds, (0, []))
        of_kinds += [e for e in self.events[known:] if e["kind"] in kinds.split()]
        self.kinds[kinds] = (len(self.events), of_kinds)
        return [e for e in of_kinds if all(e.get(k) == v for k, v in values.items())]

    def uses(self, event: Event) -> HoldKey | None:
        """The key of the open hold that a CDR uses up."""
        key = event["operator"], event["provider"], event["reference"]
        return key if key in self.holds and self.holds[key]["currency"] == event["currency"] else None

    def count(self, event: Event) -> None:
        kind = event["kind"]
        if kind == "Authorised":
            self.holds[event["operator"], event["provider"], event["reference"]] = event
        if kind == "Released":
            self.holds.pop((event["operator"], event["provider"], event["reference"]), None)
        if kind == "Cdr":
            if used := self.uses(event):
                del self.holds[used]
            self.owed[event["operator"], event["id"]] = event
        if kind == "Credit":
            self.owed.pop((event["operator"], event["original"]), None)
        if kind == "Settled":
            paid = event["provider"], event["currency"], event["settles"]
            self.owed = {
                k: e for k, e in self.owed.items() if (e["provider"], e["currency"], e["period"]) != paid
            }

    def sums(
        self, provider: str, currency: str, operator: str | None = None, added: Event | None = None
    ) -> tuple[int, int]:
        for event in self.events[self.counted :]:
            self.count(event)
        self.counted = len(self.events)
        used = self.uses(added) if added else None
        holds = [e for key, e in self.holds.items() if key != used]
        owed = [*self.owed.values(), *([added] if added else [])]

        def of_it(events: list[Event]) -> int:
            those = [e for e in events if (e["provider"], e["currency"]) == (provider, currency)]
            return sum(e["amount"] for e in those if operator in (None, e["operator"]))

        return of_it(holds), of_it(owed)


# ---- What a list of events leaves ----


def order_text(events: Iterable[Event]) -> str:
    period, records = 0, ["point,event,period\n"]
    for point, event in enumerate(events):
        records.append(f'{point},{event["kind"]},{period}\n')
        period += event["kind"] == "Closed"
    return "".join(records)


def statements(house: House) -> dict[str, str]:
    """The texts of the statements of all parties for each closed period, by the names of their files."""
    rows: dict[tuple[int, str], dict[tuple[str, str], list[int]]] = {}
    for e in house.billed():
        for party, other, side in ((e["operator"], e["provider"], 0), (e["provider"], e["operator"], 1)):
            row = rows.setdefault((e["period"], party), {}).setdefault((e["currency"], other), [0, 0])
            row[side] += e["amount"]
    texts = {}
    for period in range(house.current()):
        for party in house.parties:
            records = ["currency,counterpart,receivable,payable,net\n"]
            for (currency, other), (receivable, payable) in sorted(rows.get((period, party), {}).items()):
                amounts = ",".join(map(money, (receivable, payable, receivable - payable)))
                records.append(f"{currency},{other.upper()},{amounts}\n")
            texts[f'statement-{period}-{house.written[party].replace("/", "-")}.csv'] = "".join(records)
    return texts


def printed_line(house: House, differences: int) -> str:
    return f"events {len(house.events)} periods {house.current()} differences {differences}\n"


# ---- The request files ----


def lines_of(content: bytes) -> list[bytes]:
    """A last line without a newline counts if it is not empty."""
    lines = content.split(b"\n")
    return lines if lines[-1] else lines[:-1]


def fault_of(number: int, path: str, content: bytes | None) -> tuple[str, int]:
    """What is told of the file, which has no content where it cannot be opened; and how many of its lines are answered."""
    if content is None:
        return f"clear: file {number}: cannot read {path}\n", 0
    lines = lines_of(content)
    for at, line in enumerate(lines):
        if len(line) > LONGEST:
            return f"clear: file {number}: line {at + 1} is too long\n", at
    return "", len(lines)


def text_of(line: bytes) -> str:
    """What is no UTF-8 is no JSON, as the empty text."""
    try:
        return line.decode()
    except UnicodeDecodeError:
        return ""


def folder(path: str) -> dict[str, bytes]:
    """The files of a folder, by their names."""
    found = {}
    for name in os.listdir(path):
        with open(os.path.join(path, name), "rb") as file:
            found[name] = file.read()
    return found


# ---- The answers ----


class Answer:
    """An answer line, and the request line that it answers."""

    def __init__(self, file: int, number: int, request: str, text: str) -> None:
        self.file, self.number, self.request, self.text = file, number, request, text
        try:
            read: Json = json.loads(text)
            name, at, amount = read.get("answer") or read.get("refusal"), read.get("at"), read.get("amount")
        except (ValueError, AttributeError):
            name = at = amount = None
        self.name: str | None = name
        self.at: int | None = at if type(at) is int and at >= 0 else None
        self.amount: str | None = amount
        self.adds = self.at is not None and self.name in ADDING

    def __str__(self) -> str:
        return f"file {self.file}, line {self.number}"


class History:
    """`files` are the path and content of each request file, `left` the contents of the files in OUT by their names, `printed` and
    `told` what was written on standard output and standard error. `wrong` then has a sentence for each thing that is wrong.
    """

    def __init__(
        self,
        config: Config,
        files: Sequence[File],
        left: Mapping[str, bytes],
        status: int,
        printed: str,
        told: str,
    ) -> None:
        self.config, self.files, self.left = config, files, dict(left)
        self.wrong: list[str] = []
        self.house, self.empty = KeptHouse(config), House(config)
        faults = [fault_of(number, *file)[0] for number, file in enumerate(files, 1)]
        self.same_text("standard error", "".join(sorted(told.splitlines(True))), "".join(sorted(faults)))
        if status != int(any(faults)):
            self.wrong.append(f"the status is {status}, and should be {int(any(faults))}")
        self.answers = [self.answers_of(number, *file) for number, file in enumerate(files, 1)]
        self.owners: dict[int, list[Answer]] = {}
        self.others: dict[int, list[Answer]] = {}
        for answers in self.answers:
            self.sort(answers)
        if all(content is None for _, content in files):
            self.same_text("standard output", printed, "")
        elif self.replay():
            self.judge_rest(printed)
        self.wrong += [f"{name} should not be there" for name in sorted(self.left)]

    def same_text(self, name: str, text: str, wanted: str) -> None:
        for number, (was, want) in enumerate(
            itertools.zip_longest(text.splitlines(True), wanted.splitlines(True)), 1
        ):
            if was != want:
                self.wrong.append(
                    f'{name}, line {number}: {was or "nothing"!r}, where {want or "nothing"!r} should be'
                )
                return

    def same_file(self, name: str, wanted: str) -> None:
        if name in self.left:
            self.same_text(name, self.left.pop(name).decode(errors="backslashreplace"), wanted)
        else:
            self.wrong.append(f"{name} is missing")

    def same_answer(self, answer: Answer, wanted: str) -> None:
        if answer.text != wanted:
            self.wrong.append(f"{answer}: {answer.text} was answered, where {wanted} should be")

    # The answers by themselves, and those of one file.

    def answers_of(self, number: int, path: str, content: bytes | None) -> list[Answer]:
        name = f"answers-{number}.jsonl"
        if content is None:
            return []
        if name not in self.left:
            self.wrong.append(f"{name} is missing")
        written = self.left.pop(name, b"").decode(errors="backslashreplace")
        texts, wanted = written.split("\n"), fault_of(number, path, content)[1]
        if texts.pop():
            self.wrong.append(f"{name} does not end with a newline")
        if len(texts) != wanted:
            self.wrong.append(f"{name} has {len(texts)} answers, and should have {wanted}")
        requests = map(text_of, lines_of(content))
        return [
            Answer(number, at, request, text) for at, (request, text) in enumerate(zip(requests, texts), 1)
        ]

    def refused_alone(self, request: str) -> str | None:
        """The answer to a line that is refused by the line and the configuration alone."""
        try:
            self.empty.admit(request_of(request))
        except Refused:
            return self.empty.answer(request)
        return None

    def sort(self, answers: list[Answer]) -> None:
        """The answers of one file: those that the house is to be asked for, by their `at`."""
        seen = 0
        for answer in answers:
            alone = self.refused_alone(answer.request)
            if alone is not None:
                self.same_answer(answer, alone)
            elif answer.at is None:
                self.wrong.append(f"{answer}: {answer.text} was answered, which has no number of events")
            else:
                if answer.at < seen:
                    self.wrong.append(
                        f"{answer}: answered at {answer.at}, where its file has seen {seen} events"
                    )
                seen = max(seen, answer.at + answer.adds)
                (self.owners if answer.adds else self.others).setdefault(answer.at, []).append(answer)

    # All answers together.

    def asked(self, request: str) -> str:
        """What the house answers; an event that it adds is taken back."""
        before = len(self.house.events)
        text = self.house.answer(request)
        if len(self.house.events) > before:
            self.house = KeptHouse(self.config, self.house.events[:before])
        return text

    def replay(self) -> bool:
        """Whether each place among the events has one owner, whose line adds an event there."""
        end = max(self.owners, default=-1) + 1
        for place in range(end):
            owners = self.owners.get(place, [])
            if len(owners) != 1:
                those = " and ".join(map(str, owners)) or "nothing"
                self.wrong.append(f"event {place} is answered by {those}")
        for at in sorted(self.others):
            if at > end:
                self.wrong += [
                    f"{it}: answered at {at}, where there are {end} events" for it in self.others[at]
                ]
        for place in range(end + 1):
            for answer in self.others.get(place, []):
                self.same_answer(answer, self.asked(answer.request))
            if place < end and not self.is_added(place):
                self.wrong.append(f"what comes after {place} events was not looked at")
                self.left = {}
                return False
        return True

    def is_added(self, place: int) -> bool:
        owners = self.owners.get(place, [])
        if len(owners) == 1:
            self.same_answer(owners[0], self.house.answer(owners[0].request))
        return len(self.house.events) == place + 1

    def judge_rest(self, printed: str) -> None:
        self.same_file("order.csv", order_text(self.house.events))
        for name, text in statements(self.house).items():
            self.same_file(name, text)
        booked = [
            (e["cdr"], self.owners[place][0].amount)
            for place, e in enumerate(self.house.events)
            if e["kind"] == "Cdr"
        ]
        differences = sum(money(price(cdr)) != amount for cdr, amount in booked)
        self.same_text("standard output", printed, printed_line(self.house, differences))

    # For those who count what came up.

    def names(self) -> set[str]:
        return {answer.name for answers in self.answers for answer in answers if answer.name}

    def alternates(self) -> bool:
        """Whether some file has events both before and after one of another file."""
        order = [self.owners[place][0].file for place in sorted(self.owners)]
        return sum(a != b for a, b in zip(order, order[1:])) >= len(set(order)) > 1
