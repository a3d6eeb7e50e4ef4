"""A plain reading of docs/CORE.md and of schedules in docs/FORMATS.md: calls take steps one at a time, and each is answered by a
house over one list of events at its place in the order.
"""
from __future__ import annotations

from typing import TypeAlias

from rules import Config, House, fold, request_of

Lock: TypeAlias = tuple[str, str]  # Book or Account, and the party

TABLE = {
    "put_tariff": "Begin TakeBook Order PutBook End",
    "find": "Begin TakeBook Order PutBook End",
    "post": "Begin TakeBook TakeAccount Order PutAccount PutBook End",
    "close": "Begin Order Collect End",
    "statement": "Begin Order Collect End",
}
IN_ACCOUNT = "Begin TakeAccount Order PutAccount End"


class Call:
    """A command, the locks that it has to take, those that it holds, and what of its steps is still to come."""

    def __init__(self, line: str, operators: list[str]) -> None:
        request = request_of(line)
        self.line = line
        sent = request.get("tariff") or request.get("token") or request.get("cdr")
        party = sent["party"] if sent else ""
        self.parties = {"Book": request.get("operator") or party, "Account": request.get("provider") or party}
        if "cdr" in request:
            self.parties["Account"] = request["cdr"]["token"]["party"]
        steps = TABLE.get(request["do"], IN_ACCOUNT).split()
        at = steps.index("Collect") if "Collect" in steps else len(steps)
        self.steps = steps[:at] + [f"Collect {it}" for it in operators if at < len(steps)] + steps[at + 1 :]
        self.left = list(self.steps)
        self.begin: int | None = None
        self.point: int | None = None
        self.answer: str | None = None


class World:
    """The house between two steps, and the lines of the calls that have ended."""

    def __init__(self, config: Config, lines: list[str]) -> None:
        self.house = House(config)
        self.operators = [it["party"] for it in config["operators"]]
        self.calls = [Call(line, self.operators) for line in lines]
        self.locks: dict[Lock, int] = {}
        self.ended: list[str] = []

    def point(self) -> int:
        return len(self.house.events)

    def take(self, number: int, step: str) -> None:
        """Takes a step of the call of that number, from 1, or each of its steps for `All`; what cannot be taken changes nothing."""
        call = self.calls[number - 1]
        for one in call.steps if step == "All" else [step]:
            if one == "Abandon":
                self.abandon(number, call)
            elif one.startswith("Collect "):
                self.collect(call, one)
            elif call.left[:1] == [one]:
                self.take_next(number, call, one)

    def take_next(self, number: int, call: Call, step: str) -> None:
        kind = step.removeprefix("Take").removeprefix("Put")
        lock = (kind, fold(call.parties.get(kind, "")))
        if step.startswith("Take") and lock in self.locks:
            return
        call.left.pop(0)
        if step == "Begin":
            call.begin = self.point()
        elif step.startswith("Take"):
            self.locks[lock] = number
        elif step == "Order":
            call.point, call.answer = self.point(), self.house.answer(call.line)
            if '"refusal"' in call.answer:
                call.left = [it for it in call.left if not it.startswith("Collect ")]
        elif step.startswith("Put"):
            del self.locks[lock]
        else:
            self.ended.append(f"{number} {call.begin} {call.point} {self.point()} {call.answer}")

    def collect(self, call: Call, step: str) -> None:
        """Collects may come in any order, each of a book that nobody holds."""
        party = fold(step.removeprefix("Collect "))
        of_it = [
            it for it in call.left if it.startswith("Collect ") and fold(it.removeprefix("Collect ")) == party
        ]
        if call.answer and of_it and ("Book", party) not in self.locks:
            call.left.remove(of_it[0])

    def abandon(self, number: int, call: Call) -> None:
        if call.begin is not None and "Order" in call.left:
            self.locks = {lock: holder for lock, holder in self.locks.items() if holder != number}
            call.left = []
            self.ended.append(f"{number} {call.begin} - {self.point()} abandoned")
