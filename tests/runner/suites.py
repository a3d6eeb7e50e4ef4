"""The table of suites: tests/suites.toml."""

from __future__ import annotations

import tomllib
from dataclasses import dataclass, field
from pathlib import Path

TESTS = Path(__file__).resolve().parent.parent
TOP = TESTS.parent

KINDS = ("cases", "folders", "rows", "growths", "command")


class BadTable(Exception):
    """What is wrong with tests/suites.toml, or with a name that was asked for."""


@dataclass(frozen=True)
class Suite:
    """A row of the table."""

    name: str
    shows: str
    kind: str
    program: str = ""
    cases: tuple[str, ...] = ()
    arguments: tuple[str, ...] = ()
    told: str = ""
    stack: int = 0
    memory: int = 0
    alone: bool = False
    proves: bool = False


@dataclass
class Outcome:
    """How many cases of a suite passed, and what was printed of those that failed; or why it was skipped."""

    passed: int = 0
    failed: int = 0
    said: list[str] = field(default_factory=list)
    skipped: str = ""

    def add(self, name: str, wrong: list[str], repeat: str) -> None:
        """Counts a case; if something is wrong with it, keeps that and the command that repeats it."""
        if not wrong:
            self.passed += 1
            return
        self.failed += 1
        self.said += [f"case {name}: {line}" for line in wrong] + [f"repeat: {repeat}"]


def suite_of(name: str, row: dict[str, object]) -> Suite:
    """The suite of a row; a row with a member of another name or kind is refused."""
    known = {
        "shows",
        "kind",
        "program",
        "cases",
        "arguments",
        "told",
        "stack",
        "memory",
        "alone",
        "proves",
    }
    if set(row) - known or row.get("kind") not in KINDS or not row.get("shows"):
        raise BadTable(f"suite {name}: {', '.join(sorted(set(row) - known)) or 'no kind or nothing shown'}")
    cases, arguments = row.get("cases", []), row.get("arguments", [])
    if not isinstance(cases, list) or not isinstance(arguments, list):
        raise BadTable(f"suite {name}: cases and arguments are lists")
    stack, memory = row.get("stack", 0), row.get("memory", 0)
    if not isinstance(stack, int) or not isinstance(memory, int):
        raise BadTable(f"suite {name}: stack and memory are numbers of KB")
    return Suite(
        name=name,
        shows=str(row["shows"]),
        kind=str(row["kind"]),
        program=str(row.get("program", "")),
        cases=tuple(str(it) for it in cases),
        arguments=tuple(str(it) for it in arguments),
        told=str(row.get("told", "")),
        stack=stack,
        memory=memory,
        alone=bool(row.get("alone", False)),
        proves=bool(row.get("proves", False)),
    )


def read_suites(path: Path = TESTS / "suites.toml") -> dict[str, Suite]:
    """All suites by name, in the order of the table."""
    with open(path, "rb") as file:
        table = tomllib.load(file)
    return {name: suite_of(name, row) for name, row in table.items()}
