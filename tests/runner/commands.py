"""Suites that are a command of their own.

Its last line is `WORDS: N passed, M failed`, and its status 0 if none failed. A command that ends with status 0 and a line that ends with
`so nothing is compared` is skipped.
"""

from __future__ import annotations

import re

from runner.programs import Programs, run
from runner.suites import TOP, Outcome, Suite

CLOSING = re.compile(r"(\d+) passed, (\d+) failed\b")
MOST_LINES = 60
NOTHING_COMPARED = "so nothing is compared"


def last_line(output: bytes) -> str:
    """The last line that a command wrote on standard output."""
    return (output.decode(errors="replace").splitlines() or [""])[-1]


def run_command(suite: Suite, programs: Programs, _only: str) -> Outcome:
    """Runs the command at the top of the repository, and counts what its last line says; without a count and with status 0 it is skipped."""
    words = [programs.filled(it) for it in suite.arguments]
    ran = run(words, TOP, None, (suite.stack, suite.memory))
    last = last_line(ran.output)
    closing = CLOSING.search(last)
    if ran.status == 0 and not closing and last.endswith(NOTHING_COMPARED):
        return Outcome(skipped=last)
    outcome = Outcome(int(closing[1]), int(closing[2])) if closing else Outcome()
    if ran.status != 0 or not outcome.passed:
        outcome.failed = outcome.failed or 1
        lines = (ran.output + ran.errors).decode(errors="replace").splitlines()
        outcome.said = [
            f"{suite.name}: status {ran.status}",
            *lines[-MOST_LINES:],
            f"repeat: tests/run {suite.name}",
        ]
    return outcome
