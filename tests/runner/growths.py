"""Suites of allocation failures: a case once for each allocation that it makes, with that one failing.

Each run has to print the line `told` on standard error, to end with status 1, and to have written only whole answers, those of the first lines;
or, if the program can do without that memory, to end as the case wants. If `told` is empty, every run has to end as the case wants. `cases` names
case folders; with `arguments` these come in place of the case's first argument.
"""

from __future__ import annotations

import subprocess
import tempfile
from dataclasses import dataclass
from pathlib import Path

from runner.cases import input_of, output_of, words_of
from runner.comparing import bytes_of, status_of
from runner.programs import Programs, Ran, run
from runner.suites import TESTS, Outcome, Suite

MOST = 100_000


def built_shim(room: Path) -> Path:
    """The library that makes one allocation of a program fail."""
    library = room / "refuse.so"
    source = TESTS / "faults" / "refuse.c"
    subprocess.run(["cc", "-O1", "-shared", "-fPIC", "-o", library, source, "-ldl"], check=True)
    return library


@dataclass(frozen=True)
class Case:
    """A case of a suite: how it is run, and how it ends."""

    suite: Suite
    words: list[str]
    folder: Path
    given: Path | None
    wanted: Ran

    def run(self, environment: dict[str, str]) -> Ran:
        """Runs the case with these variables of the environment."""
        limits = (self.suite.stack, self.suite.memory)
        return run(self.words, self.folder, self.given, limits, environment)

    def gave_up(self, ran: Ran) -> bool:
        """Whether the run ended as one whose allocation failed."""
        told, output = self.suite.told, self.wanted.output
        is_told = bool(told) and ran.errors == f"{told}\n".encode() and ran.status == 1
        is_whole = not ran.output or ran.output.endswith(b"\n")
        return is_told and is_whole and output.startswith(ran.output)


def case_of(suite: Suite, program: Path, folder: Path, work: Path) -> Case:
    """The case of the folder, with what its scripts write."""
    words = words_of(folder, work)
    words = [str(program), *(suite.arguments or words[:1]), *words[1:]]
    wanted = Ran(output_of(folder), bytes_of(folder / "stderr"), status_of(folder))
    return Case(suite, words, folder, input_of(folder, work), wanted)


def run_case(suite: Suite, program: Path, folder: Path, outcome: Outcome) -> None:
    """Runs the case once for each of its allocations, and once with none failing."""
    name = f"{suite.name}/{folder.name}"
    with tempfile.TemporaryDirectory() as room:
        work = Path(room)
        case, shim = case_of(suite, program, folder, work), built_shim(work)
        mark = work / "refused"
        for number in range(1, MOST):
            mark.unlink(missing_ok=True)
            environment = {"REFUSE": str(number), "REFUSED": str(mark)}
            ran = case.run({**environment, "LD_PRELOAD": str(shim)})
            has_failed = mark.exists()
            is_right = ran == case.wanted or (has_failed and case.gave_up(ran))
            is_tried = has_failed or number > 1
            wrong = [f"status {ran.status}", (ran.errors + ran.output).decode()[:300]]
            which = f"allocation {number}" if has_failed else "no allocation failing"
            outcome.add(
                f"{name}, {which}",
                [] if is_right and is_tried else wrong,
                f"tests/run {name}",
            )
            if not has_failed:
                return


def run_growths(suite: Suite, programs: Programs, only: str) -> Outcome:
    """Runs all cases that the suite names, or the one of that name."""
    outcome, program = Outcome(), programs.path(suite.program)
    for case in suite.cases:
        folder = TESTS / case
        if not only or folder.name == only:
            run_case(suite, program, folder, outcome)
    return outcome
