"""Suites of cases: a folder each, with what a program is given and what it has to write.

The program runs in the folder with the arguments of `args`, one a line; else with `script` and the configuration, `config.json` or what
`config.sh` writes. Its standard input is `lines.jsonl`, `cdr.json`, what `lines.sh` writes, or the path in `input_from`. It has to write
`answers.jsonl`, `amount`, `differences` or `printed` (or the file at the path in `answers_from`) on standard output and `stderr` on standard
error, and to end with the number in `status`. A file that is not there means nothing, and status 0. A stream whose path is in `output_to` or
`errors_to` goes there and is not compared.

A suite with an argument runs the cases that are `script CONFIG`, with that argument in place of `script`, and wants its program's name
instead of `clear` on standard error; for the argument `stream` it wants `stderr_of_stream`, if that is there. Other command lines are
those of `clear` alone.
"""

from __future__ import annotations

import re
import subprocess
import tempfile
from pathlib import Path

from runner.comparing import bytes_of, differences, lines_of, status_of
from runner.programs import Programs, run
from runner.suites import TESTS, Outcome, Suite

OUTPUTS = ("printed", "differences", "amount", "answers.jsonl")


def made_by(script: Path, into: Path) -> Path:
    """What the script writes, in a file."""
    with open(into, "wb") as file:
        subprocess.run(["sh", script.name], cwd=script.parent, stdout=file, check=True)
    return into


def path_in(folder: Path, name: str) -> Path | None:
    """The path that the file of that name has, from the folder."""
    file = folder / name
    return folder / file.read_text().strip() if file.exists() else None


def words_of(folder: Path, work: Path) -> list[str]:
    """The arguments of the case."""
    if (folder / "args").exists():
        return lines_of(folder / "args")
    if (folder / "config.sh").exists():
        return ["script", str(made_by(folder / "config.sh", work / "config.json"))]
    return ["script", "config.json"]


def input_of(folder: Path, work: Path) -> Path | None:
    """The standard input of the case."""
    if (folder / "lines.sh").exists():
        return made_by(folder / "lines.sh", work / "lines")
    for name in ("lines.jsonl", "cdr.json"):
        if (folder / name).exists():
            return folder / name
    return path_in(folder, "input_from")


def output_of(folder: Path) -> bytes:
    """What the case wants on standard output."""
    found = path_in(folder, "answers_from")
    if found:
        return found.read_bytes()
    return next((bytes_of(folder / name) for name in OUTPUTS if (folder / name).exists()), b"")


def wrong_with(suite: Suite, program: Path, folder: Path) -> list[str] | None:
    """What is wrong with a run of the case, or None if it is no case of this suite."""
    with tempfile.TemporaryDirectory() as room:
        work = Path(room)
        words, wanted_errors = words_of(folder, work), bytes_of(folder / "stderr")
        if suite.arguments:
            if words[:1] != ["script"] or len(words) != 2 or words[1].startswith("-"):
                return None
            words = [*suite.arguments, *words[1:]]
            wanted_errors = bytes_of(folder / f"stderr_of_{suite.arguments[0]}", wanted_errors)
            wanted_errors = re.sub(rb"(?m)^clear: ", f"{suite.program}: ".encode(), wanted_errors)
        output_to, errors_to = path_in(folder, "output_to"), path_in(folder, "errors_to")
        ran = run(
            [str(program), *words],
            folder,
            input_of(folder, work),
            (suite.stack, suite.memory),
            None,
            output_to,
            errors_to,
        )
        wrong = [] if output_to else differences(output_of(folder), ran.output, "standard output")
        wrong += [] if errors_to else differences(wanted_errors, ran.errors, "standard error")
        if ran.status != status_of(folder):
            wrong.append(f"exit status {ran.status}, not {status_of(folder)}")
        return wrong


def run_cases(suite: Suite, programs: Programs, only: str) -> Outcome:
    """Runs all cases of the suite's folders, or the one of that name."""
    outcome, program = Outcome(), programs.path(suite.program)
    for cases in suite.cases:
        for folder in sorted(it for it in (TESTS / cases).iterdir() if it.is_dir()):
            if only and folder.name != only:
                continue
            wrong = wrong_with(suite, program, folder)
            if wrong is not None:
                outcome.add(
                    f"{suite.name}/{folder.name}",
                    wrong,
                    f"tests/run {suite.name}/{folder.name}",
                )
    return outcome
