"""Suites of runs: a folder each, of which `clear run` answers files.

The program runs in a copy of the folder with the configuration `config.json`, the folder `out` and the files that `files` names, one a
line; for a script `NAME.sh` the copy has what it writes as NAME. `out` is empty but for the links that `links` names, each with its
target after a space, or the file or folder of that name in the case. The program has to write `printed` on standard output and `stderr` on
standard error, and to end with the number in `status`. `out` has to hold the files of `wanted`, and those that `lines` names, each with so many
lines, or any number for a hyphen; no others. With `args`, one a line, these are the arguments in place of `run config.json out FILE..`. Standard
input is the path in `input_from`, or nothing.
"""

from __future__ import annotations

import shutil
import tempfile
from pathlib import Path

from runner.cases import made_by, path_in
from runner.comparing import bytes_of, differences, lines_of, status_of
from runner.programs import Programs, run
from runner.suites import TESTS, Outcome, Suite


def prepared(folder: Path, case: Path) -> None:
    """Copies the case and makes what its scripts write, `out` and the links in it."""
    shutil.copytree(folder, case, symlinks=True)
    for script in sorted(case.glob("*.sh")):
        made_by(script, script.with_suffix(""))
    if not (case / "out").exists():
        (case / "out").mkdir()
    for line in bytes_of(case / "links").decode().splitlines():
        name, target = line.split(" ", 1)
        (case / "out" / name).symlink_to(target)


def line_counts(case: Path) -> dict[str, str]:
    """The files of which the case wants a number of lines, each with that number or a hyphen."""
    rows = (line.split(" ", 1) for line in bytes_of(case / "lines").decode().splitlines())
    return {name: count for name, count in rows}


def wrong_with_out(case: Path) -> list[str]:
    """How the folder `out` differs from what the case wants."""
    out, wanted, counts = case / "out", case / "wanted", line_counts(case)
    if not out.is_dir():
        return []
    named = sorted([it.name for it in wanted.iterdir()] if wanted.is_dir() else [])
    names = sorted([*named, *counts])
    wrong = differences(
        "\n".join(names).encode(),
        "\n".join(sorted(it.name for it in out.iterdir())).encode(),
        "out",
    )
    for name in named:
        wrong += differences((wanted / name).read_bytes(), bytes_of(out / name), name)
    for name, count in counts.items():
        if count == "-":
            continue
        lines = bytes_of(out / name).count(b"\n")
        if lines != int(count):
            wrong.append(f"{name} has {lines} lines, not {count}")
    return wrong


def wrong_with(suite: Suite, program: Path, folder: Path) -> list[str]:
    """What is wrong with a run of the case."""
    with tempfile.TemporaryDirectory() as room:
        case = Path(room) / "case"
        prepared(folder, case)
        files = lines_of(case / "files")
        words = lines_of(case / "args") or [
            "run",
            "config.json",
            "out",
            *files,
        ]
        given = path_in(case, "input_from")
        ran = run([str(program), *words], case, given, (suite.stack, suite.memory))
        wrong = differences(bytes_of(case / "printed"), ran.output, "standard output")
        wrong += differences(bytes_of(case / "stderr"), ran.errors, "standard error")
        if ran.status != status_of(case):
            wrong.append(f"exit status {ran.status}, not {status_of(case)}")
        return wrong + wrong_with_out(case)


def run_folders(suite: Suite, programs: Programs, only: str) -> Outcome:
    """Runs all cases of the suite's folders, or the one of that name."""
    outcome, program = Outcome(), programs.path(suite.program)
    for cases in suite.cases:
        for folder in sorted(it for it in (TESTS / cases).iterdir() if it.is_dir()):
            if not only or folder.name == only:
                outcome.add(
                    f"{suite.name}/{folder.name}",
                    wrong_with(suite, program, folder),
                    f"tests/run {suite.name}/{folder.name}",
                )
    return outcome
