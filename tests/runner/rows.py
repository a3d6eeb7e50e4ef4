"""Suites of rows: a table of runs of one command over one template.

A table is a folder with the files `cdr.json` and `rows`. In `rows` a line that begins with # is a comment, the first other line names the
columns, and each further line is a row; `|` is between two columns. The arguments are those of the suite and then the column `zone`. The
standard input is `cdr.json` with each @NAME@ replaced by the column NAME. The program has to write the column `amount` and a newline on
standard output and `stderr` and a newline on standard error (`\\n` in it is one too), and to end with the number in `status`; a column that
is not there means nothing and 0.
"""

from __future__ import annotations

import tempfile
from pathlib import Path

from runner.comparing import differences
from runner.programs import Programs, run
from runner.suites import TESTS, BadTable, Outcome, Suite


def rows_of(folder: Path) -> list[dict[str, str]]:
    """The rows of the table, each by the names of its columns."""
    lines = [line for line in (folder / "rows").read_text().splitlines() if not line.startswith("#")]
    columns = lines[0].split("|")
    rows = [line.split("|") for line in lines[1:]]
    odd = [row for row in rows if len(row) != len(columns)]
    if odd:
        raise BadTable(f"{folder.name}: {'|'.join(odd[0])}: other columns than {'|'.join(columns)}")
    return [dict(zip(columns, row)) for row in rows]


def line_of(row: dict[str, str], column: str) -> bytes:
    """The column with a newline, or nothing if the table lacks it."""
    text = row.get(column, "").replace("\\n", "\n")
    return f"{text}\n".encode() if column in row else b""


def wrong_with(suite: Suite, program: Path, template: str, row: dict[str, str]) -> list[str]:
    """What is wrong with the run of a row."""
    for column, value in row.items():
        template = template.replace(f"@{column}@", value)
    with tempfile.TemporaryDirectory() as room:
        given = Path(room) / "cdr.json"
        given.write_text(template)
        ran = run([str(program), *suite.arguments, row.get("zone", "")], Path(room), given)
    wrong = differences(line_of(row, "amount"), ran.output, "standard output")
    wrong += differences(line_of(row, "stderr"), ran.errors, "standard error")
    status = int(row.get("status", "0"))
    return wrong + ([f"exit status {ran.status}, not {status}"] if ran.status != status else [])


def run_rows(suite: Suite, programs: Programs, only: str) -> Outcome:
    """Runs all rows of the suite's tables, or of the table of that name."""
    outcome, program = Outcome(), programs.path(suite.program)
    for cases in suite.cases:
        for folder in sorted(it.parent for it in (TESTS / cases).glob("*/rows")):
            if only and folder.name != only:
                continue
            template = (folder / "cdr.json").read_text()
            for row in rows_of(folder):
                name = f"{suite.name}/{folder.name}: {'|'.join(row.values())}"
                outcome.add(
                    name,
                    wrong_with(suite, program, template, row),
                    f"tests/run {suite.name}/{folder.name}",
                )
    return outcome
