"""The command line of tests/run."""

from __future__ import annotations

import argparse
import os
import sys
import time
from collections.abc import Callable, Sequence
from concurrent.futures import ThreadPoolExecutor
from pathlib import Path

from runner.cases import run_cases
from runner.commands import run_command
from runner.ending import Ended, end_all_at_signals, end_by
from runner.folders import run_folders
from runner.growths import run_growths
from runner.programs import Programs
from runner.rows import run_rows
from runner.suites import TOP, BadTable, Outcome, Suite, read_suites

RUNNERS: dict[str, Callable[[Suite, Programs, str], Outcome]] = {
    "cases": run_cases,
    "folders": run_folders,
    "rows": run_rows,
    "growths": run_growths,
    "command": run_command,
}


def named_path(word: str) -> tuple[str, Path]:
    """The two sides of NAME=PATH."""
    name, equals, path = word.partition("=")
    if not name or not equals:
        raise argparse.ArgumentTypeError(f"{word} is not NAME=PATH")
    return name, Path(path).resolve()


def words_of(words: Sequence[str]) -> argparse.Namespace:
    """What the command line asks for."""
    parser = argparse.ArgumentParser(
        prog="tests/run",
        description="Runs the tests over the programs that are built in this tree; over release/clear if clear is not built.",
    )
    parser.add_argument(
        "names",
        nargs="*",
        metavar="NAME",
        help="a suite, or SUITE/CASE; if there is none, all suites that need no proof",
    )
    parser.add_argument("--list", action="store_true", help="print the table of suites")
    parser.add_argument(
        "--jobs",
        type=int,
        default=os.cpu_count() or 1,
        metavar="N",
        help="suites at once, as many as processors if it is not given",
    )
    parser.add_argument(
        "--require-all",
        action="store_true",
        help="all suites, also those that prove something; a suite whose program is not built fails",
    )
    parser.add_argument(
        "--program",
        action="append",
        default=[],
        type=named_path,
        metavar="NAME=PATH",
        help="the program of that name",
    )
    parser.add_argument(
        "--proved",
        type=Path,
        default=TOP,
        metavar="TOP",
        help="the tree in which the libraries are proved",
    )
    return parser.parse_args(list(words))


def named(names: Sequence[str], suites: dict[str, Suite]) -> list[tuple[Suite, str]]:
    """The suites of these names, each with the case that is asked for."""
    pairs = [(name.partition("/")[0], name.partition("/")[2]) for name in names]
    unknown = [name for name, _ in pairs if name not in suites]
    if unknown:
        raise BadTable(f"no suite {', '.join(unknown)}: tests/run --list prints them")
    return [(suites[name], case) for name, case in pairs]


def leave_out(suites: list[Suite], programs: Programs) -> list[Suite]:
    """The suites that need no proof; prints which others are left out and why."""
    proving = [it.name for it in suites if it.proves]
    lacking: dict[str, list[str]] = {}
    left = []
    for suite in suites:
        missing = programs.missing(suite.program, suite.arguments)
        if missing and not suite.proves:
            lacking.setdefault(", ".join(missing), []).append(suite.name)
        elif not suite.proves:
            left.append(suite)
    if proving:
        print(f"left out, since they prove or compile with the kit: {' '.join(proving)}")
    for program, names in lacking.items():
        print(f"left out, since {program} is not built here: {' '.join(names)}")
    if proving or lacking:
        print(".ci/run proves and builds what they need, and runs them", flush=True)
    return left


def chosen(
    names: Sequence[str], suites: dict[str, Suite], programs: Programs, require_all: bool
) -> list[tuple[Suite, str]]:
    """The suites of these names, each with the case that is asked for. Without names: those that need no proof, or all if all are required;
    not those of programs that have to be given."""
    if names:
        return named(names, suites)
    known = [it for it in suites.values() if not it.program or programs.is_known(it.program)]
    return [(suite, "") for suite in (known if require_all else leave_out(known, programs))]


def run_suite(suite: Suite, case: str, programs: Programs, require_all: bool) -> tuple[Suite, Outcome | None]:
    """Runs a suite and prints how it ended; None if a program that it needs is not built."""
    missing = programs.missing(suite.program, suite.arguments)
    if missing and not require_all:
        print(f"{suite.name}: skipped, {', '.join(missing)} is not built", flush=True)
        return suite, None
    began = time.monotonic()
    if missing:
        outcome = Outcome(0, 1, [f"{suite.name}: {', '.join(missing)} is not built"])
    else:
        outcome = RUNNERS[suite.kind](suite, programs, case)
    if outcome.skipped:
        print(f"{suite.name}: skipped, {outcome.skipped}", flush=True)
        return suite, None
    if not outcome.passed and not outcome.failed:
        outcome = Outcome(0, 1, [f"{suite.name}: no case{' ' + case if case else ''}"])
    said = "".join(f"{line}\n" for line in outcome.said)
    seconds = time.monotonic() - began
    print(
        f"{said}{suite.name}: {outcome.passed} passed, {outcome.failed} failed, in {seconds:.1f} s",
        flush=True,
    )
    return suite, outcome


def run_all(asked: list[tuple[Suite, str]], programs: Programs, jobs: int, require_all: bool) -> int:
    """Runs the suites, those that have to be alone after the others, and prints the count of all. Returns the exit status."""
    beside = [it for it in asked if not it[0].alone]
    alone = [it for it in asked if it[0].alone]

    def run_one(one: tuple[Suite, str]) -> tuple[Suite, Outcome | None]:
        return run_suite(one[0], one[1], programs, require_all)

    with ThreadPoolExecutor(max(jobs, 1)) as pool:
        ended = list(pool.map(run_one, beside))
    ended += map(run_one, alone)
    outcomes = [outcome for _, outcome in ended if outcome]
    passed, failed = sum(it.passed for it in outcomes), sum(it.failed for it in outcomes)
    bad = [suite.name for suite, outcome in ended if outcome and outcome.failed]
    if bad:
        print(f"failed suites: {' '.join(bad)}")
    print(f"suites: {passed} passed, {failed} failed, {len(ended) - len(outcomes)} skipped")
    return 0 if passed and not failed else 1


def main(words: Sequence[str]) -> int:
    """Does what the command line asks for, and returns the exit status."""
    asked = words_of(words)
    try:
        suites = read_suites()
        if asked.list:
            width = max(map(len, suites))
            print("\n".join(f"{name:{width}}  {suite.shows}" for name, suite in suites.items()))
            return 0
        end_all_at_signals()
        programs = Programs(asked.proved.resolve(), dict(asked.program), not asked.require_all)
        of_clear = programs.of_clear() if not programs.missing("clear", ()) else ""
        if of_clear:
            print(of_clear, flush=True)
        suites_of = chosen(asked.names, suites, programs, asked.require_all)
        status = run_all(suites_of, programs, asked.jobs, asked.require_all)
        if status and of_clear:
            print(of_clear)
        return status
    except BadTable as error:
        print(f"tests/run: {error}", file=sys.stderr)
        return 2
    except Ended as ended:
        print("tests/run: ended by a signal", file=sys.stderr)
        end_by(ended)
        return 128 + ended.number
