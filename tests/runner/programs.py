"""The programs that suites run, and how one is run."""

from __future__ import annotations

import contextlib
import os
import resource
import subprocess
from collections.abc import Iterator, Mapping, Sequence
from dataclasses import dataclass
from pathlib import Path

from runner.ending import Ending
from runner.suites import TOP

KILOBYTE = 1024
WRITTEN = os.O_WRONLY | os.O_CREAT | os.O_TRUNC


BUILT_HERE = ("clear", "checks", "batch_checks", "clear_by_rattle")
RELEASE = TOP / "release/clear"


def can_run(path: Path) -> bool:
    """Whether a program is there."""
    return os.access(path, os.X_OK) and path.is_file()


@dataclass(frozen=True)
class Programs:
    """Where each program is, by the name that the table has for it; the tree in which the libraries are proved; and whether the released
    program takes the place of one that is not built."""

    proved: Path
    given: Mapping[str, Path]
    takes_release: bool = False

    def is_known(self, name: str) -> bool:
        """Whether a program of that name is built in this tree, or was given by its path."""
        return name in BUILT_HERE or name in self.given

    def path(self, name: str) -> Path:
        """Where the program of that name is when it is built."""
        if name in self.given:
            return self.given[name]
        if name == "clear_by_rattle":
            return self.proved / "crates/clear_cli/out/clear_cli.by-rattle"
        if name == "batch_checks":
            return self.proved / "crates/batch_checks/out/batch_checks"
        crate = "clear_cli" if name == "clear" else name
        built = TOP / "crates" / crate / "out" / crate
        if name == "clear" and self.takes_release and not can_run(built):
            return RELEASE
        return built

    def of_clear(self) -> str:
        """Which program `clear` is, its version, and whether it was built of these sources."""
        path = self.path("clear")
        printed = run([str(path), "--version"], TOP).output.decode(errors="replace").strip()
        shown = path.relative_to(TOP) if path.is_relative_to(TOP) else path
        if "clear" in self.given:
            return f"clear is {shown}: {printed}"
        words = ["tools/release", "--is-of-this-tree"]
        if path != RELEASE:
            words = ["tools/build", "--is-built", "clear_cli"]
        is_of_these = run(words, TOP).status == 0
        sources = "these sources" if is_of_these else "other sources than these, so cases of these may fail"
        return f"clear is {shown}: {printed}, built of {sources}"

    def filled(self, word: str) -> str:
        """An argument with each {NAME} replaced by the path of that program, and {proved} by the tree."""
        if word == "{proved}":
            return str(self.proved)
        if word.startswith("{") and word.endswith("}"):
            return str(self.path(word[1:-1]))
        return word

    def missing(self, program: str, arguments: Sequence[str]) -> list[str]:
        """The programs that the suite names and that are not built."""
        named = [program] if program else []
        named += [
            it[1:-1] for it in arguments if it.startswith("{") and it.endswith("}") and it != "{proved}"
        ]
        return [it for it in named if not can_run(self.path(it))]


@dataclass(frozen=True)
class Ran:
    """What a program wrote, and how it ended."""

    output: bytes
    errors: bytes
    status: int


def limited(stack: int, memory: int) -> None:
    """Limits the stack and the memory of this process, in KB; 0 is no limit."""
    if stack:
        resource.setrlimit(
            resource.RLIMIT_STACK,
            (stack * KILOBYTE, resource.getrlimit(resource.RLIMIT_STACK)[1]),
        )
    if memory:
        resource.setrlimit(resource.RLIMIT_AS, (memory * KILOBYTE, memory * KILOBYTE))


@contextlib.contextmanager
def descriptor(path: Path, flags: int) -> Iterator[int]:
    """The file at the path, opened so; a folder too, which can be opened and not read."""
    number = os.open(path, flags, 0o644)
    try:
        yield number
    finally:
        os.close(number)


def run(
    words: Sequence[str],
    folder: Path,
    given: Path | None = None,
    limits: tuple[int, int] = (0, 0),
    environment: Mapping[str, str] | None = None,
    output_to: Path | None = None,
    errors_to: Path | None = None,
) -> Ran:
    """Runs a program in a folder with a file as standard input, and returns what it wrote; a stream that goes to a path gives nothing."""
    with contextlib.ExitStack() as opened:
        standard_input = opened.enter_context(descriptor(given or Path(os.devnull), os.O_RDONLY))
        output = opened.enter_context(descriptor(output_to, WRITTEN)) if output_to else subprocess.PIPE
        errors = opened.enter_context(descriptor(errors_to, WRITTEN)) if errors_to else subprocess.PIPE
        Ending.check()
        done = subprocess.run(
            list(words),
            cwd=folder,
            stdin=standard_input,
            stdout=output,
            stderr=errors,
            env={**os.environ, **environment} if environment else None,
            preexec_fn=(lambda: limited(*limits)) if any(limits) else None,
            check=False,
        )
    Ending.check()
    status = done.returncode if done.returncode >= 0 else 128 - done.returncode
    return Ran(done.stdout or b"", done.stderr or b"", status)
