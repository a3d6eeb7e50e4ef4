"""What a case wants, and how what was written differs from it."""

from __future__ import annotations

import difflib
import os
from pathlib import Path

LONGEST = 300
MOST_LINES = 40


def differences(wanted: bytes, written: bytes, name: str) -> list[str]:
    """Nothing if both are the same; else a line that names the stream, and a diff."""
    if wanted == written:
        return []
    lines = difflib.unified_diff(
        wanted.decode(errors="replace").splitlines(),
        written.decode(errors="replace").splitlines(),
        "wanted",
        "written",
        lineterm="",
        n=1,
    )
    shown = [line[:LONGEST] for line in lines][2:][:MOST_LINES]
    return [
        f"{name} differs (- wanted, + written)",
        *(shown or ["only in its line ends"]),
    ]


def bytes_of(path: Path, otherwise: bytes = b"") -> bytes:
    """What the file has, or otherwise if there is none."""
    return path.read_bytes() if path.exists() else otherwise


def lines_of(path: Path) -> list[str]:
    """The lines of the file, or none if there is no file. Bytes that are no UTF-8 stay what they are in an argument."""
    text = bytes_of(path)
    return [os.fsdecode(line) for line in text.removesuffix(b"\n").split(b"\n")] if text else []


def status_of(folder: Path) -> int:
    """The exit status that the case wants: the number in `status`, or 0."""
    return int(bytes_of(folder / "status", b"0"))
