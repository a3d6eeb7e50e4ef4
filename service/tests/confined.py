"""confined.py COMMAND..: runs a command under the filters of service/deploy/clear.service, as systemd would set them.

These are SystemCallFilter, MemoryDenyWriteExecute, NoNewPrivileges and UMask; a denied call fails with EPERM.
"""

from __future__ import annotations

import ctypes
import errno
import os
import subprocess
import sys
from pathlib import Path

import seccomp

UNIT = Path(__file__).resolve().parents[1] / "deploy" / "clear.service"
PR_SET_NO_NEW_PRIVS = 38
WRITE, EXECUTE = 2, 4  # PROT_WRITE and PROT_EXEC
SHM_EXEC = 0o100000


def sets() -> dict[str, list[str]]:
    """The sets of system calls that systemd knows, each with calls and further sets."""
    words = ["systemd-analyze", "syscall-filter", "--no-pager"]
    found: dict[str, list[str]] = {}
    for line in subprocess.run(words, capture_output=True, text=True, check=True).stdout.splitlines():
        word = line.strip()
        if line.startswith("@"):
            found[word] = []
        elif line.startswith(" ") and not word.startswith("#") and found:
            found[list(found)[-1]].append(word)
    return found


def calls(known: dict[str, list[str]], name: str) -> set[str]:
    """The calls of a set."""
    members = known[name]
    return {each for each in members if each[0] != "@"}.union(
        *(calls(known, each) for each in members if each[0] == "@")
    )


def allowed(unit: str) -> set[str]:
    """The calls that the unit allows."""
    known = sets()
    found: set[str] = set()
    for line in unit.splitlines():
        if line.startswith("SystemCallFilter="):
            words = line.partition("=")[2]
            named = set().union(*(calls(known, word) for word in words.lstrip("~").split()))
            found = found - named if words.startswith("~") else found | named
    return found | calls(known, "@default")


def confine(unit: str) -> None:
    """Sets the filters of the unit for this process and its children."""
    assert "MemoryDenyWriteExecute=yes\n" in unit and "NoNewPrivileges=yes\n" in unit
    names = allowed(unit)
    made = seccomp.SyscallFilter(seccomp.ERRNO(errno.EPERM))
    for name in sorted(names - {"mmap", "mprotect", "pkey_mprotect", "shmat"}):
        try:
            made.add_rule(seccomp.ALLOW, name)
        except (RuntimeError, OSError):
            pass  # A call of another architecture or of a later kernel.
    made.add_rule(seccomp.ALLOW, "mmap", seccomp.Arg(2, seccomp.MASKED_EQ, EXECUTE, 0))
    made.add_rule(seccomp.ALLOW, "mmap", seccomp.Arg(2, seccomp.MASKED_EQ, WRITE | EXECUTE, EXECUTE))
    for name in ("mprotect", "pkey_mprotect"):
        made.add_rule(seccomp.ALLOW, name, seccomp.Arg(2, seccomp.MASKED_EQ, EXECUTE, 0))
    made.add_rule(seccomp.ALLOW, "shmat", seccomp.Arg(2, seccomp.MASKED_EQ, SHM_EXEC, 0))
    ctypes.CDLL(None).prctl(PR_SET_NO_NEW_PRIVS, 1, 0, 0, 0)
    made.load()


if __name__ == "__main__":
    text = UNIT.read_text()
    os.umask(0o077)
    confine(text)
    os.execvp(sys.argv[1], sys.argv[1:])
