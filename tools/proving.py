"""What proves one crate, or has it compile, over libraries that are proved in some tree: for the tests that do so beside `rt ci`."""
import re
import sys
from importlib.machinery import SourceFileLoader
from pathlib import Path
from types import ModuleType

sys.dont_write_bytecode = True
TOP = Path(__file__).resolve().parent.parent
VERDICT = re.compile(
    r"logic=proved functions=\d+( axioms=\d+)? target=\S+ cpu=\S+( threads=\S+)?( main=(?P<handles>\S+))?( may-wait=(?P<may_wait>\d+))?"
    r" sum=\S+ native=\S+( [a-z-]+=trusted)+"
)
WARNING = re.compile(r"^(\S+ )?warning: ", re.MULTILINE)
NONE_EMPTY = "empty contracts: 0 found; "


def loaded() -> ModuleType:
    """tools/wrong_bodies, whose `Prover` knows the words of a check."""
    loader = SourceFileLoader("wrong_bodies", str(TOP / "tools/wrong_bodies"))
    module = ModuleType("wrong_bodies")
    module.__file__ = loader.path
    loader.exec_module(module)
    return module


def linking(kit: Path, compiled: str, program: str) -> list[str]:
    """The words that link what a build compiled of a program."""
    words = [f"{kit}/bin/rattle-link", "--target", "x86_64-unknown-linux-gnu"]
    words += ["--toolchain", f"{kit}/toolchain", "-o", program, compiled]
    return [*words, f"{kit}/c/libos_c.a", f"{kit}/c/liblibc_c.a"]


def handles() -> set[str]:
    """The handles that programs of this repository may take."""
    return set(re.findall(r"\w+", (TOP / "HANDLES").read_text().partition(":")[2]))


def waiting(name: str) -> str | None:
    """How many functions of the crate may wait, as crates.txt says."""
    found = re.search(rf"^{name}\b[^:\n]* may_wait=(\d+)", (TOP / "crates.txt").read_text(), re.MULTILINE)
    return found[1] if found else None


def is_proved(name: str, status: int, said: str) -> bool:
    """Whether a build of the crate that ended so and said this proved it as `rt ci` asks for: with nothing to warn
    of, no word more in the verdict, the handles of the repository and no others, and as many functions that may wait
    as crates.txt says."""
    verdict = VERDICT.fullmatch(said.rstrip("\n").split("\n")[-1])
    if status != 0 or not verdict or NONE_EMPTY not in said or WARNING.search(said):
        return False
    taken = set((verdict["handles"] or "").split("+")) - {""}
    return taken <= handles() and verdict["may_wait"] == waiting(name)
