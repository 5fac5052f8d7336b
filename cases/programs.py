"""The three programs that the cases call.

BUREAU, OPERATOR and WORKBENCH in the environment are the programs, in place of `../bureau`,
`../operator` and `../workbench`. With UNPROVED they are the toolchain's checked builds, of which one
takes about a second for a call: a checker of many calls then tries only a sample, and says so.
"""

import os
import subprocess
from collections.abc import Sequence
from typing import TypeVar

T = TypeVar("T")
HERE = os.path.dirname(os.path.realpath(__file__))
TOP = os.path.dirname(HERE)
NAMES = ("bureau", "operator", "workbench")
UNPROVED = bool(os.environ.get("UNPROVED"))
# What the version of a checked build has in place of the logic.
CHECKED = "checked build, not proved on this machine; ./build proves it"


def path_of(name: str) -> str:
    """Returns the path of a program."""
    return os.path.abspath(os.environ.get(name.upper()) or f"{TOP}/{name}")


def build() -> bool:
    """Has the proved programs built that the environment does not name, if they are not built yet,
    and names them there. Returns whether they are built."""
    missing = [name for name in NAMES if not os.environ.get(name.upper())]
    for name in missing:
        os.environ[name.upper()] = f"{TOP}/crates/{name}/out/{name}"
    if not missing:
        return True
    ran = subprocess.run([f"{TOP}/build", *missing], stdout=subprocess.DEVNULL, check=False)
    return ran.returncode == 0


def within(seconds: float) -> float:
    """Returns how long a call may take at most: with UNPROVED ten times as long."""
    return seconds * 10 if UNPROVED else seconds


def leave_out(checker: str, what: str) -> None:
    """Prints what a checker leaves out, and why."""
    print(f"{checker}: left out: {what}: a checked build takes a second for a call", flush=True)


def sample(checker: str, items: Sequence[T], count: int, what: str) -> Sequence[T]:
    """Returns all items; with UNPROVED at most so many of them, evenly spread."""
    if not UNPROVED or len(items) <= count:
        return items
    leave_out(checker, f"{len(items) - count} of {len(items)} {what}")
    return [items[at * len(items) // count] for at in range(count)]
