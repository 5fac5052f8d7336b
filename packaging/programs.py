"""The three programs of a release: what they say of themselves, and what can be seen in them."""
import hashlib
import os
import re
import subprocess

from sources import Unfit

NAMES = ("bureau", "operator", "workbench")
FIRST = re.compile(r"(\w+) (\d+\.\d+\.\d+) \(files of version (\d+)\)(?:[,;:] .*)?")
# What `--version` says of its proof: of a proved program, and of a checked build.
PROVED = re.compile(r"Rattle logic [0-9a-f]{16}")
CHECKED = "checked build, not proved"
# What MANIFEST says of all programs of a release, in a line `state`.
STATES = {True: "proved", False: "not proved, for a trial"}
ONLY = "a release contains proved programs only; ./build bureau operator workbench makes them"
# Of what a program says, and then ends, on a processor that it was not built for: "this machine
# lacks a feature of x86-64-v2, which this program was built for". The compiler cuts the sentence
# into words of its own. One for any processor does not say it.
LACKS = re.compile(rb"(x86-64-v\d), which")


def asked(program, *words):
    """What a program prints, with nothing of the caller's surroundings."""
    ran = subprocess.run([program, *words], stdin=subprocess.DEVNULL, stdout=subprocess.PIPE,
                         env={"PATH": "/usr/bin:/bin"}, check=False)
    if ran.returncode:
        raise Unfit(f"{program} {' '.join(words)} ends with status {ran.returncode}")
    return ran.stdout.decode("ascii")


def digest(data):
    return hashlib.sha256(data).hexdigest()


def stated(manifest):
    """Returns whether a manifest says that the programs are proved, or None if it does not say it
    in one line."""
    said = re.findall(r"^state\b.*$", manifest, re.M)
    found = [it for it, state in STATES.items() if said == [f"state      {state}"]]
    return found[0] if found else None


class Program:
    """One of them."""

    def __init__(self, folder, name):
        self.name, self.path = name, f"{folder}/{name}"
        if not os.access(self.path, os.X_OK):
            raise Unfit(f"{self.path} is not there, or is no program")
        with open(self.path, "rb") as file:
            self.data = file.read()
        self.lines = asked(self.path, "--version").splitlines()
        said = FIRST.fullmatch(self.lines[0] if self.lines else "")
        if not said or said[1] != name:
            raise Unfit(f"{self.path} --version does not begin with a line like "
                        f"`{name} 1.0.0 (files of version 4)`")
        self.version, self.file_version = said[2], said[3]
        is_checked = CHECKED in "\n".join(self.lines).lower()
        self.is_proved = not is_checked and any(map(PROVED.fullmatch, self.lines[1:]))
        found = LACKS.search(self.data)
        # A checked build does not look at its processor.
        self.level = "not known"
        if found or self.is_proved:
            self.level = found[1].decode() if found else "x86-64"

    def digest(self):
        return digest(self.data)


def programs(folder):
    """The three of a folder, which are of one build."""
    found = [Program(folder, name) for name in NAMES]
    unproved = [it.name for it in found if not it.is_proved]
    if len(unproved) not in (0, len(found)):
        raise Unfit(f"in {folder} not proved: {', '.join(unproved)}; {ONLY}")
    for what in ("version", "file_version", "level"):
        if len({getattr(it, what) for it in found}) != 1:
            raise Unfit(f"the programs in {folder} are not of one {what.replace('_', ' ')}")
    if len({tuple(it.lines[1:]) for it in found}) != 1:
        raise Unfit(f"the programs in {folder} do not say the same of their proof")
    return found
