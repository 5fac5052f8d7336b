"""The decks that `try-code` and `try-films` try, and the programs that they call."""

import glob
import os
import re
import subprocess
import sys

TOP = os.path.dirname(os.path.dirname(os.path.dirname(os.path.realpath(__file__))))
SIZES = (1400, 2000, 4000, 8000, 12000, 16000)
# What a source without a CTL card has.
DEFAULT = 4000


class Bench:
    """The programs, and a scratch folder."""

    def __init__(self, room):
        self.room = room
        self.paths = {name: os.environ.get(name.upper()) for name in ("workbench", "bureau")}
        if None in self.paths.values():
            if subprocess.run([f"{TOP}/build", *self.paths], stdout=subprocess.DEVNULL).returncode:
                sys.exit(3)
            self.paths = {name: f"{TOP}/crates/{name}/out/{name}" for name in self.paths}

    def call(self, program, *words, reads=""):
        """What a program says: its status, and what it prints on each output."""
        return subprocess.run([self.paths[program], *map(str, words)], input=reads, check=False,
                              stdout=subprocess.PIPE, stderr=subprocess.PIPE, text=True)

    def sources(self, folders):
        """The sources of the examples, of the course and of these folders: names and paths."""
        for path in sorted(glob.glob(f"{TOP}/examples/*.source")):
            yield os.path.relpath(path, TOP), path
        for path in sorted(glob.glob(f"{TOP}/course/*.text")):
            made = f"{self.room}/{os.path.basename(path)}.source"
            self.call("workbench", "punch", path, made, "--fold", "--tabs", "6,16,21,41")
            yield os.path.relpath(path, TOP), made
        for folder in folders:
            for path in sorted(glob.glob(f"{folder}/*.source")):
                yield path, path

    def decks(self, folders):
        """The decks of the sources without faults, and those in these folders that a machine reads,
        one size of storage after the other: names, paths, sizes, and the paths of the sources."""
        for name, source in self.sources(folders):
            deck = f"{self.room}/{os.path.basename(source)}.deck"
            if not self.call("bureau", "assemble", source, deck).returncode:
                yield name, deck, size_of(source), source
        paths = [it for folder in folders for it in sorted(glob.glob(f"{folder}/*.deck"))]
        for at, path in enumerate(paths):
            if not self.call("workbench", "dump", path, 16000, "A", "--after", 0).returncode:
                yield path, path, SIZES[at % len(SIZES)], None

    def brought(self, deck, size):
        """Where control is past 080 for the first time, and what stands from 081 on then."""
        steps = self.call("workbench", "console", deck, size, "A", reads="step 6000\n").stdout
        begun = [int(line[8:13]) for line in steps.split("\n") if re.match(" *[0-9]+ [0-9]{5} ", line)]
        count = next((at for at, place in enumerate(begun) if place > 80), None)
        if count is None:
            return None
        dump = self.call("workbench", "dump", deck, size, "A", "--after", count).stdout
        return begun[count], {at: cell for at, cell in cells_of(dump).items() if at > 80}


def size_of(source):
    """The size that a source says."""
    with open(source, encoding="ascii") as cards:
        digits = [card[20] for card in cards if card[5] != "*" and card[15:20] == "CTL  "]
    return SIZES[int(digits[0]) - 1] if digits else DEFAULT


def cells_of(dump):
    """The positions of a dump that are not blank or have a mark: a character and a mark each."""
    found, first = {}, None
    for line in dump.split("\n"):
        row = re.fullmatch(r"([0-9]{5})(?: (.{1,50}))?", line)
        if row:
            first = int(row[1])
            found.update({first + at: (sign, " ") for at, sign in enumerate(row[2] or "") if sign != " "})
        elif re.fullmatch(" {6}[ ']+", line):
            marks = [first + at for at, sign in enumerate(line[6:]) if sign == "'"]
            found.update({at: (found.get(at, " ")[0], "'") for at in marks})
    return found
