"""Reads crates.txt: which crates the repository has, what each uses, and how long each is.

Called with names of crates, it prints the other crates: those that none of them uses.

Example: python3 tools/building/crates.py machine
"""
import argparse
import os
import sys

TOP = os.path.dirname(os.path.dirname(os.path.dirname(os.path.realpath(__file__))))


def read(top=TOP):
    """Each crate with its line of crates.txt, and the crates and libraries that this names."""
    lines = {}
    with open(f"{top}/crates.txt", encoding="utf-8") as file:
        for line in file:
            said = line.split("#")[0].strip()
            name, colon, names = said.partition(":")
            if colon:
                lines[name.split()[0]] = (said, names.split())
    return lines


class Crates:
    """The crates, each with the crates of the repository that it uses itself."""

    def __init__(self, top=TOP):
        self.top = top
        self.lines = read(top)
        self.uses = {it: [n for n in self.lines[it][1] if n in self.lines] for it in self.lines}

    def folder(self, name):
        return f"{self.top}/crates/{name}"

    def is_program(self, name):
        return os.path.isfile(f"{self.folder(name)}/src/main.rt")

    def below(self, name):
        """All crates that a crate uses, and those that these use in turn, lowest first."""
        found = []
        for one in self.uses[name]:
            found += [it for it in [*self.below(one), one] if it not in found]
        return found

    def length(self, name):
        """How many lines a crate has, code, definitions and proofs."""
        count = 0
        for part in ("src", "specs", "proofs"):
            for folder, _, files in os.walk(f"{self.folder(name)}/{part}"):
                for file in files:
                    with open(f"{folder}/{file}", "rb") as text:
                        count += sum(1 for line in text)
        return count

    def heights(self, names, compiling):
        """Of each crate the most lines in one chain of crates that use it: what waits for it. To
        compile a program counts as so many lines."""
        found = {}
        for name in reversed(names):
            users = [found[it] for it in names if name in self.uses[it]]
            found[name] = self.length(name) + compiling * self.is_program(name) + max(users, default=0)
        return found

    def lowest_first(self, names):
        """These crates and all that they use, lowest first."""
        return list(dict.fromkeys(it for name in names for it in [*self.below(name), name]))

    def others(self, names):
        """The crates that are neither among these nor used by them."""
        needed = {*self.lowest_first(names)}
        return [it for it in self.lines if it not in needed]


def main(words):
    parser = argparse.ArgumentParser(description=__doc__,
                                     formatter_class=argparse.RawDescriptionHelpFormatter)
    parser.add_argument("names", nargs="+", metavar="NAME", help="a crate")
    names, crates = parser.parse_args(words).names, Crates()
    for unknown in (it for it in names if it not in crates.lines):
        parser.error(f"crates.txt has no crate {unknown}")
    print("\n".join(crates.others(names)))


if __name__ == "__main__":
    main(sys.argv[1:])
