"""The repository's files as a release has them: their names, bytes and modes, and the commit.

In a clone git lists them. In a folder that was unpacked of a source tarball each file is one, but
for what .gitignore names, and packaging/COMMIT says which commit they are: `git archive` and
make-release write it there.
"""
import fnmatch
import gzip
import io
import os
import re
import subprocess
import tarfile

COMMIT = "packaging/COMMIT"
SAID = re.compile(r"([0-9a-f]{40}) (\d+)( altered)?\n")


class Unfit(Exception):
    """What is there is not as it has to be for a release."""


def git(tree, *words):
    ran = subprocess.run(["git", "-C", tree, *words], stdin=subprocess.DEVNULL,
                         stdout=subprocess.PIPE, stderr=subprocess.DEVNULL, check=False)
    if ran.returncode:
        raise Unfit(f"git {words[0]} fails in {tree}")
    return os.fsdecode(ran.stdout)


def patterns(tree):
    """What .gitignore names: folders anywhere, and files of the top."""
    with open(f"{tree}/.gitignore", encoding="utf-8") as file:
        lines = [line.strip() for line in file if line.strip() and not line.startswith("#")]
    return ([it[:-1] for it in lines if it.endswith("/")] + ["__pycache__", ".git"],
            [it[1:] for it in lines if it.startswith("/")])


def walked(tree):
    """The files of a folder without git."""
    made, at_top = patterns(tree)
    for folder, folders, files in os.walk(tree):
        folders[:] = [it for it in folders if it not in made]
        for file in files:
            path = os.path.relpath(f"{folder}/{file}", tree)
            if "/" in path or not any(fnmatch.fnmatch(path, it) for it in at_top):
                yield path


class Sources:
    """The files of a tree, and their commit."""

    def __init__(self, tree):
        self.tree, self.has_git = tree, os.path.exists(f"{tree}/.git")
        found = ()
        if self.has_git:
            try:
                found = git(tree, "ls-files", "-coz", "--exclude-standard").split("\0")
            except (Unfit, OSError):
                # There is no git, or it does not like whose folder it is.
                self.has_git = False
        if not self.has_git:
            found = walked(tree)
        self.paths = sorted({it for it in found if it and os.path.isfile(f"{tree}/{it}")})
        self.commit, self.time, self.is_altered = self.look()

    def look(self):
        """The commit, its time, and whether the files differ from it, as far as that is known."""
        if self.has_git:
            try:
                commit, time = git(self.tree, "log", "-1", "--format=%H %ct").split()
            except Unfit:
                return "unknown", 0, True
            return commit, int(time), bool(git(self.tree, "status", "--porcelain"))
        with open(f"{self.tree}/{COMMIT}", encoding="utf-8") as file:
            said = SAID.fullmatch(file.read())
        return (said[1], int(said[2]), bool(said[3])) if said else ("unknown", 0, True)

    def read(self, path):
        if path == COMMIT and self.commit != "unknown":
            return f"{self.commit} {self.time}{' altered' * self.is_altered}\n".encode()
        with open(f"{self.tree}/{path}", "rb") as file:
            return file.read()

    def is_program(self, path):
        return bool(os.stat(f"{self.tree}/{path}").st_mode & 0o100)

    def member(self, path):
        """The bytes and the mode that a file has in a tarball."""
        return self.read(path), 0o755 if self.is_program(path) else 0o644


def packed(folder, members, time):
    """A compressed tar that has the same bytes each time: of each name its bytes and its mode."""
    out = io.BytesIO()
    with gzip.GzipFile("", "wb", 9, out, 0) as pressed:
        with tarfile.open(fileobj=pressed, mode="w", format=tarfile.GNU_FORMAT) as tar:
            for name in sorted(members):
                data, mode = members[name]
                it = tarfile.TarInfo(f"{folder}/{name}")
                it.size, it.mode, it.mtime = len(data), mode, time
                tar.addfile(it, io.BytesIO(data))
    return out.getvalue()
