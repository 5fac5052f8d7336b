"""What a release has for the trials of this folder: its archives and its packages."""

import glob
import os
import re
import subprocess
import tarfile


class Release:
    """A folder that make-release made."""

    def __init__(self, out):
        self.out = os.path.abspath(out)
        with open(f"{self.out}/MANIFEST", encoding="utf-8") as file:
            self.manifest = file.read()

    def archives(self):
        """The archives for people without root."""
        return sorted(glob.glob(f"{self.out}/puckersilt-*-linux-x86_64*.tar.gz"))

    def packages(self, names="*"):
        return sorted(glob.glob(f"{self.out}/puckersilt{names}_*.deb"))

    def level(self, archive):
        """The processor that an archive's programs are for, if MANIFEST says it."""
        name = re.escape(os.path.basename(archive))
        said = re.search(rf"^{name}: for (x86-64(?:-v\d)?);", self.manifest, re.M)
        return said and said[1]


def unpacked(archive, folder):
    """Unpacks an archive into a folder, and returns the folder that it has."""
    subprocess.run(["tar", "-xzf", archive, "-C", folder], check=True)
    with tarfile.open(archive) as tar:
        return f"{folder}/{tar.next().name.split('/')[0]}"


def later(packages, folder):
    """Packages of a later release: the same but for the version, and a byte in each program."""
    found = []
    for package in packages:
        room = f"{folder}/{os.path.basename(package)}.later"
        subprocess.run(["dpkg-deb", "--raw-extract", package, room], check=True)
        with open(f"{room}/DEBIAN/control", encoding="utf-8") as file:
            text = file.read()
        version = re.search(r"^Version: (.*)", text, re.M)[1]
        with open(f"{room}/DEBIAN/control", "w", encoding="utf-8") as file:
            for before, after in (("\nVersion: ", "\n"), ("(= ", ")")):
                text = text.replace(f"{before}{version}{after}", f"{before}{version}+later{after}")
            file.write(text)
        for program in glob.glob(f"{room}/usr/bin/puckersilt-*"):
            if not os.path.islink(program):
                with open(program, "ab") as file:
                    file.write(b"\n")
        found.append(f"{folder}/{os.path.basename(package)[:-4]}+later.deb")
        words = ["dpkg-deb", "-Zgzip", "--root-owner-group", "--build", room, found[-1]]
        subprocess.run(words, stdout=subprocess.DEVNULL, check=True)
    return found
