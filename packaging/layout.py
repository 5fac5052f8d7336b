"""What is in an archive, by name."""
import re

from programs import NAMES

# What of the repository, and what of that is not, since it wants the sources.
TOP = ("README.md", "CHANGELOG.md", "LICENSE-MIT", "LICENSE-APACHE")
FOLDERS = ("course/", "deploy/", "docs/", "examples/")
NOT = ("deploy/machine.py", "deploy/measure", "deploy/try", "examples/make")
# The documents that become pages for a browser.
PAGES = re.compile(r"(README|CHANGELOG|docs/[^/]+|docs/profile/[^/]+|course/[^/]+|"
                   r"(examples|deploy)/README)\.md")
MADE = ("MANIFEST", "COPYRIGHT", "README.first", "SHA256SUMS")


def is_shown(path):
    """Whether a file of the repository is in an archive."""
    return not path.startswith(NOT) and (path in TOP or path.startswith(FOLDERS))


def manual(name):
    return f"share/man/man1/{name}.1"


def completion(name):
    return f"share/bash-completion/completions/{name}"


def html(path):
    """Where the page of a document is."""
    return f"docs/html/{path[:-3]}.html"


def in_each():
    """What is made for each archive, without its HTML."""
    return {*MADE, *NAMES, *map(manual, NAMES), *map(completion, NAMES)}


def in_static():
    """What a static archive has besides."""
    return {"C-LIBRARY", "objects/link-static", *(f"objects/{it}.o" for it in NAMES)}
