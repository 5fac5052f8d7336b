"""What a program's own help says, for the manual page and the completion that are made of it."""
import re

from programs import asked

ROW = re.compile(r"  ([a-z]+) \S")


def subcommands(text):
    """The subcommands of a help, in its order: the paragraph behind `usage:` lists them."""
    parts = text.split("\n\n")
    at = next(at for at, part in enumerate(parts) if part.startswith("usage: "))
    found = (ROW.match(line) for line in parts[at + 1].split("\n"))
    return list(dict.fromkeys(it[1] for it in found if it))


def calls(program, name):
    """How a subcommand is called, in each form that its help's first paragraph shows, and the
    rest of the help."""
    text = asked(program, name, "--help")
    first, _, rest = text.partition("\n\n")
    call, colon, does = re.sub(r"\s+", " ", first).partition(": ")
    if not colon:
        raise ValueError(f"{name} --help does not begin with a call and a colon")
    return call, does, rest
