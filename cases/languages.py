"""The two languages of the cases, and how a session is carried out. README.md describes both.

A session has calls of the programs, with what they read and print. Records are lines of a key and
a text.
"""

import os
import re
import subprocess

import programs

ESCAPE = re.compile(rb"\\(x[0-9a-f]{2}|[crntf]|\{(.*?)\*([0-9]+)\})")
LETTERS = {b"c": b"", b"r": b"\r", b"n": b"\n", b"t": b"\t", b"f": b"\f"}
CARD = re.compile(r"=(?:[*]([0-9]+))?(?: (.*))?")
INDENT = "    "
# In the place of a line: any lines. In that of a file's bytes: any bytes.
ANY = None
CHECKED = programs.CHECKED.encode()
VERSIONS = f"{programs.TOP}/crates/command_line/src/versions.rt"


def as_proved(data):
    """What a program has made, with the logic where a checked build has none."""
    if not programs.UNPROVED or CHECKED not in data:
        return data
    with open(VERSIONS, "rb") as file:
        return data.replace(CHECKED, re.search(rb"Rattle logic [0-9a-f]+", file.read())[0])


def spelled(found):
    """The bytes of what comes after a backslash."""
    if found[3]:
        return ESCAPE.sub(spelled, found[2]) * int(found[3])
    return LETTERS[found[1]] if found[1] in LETTERS else bytes.fromhex(found[1][1:].decode())


def bytes_of(text):
    """The bytes that a text spells."""
    return ESCAPE.sub(spelled, text.encode())


def line_of(text):
    """The bytes of a line, with its line feed unless `\\c` is at its end."""
    return bytes_of("" if text == "\\" else text) + (b"" if text.endswith("\\c") else b"\n")


def words_of(text):
    """The arguments of a call, in bytes."""
    return [b"" if word == "''" else bytes_of(word) for word in text.split()]


class Command:
    """A command of a session, and others with the same answer; what they read; what they print on
    each output, each line with its number; and their status."""

    def __init__(self, number, text):
        self.number, self.texts, self.status = number, [text], 0
        self.lines = []

    def take(self, text, number, blank=0):
        """Takes a line, which so many empty lines stand before."""
        card, status = CARD.fullmatch(text), re.fullmatch(r"\[([0-9]+)\]", text)
        if text.startswith("& "):
            self.texts.append(text[2:])
        elif card:
            cards = (bytes_of(card[2] or "").ljust(80) + b"\n") * int(card[1] or 1)
            self.lines.append((">", cards, number))
        elif status:
            self.status = int(status[1])
        elif text[:1] in (">", "!") and text[1:2] in ("", " "):
            self.lines.append((text[0], ANY if text == "! .." else line_of(text[2:]), number))
        else:
            if self.lines and self.lines[-1][0] == "":
                self.lines += [("", b"\n", number)] * blank
            self.lines.append(("", ANY if text == ".." else line_of(text), number))

    def reads(self):
        return b"".join(line for kind, line, _ in self.lines if kind == ">")

    def prints(self, kind=""):
        """The lines that must be printed on an output, each with its number."""
        return [(line, number) for mark, line, number in self.lines if mark == kind]


def numbered(lines):
    """The lines with their numbers. Those from `for A..B` to `end` come once for each number."""
    rest = list(enumerate(lines, 1))
    while rest:
        number, line = rest.pop(0)
        found = re.fullmatch(r"for ([0-9]+)\.\.([0-9]+)", line)
        if not found:
            yield number, line
            continue
        end = [text for _, text in rest].index("end")
        for count in range(int(found[1]), int(found[2]) + 1):
            yield from ((place, text.replace("\\#", str(count))) for place, text in rest[:end])
        del rest[:end + 1]


def sessions_of(path):
    """The sessions of a file, each a title and its commands. A line `## TITLE` begins one."""
    found, blank, is_inside = [("", [])], 0, False
    with open(path, encoding="utf-8", newline="\n") as file:
        lines = file.read().split("\n")
    for number, line in numbered(lines):
        if not line.strip():
            blank += is_inside
            continue
        if line.startswith("## "):
            found.append((line[3:], []))
        elif line.startswith(f"{INDENT}$ "):
            found[-1][1].append(Command(number, line[len(INDENT) + 2:]))
        elif line.startswith(INDENT):
            if not found[-1][1]:
                raise SystemExit(f"{path}:{number}: there is no command before this line")
            found[-1][1][-1].take(line[len(INDENT):], number, blank)
        blank, is_inside = 0, line.startswith(INDENT)
    return [(title, commands) for title, commands in found if commands]


def records_of(path):
    """The records of a file, each its lines: the number, the key, and the text behind a blank. An
    empty line ends a record; a line that begins with `#` is a remark."""
    found = [[]]
    with open(path, encoding="ascii", newline="\n") as file:
        for number, line in enumerate(file.read().split("\n"), 1):
            if not line:
                found.append([])
            elif line[0] != "#":
                key, _, text = line.partition(" ")
                found[-1].append((number, key, text))
    return [record for record in found if record]


def agree(wanted, got):
    """Whether lines are as they must be; ANY stands for any lines."""
    if ANY not in wanted:
        return wanted == got
    at = wanted.index(ANY)
    return got[:at] == wanted[:at] and any(agree(wanted[at + 1:], got[k:])
                                           for k in range(at, len(got) + 1))


def difference(wanted, got):
    """The number of the first line that is printed otherwise; 0 if there are none; None if all are
    printed."""
    if any(line is ANY for line, _ in wanted):
        same = agree([line for line, _ in wanted], re.findall(rb"[^\n]*\n|[^\n]+", got))
        return None if same else wanted[0][1]
    at = 0
    for line, number in wanted:
        if not got.startswith(line, at):
            return number
        at += len(line)
    return None if at == len(got) else wanted[-1][1] if wanted else 0


def files_in(room):
    """The files and links below a folder, by their names, each with its bytes or where it leads."""
    there = {}
    for folder, folders, names in os.walk(os.fsencode(room)):
        for name in names + folders:
            path = os.path.join(folder, name)
            if os.path.islink(path):
                there[os.path.relpath(path, os.fsencode(room))] = ("link", os.readlink(path))
            elif name in names:
                with open(path, "rb") as file:
                    there[os.path.relpath(path, os.fsencode(room))] = as_proved(file.read())
    return there


class Room:
    """An empty folder in which a session is carried out, and the files that must be in it. Calls
    `wrong` with the number of a line and what is not as expected there."""

    def __init__(self, folder, top, programs, wrong):
        self.folder, self.top, self.programs, self.wrong = f"{folder}/room", top, programs, wrong
        self.given = f"{folder}/given"
        self.known, self.called = {}, None
        os.mkdir(self.folder)

    def path(self, name):
        return os.path.join(os.fsencode(self.folder), name)

    def run(self, commands):
        """Carries out the commands, and looks at the folder after each call."""
        for command in commands:
            for text in command.texts:
                verb, _, rest = text.partition(" ")
                if verb not in ("holds", "there", "gone", "cards"):
                    self.look()
                if verb in self.programs:
                    self.call(command, self.programs[verb], words_of(rest))
                else:
                    getattr(self, f"do_{verb}")(command, rest)
        self.look()

    def look(self):
        """The folder must have the files that are known, after the call before."""
        if self.called is not None:
            there, known = files_in(self.folder), self.known
            for name in sorted({*there, *known}):
                if name not in there or name not in known or known[name] not in (there[name], ANY):
                    has = f"has {there[name]!r:.200}" if name in there else "is not there"
                    self.wrong(self.called, f"{os.fsdecode(name)} {has}")
        self.called = None

    def call(self, command, program, words):
        """Calls a program. The argument `@` is a file of what the command reads; without one it is
        the standard input."""
        reads = command.reads()
        how = {"input": reads} if reads and b"@" not in words else {"stdin": subprocess.DEVNULL}
        if b"@" in words:
            with open(self.given, "wb") as file:
                file.write(reads)
            words = [os.fsencode(self.given) if word == b"@" else word for word in words]
        ran = subprocess.run([program, *words], cwd=self.folder, capture_output=True,
                             timeout=programs.within(60), check=False, **how)
        self.compare(command, as_proved(ran.stdout), ran.stderr, ran.returncode)
        self.called = command.number

    def compare(self, command, output, errors=b"", status=0):
        """What a command has printed, and its status, must be as they are given."""
        for kind, got in (("", output), ("!", errors)):
            number = difference(command.prints(kind), got)
            if number is not None:
                on = "on standard error " if kind else ""
                self.wrong(number or command.number, f"it printed {on}{got!r:.400}")
        if status != command.status:
            self.wrong(command.number, f"it ended with {status}")

    def content(self, command, rest):
        """The name of a file, and its bytes: those of a file of the repository, or what is read."""
        name, *source = rest.split(" ")
        if not source:
            return bytes_of(name), command.reads()
        with open(f"{self.top}/{source[0]}", "rb") as file:
            return bytes_of(name), file.read()

    def make(self, name, data):
        os.makedirs(os.path.dirname(self.path(name)), exist_ok=True)
        self.known[name] = data

    def do_file(self, command, rest):
        """Makes a file."""
        name, data = self.content(command, rest)
        self.make(name, data)
        with open(self.path(name), "wb") as file:
            file.write(data)

    def do_link(self, _, rest):
        """Makes a link that leads to another name."""
        name, target = map(bytes_of, rest.split(" "))
        self.make(name, ("link", target))
        os.symlink(target, self.path(name))

    def do_folder(self, _, rest):
        """Makes an empty folder."""
        os.makedirs(self.path(bytes_of(rest)))

    def do_holds(self, command, rest):
        """The call has left a file with these bytes."""
        name, data = self.content(command, rest)
        self.known[name] = data

    def do_there(self, _, rest):
        """The call has left a file with any bytes."""
        self.known[bytes_of(rest)] = ANY

    def do_gone(self, _, rest):
        """The call has left no such file."""
        self.known.pop(bytes_of(rest), None)

    def do_cards(self, command, rest):
        """Prints how many cards a file has that the call has left, and takes it away."""
        path = self.path(bytes_of(rest))
        size = os.path.getsize(path) if os.path.isfile(path) else 0
        self.compare(command, f"{size / 81:g}\n".encode())
        if size:
            os.remove(path)
