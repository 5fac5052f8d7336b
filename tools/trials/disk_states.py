"""What a power cut may leave of a folder: the calls of a program on it, recorded by strace, and the
states of the disk that are made of them."""

import hashlib
import os
import re
import shutil
import subprocess

SECTOR = 512
# The calls that the model knows, and those that it would have to know if a program made them.
KNOWN = ("openat close lseek write pwrite64 ftruncate fsync fdatasync link linkat rename unlink "
         "unlinkat accept4 sendto").split()
OTHERS = ("open creat dup dup2 dup3 writev pwritev pwritev2 sendfile copy_file_range truncate "
          "fallocate sync_file_range renameat renameat2 symlink mkdir rmdir mmap").split()
LINE = re.compile(r"\d+ +(\w+)\((.*)\) += (-?\d+)")
NUMBER = re.compile(r"-?\d+")


def bytes_of(word):
    """The bytes of a text as `strace -xx` writes it."""
    return bytes.fromhex(word.strip('"').replace("\\x", ""))


class Record:
    """The events of one program, in order; a file is told by a number of its own:
    ("make", name, file), ("write", file, at, bytes), ("length", file, bytes), ("sync", file),
    ("sync names",), ("link", old, new), ("rename", old, new), ("unlink", name), ("say", bytes)."""

    def __init__(self, folder, names):
        self.folder, self.events = folder, []
        self.files = {name: number for number, name in enumerate(sorted(names))}
        self.made = len(self.files)
        # What each open number stands for, and where the next plain write goes.
        self.open, self.places = {1: "client"}, {}

    def name(self, word):
        """The name in the folder that a path has; None where it is elsewhere."""
        path = os.path.join(self.folder, bytes_of(word).decode())
        if os.path.dirname(path) == self.folder:
            return os.path.basename(path)
        return "." if path == self.folder else None

    def opens(self, words, number):
        name, flags = self.name(words[1]), words[2].split("|")
        self.open.pop(number, None)
        if name == ".":
            self.open[number] = "names"
        elif name is not None:
            if name not in self.files:
                self.files[name], self.made = self.made, self.made + 1
                self.events.append(("make", name, self.files[name]))
            elif "O_TRUNC" in flags:
                self.events.append(("length", self.files[name], 0))
            self.open[number], self.places[number] = self.files[name], 0

    def writes(self, call, words, count):
        number = int(NUMBER.match(words[0])[0])
        target = self.open.get(number)
        data = bytes_of(words[1])[:count]
        if target == "client":
            # Between two pieces of what is said nothing can be lost.
            if self.events and self.events[-1][0] == "say":
                data = self.events.pop()[1] + data
            self.events.append(("say", data))
        elif target is not None:
            at = int(words[3]) if call == "pwrite64" else self.places[number]
            if call == "write":
                self.places[number] += count
            self.events.append(("write", target, at, data))

    def renames(self, call, words):
        names = [self.name(word) for word in words if word.startswith('"')]
        if names == [None] * len(names):
            return
        self.events.append((call.removesuffix("at"), *names))
        if call.startswith("unlink"):
            del self.files[names[0]]
        elif call.startswith("link"):
            self.files[names[1]] = self.files[names[0]]
        else:
            self.files[names[1]] = self.files.pop(names[0])

    def take(self, call, words, result):
        """Takes a call that was done."""
        number = NUMBER.match(words[4 if call == "mmap" else 0])
        target = self.open.get(int(number[0])) if number else None
        if call in OTHERS:
            if target is not None or any(self.name(one) for one in words if one.startswith('"')):
                raise ValueError(f"the model does not know the call {call}")
        elif call == "openat":
            self.opens(words, result)
        elif call == "accept4":
            self.open[result] = "client"
        elif call == "close":
            self.open.pop(int(number[0]), None)
        elif call in ("write", "pwrite64", "sendto"):
            self.writes(call, words, result)
        elif call in ("link", "linkat", "rename", "unlink", "unlinkat"):
            self.renames(call, words)
        elif call == "lseek":
            self.places[int(number[0])] = result
        elif target is not None:
            name = "sync" if call != "ftruncate" else "length"
            self.events.append(("sync names",) if target == "names" else
                               (name, target) if name == "sync" else (name, target, int(words[1])))


def record(words, folder, during=None):
    """What a program does in a folder: its events, its status and what it wrote. `during` gets the
    process and does what the program needs of others."""
    files, log = Record(folder, os.listdir(folder)), f"{folder}.calls"
    traced = ["strace", "-f", "-xx", "-s", "99999999", "-o", log, "-e", "signal=none",
              "-e", "trace=" + ",".join(KNOWN + OTHERS), *words]
    with subprocess.Popen(traced, cwd=folder, stdin=subprocess.DEVNULL, stdout=subprocess.PIPE,
                          stderr=subprocess.PIPE, encoding="ascii") as process:
        if during:
            during(process)
        out, errors = process.communicate(timeout=300)
    with open(log, encoding="ascii") as lines:
        for line in lines:
            found = LINE.match(line)
            if "<unfinished" in line:
                raise ValueError("calls of two threads are mixed")
            if found and int(found[3]) >= 0:
                files.take(found[1], found[2].split(", "), int(found[3]))
    os.remove(log)
    return files.events, (process.returncode, out, errors)


def resize(data, length):
    """Cuts bytes off, or puts zeros behind."""
    del data[length:]
    data.extend(bytes(length - len(data)))


def pick(chance, density, count):
    """How many of so many changes are on the disk: all of them with this chance."""
    return count if chance.random() < density else chance.randrange(count) if count else 0


class File:
    """A file: what was synced, what the program sees, and what it changed between."""

    def __init__(self, data=b""):
        self.synced, self.now, self.changes = data, bytearray(data), []

    def change(self, at, data=None):
        """Writes bytes, or gives it a length."""
        if data is None:
            resize(self.now, at)
            self.changes.append((at, None, at))
            return
        if len(self.now) < at:
            resize(self.now, at)
        self.now[at : at + len(data)] = data
        # A change that reaches into several sectors is one for each, and the length comes last.
        start, end = at, at + len(data)
        while start < end:
            stop = min(end, (start // SECTOR + 1) * SECTOR)
            self.changes.append((start, data[start - at : stop - at], len(self.now)))
            start = stop

    def sync(self):
        self.synced, self.changes = bytes(self.now), []

    def left(self, lengths, kept):
        """The bytes, if of the lengths the first so many are on the disk, and of the changes of a
        sector those that `kept` says."""
        data, seen, length = bytearray(self.synced), {}, len(self.synced)
        for number, (at, piece, after) in enumerate(self.changes):
            if number < lengths:
                length = after
            if piece is None:
                if number < lengths:
                    resize(data, at)
                continue
            sector = at // SECTOR
            seen[sector] = seen.get(sector, 0) + 1
            if seen[sector] <= kept.get(sector, 0):
                if len(data) < at:
                    resize(data, at)
                data[at : at + len(piece)] = piece
        resize(data, length)
        return bytes(data)

    def sectors(self, changes):
        """How many changes each sector has."""
        counts = {}
        for at, piece, _ in changes:
            if piece is not None:
                counts[at // SECTOR] = counts.get(at // SECTOR, 0) + 1
        return counts

    def but_last(self):
        return self.left(len(self.changes) - 1, self.sectors(self.changes[:-1]))

    def by_lot(self, chance, density):
        counts = self.sectors(self.changes).items()
        kept = {sector: pick(chance, density, count) for sector, count in counts}
        return self.left(pick(chance, density, len(self.changes)), kept)


class Disk:
    """The files of a folder, their names, and what of these was not synced yet."""

    def __init__(self, before):
        # The numbers are those that a record gives.
        self.files = {number: File(before[name]) for number, name in enumerate(sorted(before))}
        self.names = {name: number for number, name in enumerate(sorted(before))}
        self.synced, self.changes, self.last = dict(self.names), [], None

    def rename(self, new, old, file):
        """A change of names: one comes, one goes, or both."""
        change_names(self.names, (new, old, file))
        self.changes.append((new, old, file))
        self.last = "names"

    def do(self, event):
        what, *words = event
        if what == "make":
            self.files[words[1]] = File()
            self.rename(words[0], None, words[1])
        elif what in ("write", "length"):
            self.files[words[0]].change(*words[1:])
            self.last = words[0]
        elif what == "sync":
            self.files[words[0]].sync()
        elif what == "sync names":
            self.synced, self.changes = dict(self.names), []
        elif what == "unlink":
            self.rename(None, words[0], None)
        elif what in ("link", "rename"):
            self.rename(words[1], words[0] if what == "rename" else None, self.names[words[0]])

    def changing(self, name):
        """Whether names, or another file than the one of this name, are not synced."""
        return bool(self.changes) or any(
            file.changes for number, file in self.files.items() if number != self.names.get(name))

    def named(self, changes):
        names = dict(self.synced)
        for change in changes:
            change_names(names, change)
        return names

    def left(self, how, chance):
        """Each name after a cut, with the file's number and bytes: "none", "all" or "but last" of
        what was not synced, or a "lot" of it."""
        density = chance.choice([0.05, 0.3, 0.5, 0.7, 0.95])
        changes = self.changes if how in ("all", "but last") else []
        if how == "but last" and self.last == "names":
            changes = changes[:-1]
        if how == "lot" and chance.random() < 0.5:
            changes = self.changes[: chance.randrange(len(self.changes) + 1)]
        elif how == "lot":
            changes = [one for one in self.changes if chance.random() < density]
        names, contents = self.named(changes), {}
        for number in sorted(set(names.values())):
            file = self.files[number]
            if how == "lot" and file.changes:
                contents[number] = file.by_lot(chance, density)
            elif how == "but last" and self.last == number and file.changes:
                contents[number] = file.but_last()
            else:
                contents[number] = file.synced if how == "none" else bytes(file.now)
        return {name: (number, contents[number]) for name, number in names.items()}


def change_names(names, change):
    new, old, file = change
    if old is not None:
        names.pop(old, None)
    if new is not None:
        names[new] = file


def moments(before, events, log, chance, most):
    """At which events the power is cut: at all, or so many by lot; more often those at which more
    than the log is not synced."""
    disk, weights = Disk(before), [1]
    for event in events:
        disk.do(event)
        weights.append(8 if disk.changing(log) else 1)
    if len(weights) <= most:
        return set(range(len(weights)))
    return {0, len(events), *chance.choices(range(len(weights)), weights, k=most)}


def mark_of(files):
    """A mark that two different states do not have."""
    return tuple((name, number, hashlib.sha1(data).digest())
                 for name, (number, data) in sorted(files.items()))


def lay(files, folder):
    """Makes a folder with these files; names of one file become links of each other."""
    shutil.rmtree(folder, ignore_errors=True)
    os.makedirs(folder)
    first = {}
    for name, (number, data) in files.items():
        if number in first:
            os.link(first[number], f"{folder}/{name}")
        else:
            first[number] = f"{folder}/{name}"
            with open(first[number], "wb") as file:
                file.write(data)


def cuts(before, events, log, chance, most, seen):
    """The different states that cuts leave: the number of events before, all bytes that were said
    to clients, and each name with the file's number and bytes. `seen` keeps the moment of each."""
    disk, said = Disk(before), b""
    chosen = moments(before, events, log, chance, most)
    for number in range(len(events) + 1):
        for how in ("none", "all", "but last", "lot", "lot", "lot") if number in chosen else ():
            files = disk.left(how, chance)
            mark = mark_of(files), said
            if mark not in seen:
                seen[mark] = number
                yield number, said, files
        if number < len(events):
            disk.do(events[number])
            said += events[number][1] if events[number][0] == "say" else b""
