"""Bureaus' files with their logs, altered by lot, and what is promised of each alteration."""

import random
import sqlite3
import struct
from contextlib import closing, suppress

from disk_states import lay

# The bytes of a log's head, of a frame's head and of a sector; the byte that is written last of a
# commit, from its beginning on.
HEAD, FRAME, SECTOR, GATE = 32, 24, 512, 8
NUMBERS = [0, 1, 2, 3, 5, 13, 100, 255, 512, 4095, 4096, 4097, 65535, 65536, 2**31, 2**32 - 1]
VALUES = [0, 1, 2, 3, 9, 80, 16000, 2**31, 2**32, 2**63 - 1, -2**63, -1, 1.5, None, "", "ACME",
          "ACME\n", "../../x", "..", "\x1b[31m", "\u00c4", "ABCDEFGHIJKLM", b"", b"x" * 79,
          b"x" * 80, b"\x7f" * 100, b"\xff" * 100, bytes(132), bytes(160080)]
STATEMENTS = {
    "SQL rows": [
        "UPDATE {table} SET {column} = ?",
        "UPDATE {table} SET {column} = ? WHERE rowid = (SELECT max(rowid) FROM {table})",
        "UPDATE OR REPLACE {table} SET {column} = ? WHERE rowid % 2",
        "DELETE FROM {table}", "DELETE FROM {table} WHERE rowid % 3 = 1",
        "INSERT OR REPLACE INTO {table} SELECT * FROM {table} LIMIT 3",
        "UPDATE {table} SET rowid = rowid + 1000000",
        "UPDATE bureau SET version = ?", "UPDATE pages SET page = page + 1",
        "UPDATE stretches SET granted = 20000000 WHERE rowid = 1",
        "UPDATE states SET taken = 2, cards = 0 WHERE rowid = 1",
    ],
    "SQL schema": [
        "DROP TABLE {table}", "CREATE VIEW v AS SELECT * FROM {table}",
        "CREATE TRIGGER g AFTER UPDATE ON {table} BEGIN DELETE FROM jobs; END",
        "ALTER TABLE {table} RENAME TO other", "ALTER TABLE {table} RENAME {column} TO other",
        "ALTER TABLE {table} ADD COLUMN extra INTEGER DEFAULT 5",
        "CREATE INDEX i ON {table} ({column})", "CREATE TABLE other (a)",
        "CREATE TABLE many AS WITH RECURSIVE r(n) AS (SELECT 1 UNION ALL SELECT n + 1 FROM r "
        "LIMIT 20000) SELECT n FROM r",
        "UPDATE sqlite_schema SET rootpage = ? WHERE name = '{table}'",
        "UPDATE sqlite_schema SET type = 'view' WHERE name = '{table}'",
        "UPDATE sqlite_schema SET name = 'other' WHERE name = '{table}'",
        "DELETE FROM sqlite_schema WHERE name = '{table}'",
    ],
    "SQL texts": ["UPDATE sqlite_schema SET sql = ? WHERE name = '{table}'"],
    "SQL long texts": ["UPDATE sqlite_schema SET sql = ? WHERE name = '{table}'"],
    "SQL large rows": [
        "UPDATE {table} SET {column} = zeroblob(5000000) WHERE rowid = 1",
        "UPDATE jobs SET deck = zeroblob(5000000) WHERE rowid = 1",
        "UPDATE jobs SET customer = printf('%.*c', 1000000, 'A') WHERE rowid = 1",
        "UPDATE pages SET storage = zeroblob(5000000) WHERE rowid = 1",
        "UPDATE lines SET image = zeroblob(5000000) WHERE rowid = 1",
        "CREATE TABLE blobs AS SELECT zeroblob(5000000) AS b",
        "INSERT INTO {table} ({column}) VALUES (zeroblob(5000000))",
    ],
    "SQL settings": [
        "PRAGMA page_size = {size}", "PRAGMA auto_vacuum = 1", "PRAGMA auto_vacuum = 2",
        "PRAGMA journal_mode = delete", "PRAGMA journal_mode = wal",
        "PRAGMA journal_mode = persist",
        "PRAGMA user_version = 77", "PRAGMA application_id = 77", "REINDEX", "ANALYZE",
        "PRAGMA encoding = 'UTF-16'",
    ],
}
TEXTS = {
    "SQL texts": [
        "", "x", "\0", "CREATE TABLE", "CREATE TABLE {0}", "CREATE TABLE {0} ()",
        "CREATE TABLE t AS SELECT 1", "CREATE VIRTUAL TABLE {0} USING fts5(a)",
        "CREATE TABLE {0} (id INTEGER PRIMARY KEY, version INTEGER) STRICT",
        "CREATE TABLE {0} (a GENERATED ALWAYS AS (a) STORED)",
        "CREATE TABLE {0} (customer TEXT COLLATE other, number INTEGER)",
        "CREATE VIEW {0} AS WITH RECURSIVE r(n) AS (SELECT 1 UNION ALL SELECT n + 1 FROM r) "
        "SELECT n AS id, 4 AS version FROM r",
        "CREATE TABLE {0} (" + ", ".join(f"c{number} INTEGER" for number in range(2000)) + ")",
    ],
    "SQL long texts": [
        "CREATE TABLE {0} (a CHECK (" + "NOT " * 3000 + "1))",
        "CREATE TABLE {0} (a CHECK (" + "(" * 2000 + "1" + ")" * 2000 + "))",
        "CREATE TABLE {0} (a DEFAULT (" + "-" * 4000 + "1))",
        "CREATE TABLE {0} (a DEFAULT (" + "- " * 4000 + "1))",
        "CREATE TABLE {0} (a CHECK (" + "1 + " * 20000 + "1))",
        "CREATE TABLE {0} (a CHECK (" + "CASE WHEN 1 THEN " * 2000 + "1" + " END" * 2000 + "))",
        "CREATE TABLE " + "(" * 5000, "CREATE TABLE {0} (a) " + "/*" * 50000,
        "CREATE TABLE '" + "a" * 100000 + "' (a)", "CREATE TABLE {0} (a, " + "b " * 50000 + ")",
        "CREATE TABLE {0} (" + ", ".join(f"c{number}" for number in range(30000)) + ")",
        "CREATE TABLE {0} (a" + ", UNIQUE (a)" * 5000 + ")",
    ],
}


class Log:
    """A log as a killed program left it: its commits, and the pages that they have."""

    def __init__(self, data):
        self.data, self.size = data, int.from_bytes(data[8:12], "big")
        self.step, self.commits, self.pages = FRAME + self.size, [], set()
        found, first, at, before = set(), HEAD, HEAD, sum_of(data[:FRAME])
        while at + self.step <= len(data):
            before = sum_of(data[at + FRAME : at + self.step], sum_of(data[at : at + 8], before))
            if data[at + 8 : at + 16] != data[16:24] or data[at + 16 : at + 24] != packed(before):
                break
            found.add(int.from_bytes(data[at : at + 4], "big"))
            at += self.step
            if any(data[at - self.step + 4 : at - self.step + 8]):
                self.commits.append((first, at))
                self.pages |= found
                first = at
        self.end = self.commits[-1][1] if self.commits else HEAD

    def before(self, at):
        """How many commits end before a byte, and where the first frame of the next one is."""
        count = sum(end <= at for _, end in self.commits)
        return count, self.commits[count][0] if at >= HEAD else HEAD


def sum_of(data, before=(0, 0)):
    """SQLite's sum of the bytes of a log."""
    one, two = before
    words = struct.unpack(f"<{len(data) // 4}I", data)
    for first, second in zip(words[::2], words[1::2]):
        one = (one + first + two) & 0xFFFFFFFF
        two = (two + second + one) & 0xFFFFFFFF
    return one, two


def packed(found):
    return struct.pack(">2I", *found)


def with_sums(data, size, end):
    """A log with right sums in its head, and in each frame up to this end."""
    data = bytearray(data)
    before = sum_of(data[:FRAME])
    data[FRAME:HEAD] = packed(before)
    for at in range(HEAD, end, FRAME + size):
        data[at + 8 : at + 16] = data[16:24]
        before = sum_of(data[at + FRAME : at + FRAME + size], sum_of(data[at : at + 8], before))
        data[at + 16 : at + 24] = packed(before)
    return data


def differing(old, new):
    """Where two files differ, as far as the shorter one goes."""
    length = min(len(old), len(new))
    for start in range(0, length, SECTOR):
        end = min(start + SECTOR, length)
        if old[start:end] != new[start:end]:
            yield from (at for at in range(start, end) if old[at] != new[at])


def gaps_of(data, size):
    """For each page of a tree where the bytes are that hold nothing, between places and rows."""
    found = {}
    for number in range(len(data) // size):
        page, head = data[number * size : (number + 1) * size], 100 if number == 0 else 0
        if page[head] in (2, 5, 10, 13):
            cells = int.from_bytes(page[head + 3 : head + 5], "big")
            start = head + (12 if page[head] in (2, 5) else 8) + 2 * cells
            end = int.from_bytes(page[head + 5 : head + 7], "big") or 65536
            if start < end <= size:
                found[number] = range(number * size + start, number * size + end)
    return found


class Base:
    """A bureau's file as use has left it, the rows of a twin at the beginning and after each
    command that wrote, and the customers and numbers of jobs."""

    def __init__(self, name, files, states, jobs, version=4):
        self.name, self.db, self.states, self.version = name, files["f"], states, version
        self.is_large = "large" in name or version != 4
        self.log = Log(files["f-wal"]) if "f-wal" in files else None
        self.jobs = list(jobs) or [("ACME", 1)]
        self.size = int.from_bytes(self.db[16:18], "big")
        self.gaps = gaps_of(self.db, self.size)
        if self.log and not 0 < len(self.log.commits) < len(states):
            raise ValueError(f"the log of {name} has {len(self.log.commits)} commits, and there "
                             f"were {len(states) - 1}")

    def files(self):
        return {"f": self.db} | ({"f-wal": self.log.data} if self.log else {})

    def has(self, kind):
        """Whether it has what is to be altered."""
        return self.log is not None or not kind.startswith(("log", "both", "FILE covered"))

    def is_idle(self, at):
        """Whether a byte of FILE does not count."""
        number = at // self.size
        if self.log and number + 1 in self.log.pages and at >= 100:
            return True
        return at in self.gaps.get(number, ())

    def state(self, commits):
        """The rows after so many commits of the log."""
        return self.states[len(self.states) - 1 - len(self.log.commits) + commits]

    def promise(self, files):
        """What is promised of altered files: `all` that the unaltered do, that they are `told` as
        altered, rows after so many commits or else to be told (`either`), or `nothing`."""
        if len(files["f"]) != len(self.db) or not all(
                map(self.is_idle, differing(self.db, files["f"]))):
            return "nothing", None
        if not self.log:
            return ("nothing" if "f-wal" in files else "all"), self.states[-1]
        log = files.get("f-wal", b"")
        at = next(differing(self.log.data, log), min(len(log), len(self.log.data)))
        if at >= self.log.end:
            gate = log[self.log.end + GATE : self.log.end + GATE + 1]
            return "either" if gate == log[16:17] else "all", self.states[-1]
        return self.promise_at(log, at)

    def promise_at(self, log, at):
        """The same of a log whose live bytes are altered from this one on."""
        count, first = self.log.before(at)
        either = "either", self.state(count)
        if len(log) <= at or len(log) < first + self.log.step:
            return either
        if at < HEAD:
            return either if log[0] != self.log.data[0] else (
                "nothing" if packed(sum_of(log[:FRAME])) == log[FRAME:HEAD] else "told", None)
        if log[first + GATE] != self.log.data[first + GATE]:
            return either
        # The last commit may never have been whole.
        return ("told", None) if is_followed(log, first, self.log.step) else either


def is_followed(log, at, step):
    """Whether the first commit that ends behind a place is followed by a frame."""
    salt = log[16:24]
    while at + 2 * step <= len(log):
        if log[at + 8:at + 16] == salt and log[at + 4:at + 8] != bytes(4):
            return log[at + step + 8:at + step + 16] == salt
        at += step
    return False


class Lot:
    """The alterations of one case, by lot."""

    def __init__(self, chance, base, others, folder):
        self.chance, self.base, self.others, self.folder = chance, base, others, folder

    def altered(self, kind):
        """The files of the base, altered so; and whether by more than bytes that are told."""
        files = {name: bytearray(data) for name, data in self.base.files().items()}
        if kind in STATEMENTS:
            return self.by_sql(files, kind), True
        part, _, what = kind.partition(" ")
        for name in {"FILE": ["f"], "log": ["f-wal"], "both": ["f", "f-wal"]}[part]:
            change = what if part != "both" else self.chance.choice(list(BYTES))
            if change == "removed":
                del files[name]
            elif change in BYTES:
                BYTES[change](self, files[name], name == "f-wal")
            else:
                files[name] = SPECIAL[kind](self, files[name])
        files = {name: bytes(data) for name, data in files.items()}
        return files, kind in ("log sums", "log another")

    def place(self, data, length=1, step=1):
        """A place by lot at which so many bytes are, as a rule."""
        return self.chance.randrange(max(1, (len(data) - length) // step + 1)) * step

    def unit(self, is_log):
        """How long a page or a frame is, and where the first one is."""
        return (self.base.log.step, HEAD) if is_log else (self.base.size, 0)

    def bits(self, data, is_log):
        for _ in range(self.chance.choice([1, 1, 1, 2, 3])):
            data[self.place(data)] ^= 1 << self.chance.randrange(8)

    def zeros(self, data, is_log):
        at = self.place(data, SECTOR, SECTOR)
        fill = self.chance.choice([0, 0, 0, 255])
        data[at : at + SECTOR] = bytes([fill]) * len(data[at : at + SECTOR])

    def repeated(self, data, is_log):
        at, other = self.place(data, SECTOR, SECTOR), self.place(data, SECTOR, SECTOR)
        data[at : at + SECTOR] = data[other : other + SECTOR][: len(data) - at]

    def foreign(self, data, is_log):
        files = self.chance.choice(self.others).files()
        other = files[self.chance.choice(sorted(files))]
        length = self.chance.choice([1, 16, SECTOR, SECTOR, 4096, 20000])
        at, start = self.place(data, length), self.place(other, length)
        data[at : at + length] = other[start : start + length][: len(data) - at]

    def cut(self, data, is_log):
        step, first = self.unit(is_log)
        at = self.place(data)
        if self.chance.random() < 0.4:
            at = first + self.place(data[first:], step, step)
        del data[self.chance.choice([at, at, at, at // SECTOR * SECTOR, min(at, 60)]):]

    def longer(self, data, is_log):
        length = self.chance.choice([1, 9, 100, SECTOR, 4096, 4120, 8192, 50000])
        end = bytes(data[-length:])
        data += self.chance.choice([bytes(length), self.chance.randbytes(length), end])

    def swapped(self, data, is_log):
        step, first = self.unit(is_log)
        one, other = (first + self.place(data[first:], step, step) for _ in range(2))
        kept = data[one : one + step]
        if one + step <= len(data) and other + step <= len(data):
            data[one : one + step] = data[other : other + step]
            data[other : other + step] = kept

    def first_byte(self, log):
        log[0] = self.chance.choice([0, 1, 0x36, 255])
        return log

    def first_sector(self, log):
        log[:SECTOR] = bytes(SECTOR)
        return log

    def gate(self, log):
        at = self.chance.choice(self.base.log.commits)[0] + GATE
        log[at] ^= self.chance.randrange(1, 256)
        return log

    def behind(self, log):
        """Alters bytes behind the last commit."""
        end = self.base.log.end
        rest = log[end:]
        self.chance.choice([Lot.bits, Lot.zeros, Lot.longer, Lot.foreign])(self, rest, True)
        return log[:end] + rest

    def sums(self, log):
        """Alters some of a log, and mends its sums."""
        if self.chance.random() < 0.3:
            at = self.chance.choice([4, 8, 12, 16, 20])
            log[at : at + 4] = self.chance.choice(NUMBERS).to_bytes(4, "big")
        for _ in range(self.chance.choice([1, 1, 2])):
            first, end = self.chance.choice(self.base.log.commits)
            at = self.chance.randrange(first, end, self.base.log.step)
            if self.chance.random() < 0.4:
                at += self.chance.choice([0, 4])
                number = self.chance.choice(NUMBERS + [1, 2, 3, 4])
                log[at : at + 4] = number.to_bytes(4, "big")
            else:
                at, end = at + FRAME, at + self.base.log.step
                log[at:end] = self.form(log[at:end])
        return with_sums(log, self.base.log.size, self.base.log.end)

    def another(self, log):
        others = [base for base in self.others if base.log and base is not self.base]
        return bytearray(self.chance.choice(others).log.data)

    def gap(self, data):
        """Alters bytes of pages that hold nothing."""
        for _ in range(self.chance.choice([1, 3, 50])):
            found = self.base.gaps[self.chance.choice(sorted(self.base.gaps))]
            data[self.chance.choice(found)] = self.chance.randrange(256)
        return data

    def covered(self, data):
        """Alters bytes of pages that the log has anew."""
        size = self.base.size
        pages = [number for number in self.base.log.pages if number * size <= len(data)]
        for _ in range(self.chance.choice([1, 3, 50]) if pages else 0):
            at = (self.chance.choice(pages) - 1) * size + self.chance.randrange(100, size)
            data[at] = self.chance.randrange(256)
        return data

    def form(self, data):
        """Alters what the header of the file, of a page or of a row in it says."""
        size = self.base.size
        for _ in range(self.chance.choice([1, 1, 1, 2, 3])):
            number = self.chance.randrange(max(1, len(data) // size))
            start, head = number * size, 100 if number == 0 and data[:6] == b"SQLite" else 0
            top = start + head
            cells = int.from_bytes(data[top + 3 : top + 5], "big")
            at = top + (12 if data[top] in (2, 5) else 8) + 2 * self.chance.randrange(cells or 1)
            row = start + int.from_bytes(data[at : at + 2], "big") + self.chance.randrange(12)
            places = [(top, 1), (top + 1, 2), (top + 3, 2), (top + 5, 2), (top + 7, 1),
                      (top + 8, 4), (at, 2), (at, 2), (row, 1), (row, 1), (row, 4)]
            places += [(self.chance.randrange(16, 97), 4), (18, 1), (19, 1)] if head else []
            at, length = self.chance.choice(places)
            value = self.chance.choice(NUMBERS + [2, 5, 10, 13, self.chance.randrange(2**32)])
            if at + length <= len(data):
                data[at : at + length] = (value % 256**length).to_bytes(length, "big")
        return data

    def by_sql(self, files, kind):
        """Alters by SQL; by lot what is altered is left in a log that SQLite writes."""
        place = f"{self.folder}/sql"
        lay({name: (number, data) for number, (name, data) in enumerate(files.items())}, place)
        with closing(sqlite3.connect(f"{place}/f", isolation_level=None)) as db:
            in_log = self.chance.random() < 0.3
            first = ["PRAGMA foreign_keys = off", "PRAGMA writable_schema = on",
                     "PRAGMA synchronous = off"]
            first += ["PRAGMA journal_mode = wal", "PRAGMA wal_autocheckpoint = 0"] * in_log
            for statement in first:
                with suppress(sqlite3.Error):
                    db.execute(statement)
            for _ in range(self.chance.choice([1, 1, 2, 3])):
                with suppress(sqlite3.Error, OverflowError):
                    db.execute(*self.statement(db, kind))
            if kind == "SQL settings":
                with suppress(sqlite3.Error):
                    db.execute("VACUUM")
            found = bytes_in(place) if in_log else None
        return found or bytes_in(place)

    def statement(self, db, kind):
        """A statement of this kind, with its value."""
        text, table = self.chance.choice(STATEMENTS[kind]), self.chance.choice(self.tables(db))
        columns = [row[1] for row in db.execute(f'PRAGMA table_info("{table}")')] or ["customer"]
        values = [one.replace("{0}", table) for one in TEXTS.get(kind, [])] or VALUES
        size = 2 ** self.chance.randrange(9, 17)
        made = text.format(table=table, column=self.chance.choice(columns), size=size)
        return (made, (self.chance.choice(values),)) if "?" in made else (made,)

    def tables(self, db):
        """The names of a bureau's tables; those that are there, as a rule."""
        with suppress(sqlite3.Error):
            found = db.execute("SELECT name FROM sqlite_schema WHERE type = 'table' "
                               "ORDER BY name").fetchall()
            return [name for name, in found] or ["jobs"]
        return ["jobs"]


def bytes_in(place):
    """A file and its log, if there is one."""
    found = {}
    for name in ("f", "f-wal"):
        with suppress(FileNotFoundError), open(f"{place}/{name}", "rb") as file:
            found[name] = file.read()
    return found


BYTES = {"bits": Lot.bits, "zeros": Lot.zeros, "repeated": Lot.repeated, "foreign": Lot.foreign,
         "cut": Lot.cut, "longer": Lot.longer, "swapped": Lot.swapped}
SPECIAL = {"log first byte": Lot.first_byte, "log first sector": Lot.first_sector,
           "log gate": Lot.gate, "log behind": Lot.behind, "log sums": Lot.sums,
           "log another": Lot.another, "FILE gap": Lot.gap, "FILE covered": Lot.covered,
           "FILE form": Lot.form}
# Each kind of alteration, as often as it is to be drawn.
KINDS = ([f"log {name}" for name in BYTES] + ["log bits"] * 6 + ["log zeros", "log cut"] * 2
         + [name for name in SPECIAL if name[:3] == "log"] + ["log sums"] * 2 + ["log removed"]
         + [f"FILE {name}" for name in BYTES] + ["FILE bits", "FILE form"] * 3
         + [name for name in SPECIAL if name[:4] == "FILE"] + ["both"] * 5
         + list(STATEMENTS) + ["SQL rows", "SQL schema"] * 3)
