"""Bureaus' files of earlier versions, for scripts that try `migrate`."""

import os
import shutil
import sqlite3
import tempfile
from contextlib import closing, contextmanager

PAGE = 100
# The tables of versions 1, 2 and 3, in the order in which their programs made them. Those of 2 and
# 3 made `pictures` too, and dropped it.
MADE = ("bureau", "jobs", "stretches", "pictures", "cards", "lines", "states", "pages")
TABLES = {
    1: MADE[:6],
    2: tuple(it for it in MADE if it != "pictures"),
    3: tuple(it for it in MADE if it != "pictures"),
}


@contextmanager
def copied(path):
    """A connection to a copy of a file, since SQLite leaves files beside the one that it opens."""
    with tempfile.TemporaryDirectory() as folder:
        copy = os.path.join(folder, "copy")
        shutil.copyfile(path, copy)
        with closing(sqlite3.connect(copy)) as db:
            yield db


def rows(path):
    """All rows of all tables, and the text of each table, in order."""
    with copied(path) as db:
        named = db.execute("SELECT name, sql FROM sqlite_schema WHERE type = 'table' "
                           "ORDER BY name").fetchall()
        return [(name, sql, sorted(db.execute(f'SELECT * FROM "{name}"'))) for name, sql in named]


def with_storage(states):
    """The text of the table `pictures`: that of `states` with the storage before the registers."""
    text = states.replace("states", "pictures", 1)
    return text.replace(" i INTEGER", " storage BLOB NOT NULL, i INTEGER", 1)


def storage_of(db, job):
    """The storage of a job as a whole."""
    size, = db.execute("SELECT size FROM jobs WHERE customer = ? AND number = ?", job).fetchone()
    storage = bytearray(size)
    for page, cells in db.execute(
            "SELECT page, storage FROM pages WHERE customer = ? AND number = ?", job):
        storage[page * PAGE:(page + 1) * PAGE] = cells
    return bytes(storage)


def old_rows(db, table, version):
    """The rows that a table of this version has."""
    if table == "bureau":
        return [(1, version)]
    if table == "pictures":
        states = db.execute("SELECT * FROM states ORDER BY rowid").fetchall()
        return [(*row[:2], storage_of(db, row[:2]), *row[2:]) for row in states]
    if table == "pages" and version == 2:
        jobs = db.execute("SELECT customer, number FROM states ORDER BY rowid").fetchall()
        return [(*job, at // PAGE, storage[at:at + PAGE]) for job in jobs
                for storage in [storage_of(db, job)] for at in range(0, len(storage), PAGE)]
    return db.execute(f"SELECT * FROM {table} ORDER BY rowid").fetchall()


def make_plain(path):
    """Gives each job of a bureau's file profile 1, which those of older versions have."""
    with closing(sqlite3.connect(path)) as db, db:
        db.execute("UPDATE profiles SET profile = 1")


def make_old(path, old, version):
    """Makes a file of an earlier version, with the jobs of a bureau's file of version 4.
    The jobs must not have chosen a pocket, since older ones could not."""
    with copied(path) as db, closing(sqlite3.connect(old)) as made, made:
        texts = dict(db.execute("SELECT name, sql FROM sqlite_schema WHERE type = 'table'"))
        texts["pictures"] = with_storage(texts["states"])
        for table in TABLES[version] if version == 1 else MADE:
            made.execute(texts[table])
        if version > 1:
            made.execute("DROP TABLE pictures")
        for table in TABLES[version]:
            found = old_rows(db, table, version)
            if found:
                places = ", ".join("?" * len(found[0]))
                made.executemany(f"INSERT INTO {table} VALUES ({places})", found)
