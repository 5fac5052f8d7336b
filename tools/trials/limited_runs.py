"""Runs of programs within limits, and many cases that are tried side by side."""

import argparse
import collections
import itertools
import multiprocessing
import os
import random
import re
import resource
import select
import shutil
import subprocess
import sys
import tempfile
import time

import bureau_calls

# What a program may have at most: KiB of memory, and bytes of a file.
MEMORY, LENGTH = 300_000, 400_000_000
# How much of an output is looked at.
SEEN = 4_000_000
# What a terminal would take for more than a character: controls but the line feed, also in UTF-8.
CONTROL = re.compile(rb"[\x00-\x09\x0b-\x1f\x7f]|\xc2[\x80-\x9f]")
# How many cases are given to a process at a time.
CHUNK = 4


class Ran:
    """A run of a program: its status, what it printed, and what it used. Below 0 is a signal."""

    def __init__(self, words, seconds):
        self.words, self.most, self.late = words, seconds, False
        self.status, self.out, self.errors, self.memory, self.seconds = None, b"", b"", 0, 0.0

    def __str__(self):
        name = os.path.basename(self.words[0])
        words = " ".join(f"{word!r:.60}"[1:-1] if isinstance(word, str) else repr(word)[2:62]
                         for word in self.words[1:])
        return (f"{name} {words:.200} ended with {self.status} after {self.seconds:.2f} s, "
                f"{self.memory // 1024} MB, {self.errors[:200]!r} {self.out[-100:]!r}")

    def wrongs(self, statuses):
        """What is wrong with any run, in words of its kind."""
        found = []
        if self.late:
            found.append(f"no end in {self.most:g} seconds")
        elif self.status < 0:
            found.append(f"signal {-self.status}")
        elif self.status not in statuses:
            found.append(f"status {self.status}")
        if self.memory > MEMORY:
            found.append(f"over {MEMORY // 1000} MB of memory")
        return found


class Running:
    """A program that runs, as `connected` wants it: `poll` leaves it to be waited for."""

    def __init__(self, pid):
        self.pid = pid

    def poll(self):
        return os.waitid(os.P_PID, self.pid, os.WEXITED | os.WNOHANG | os.WNOWAIT)


def run(words, folder, seconds, reads=os.devnull, during=None):
    """Runs a program, with what a file has on its standard input, and ends it after so many
    seconds. `during` gets it while it runs."""
    ran = Ran(words, seconds)
    spool = os.path.dirname(folder)
    with (open(reads, "rb") as given, tempfile.TemporaryFile(dir=spool) as out,
          tempfile.TemporaryFile(dir=spool) as errors):
        start = time.monotonic()
        process = subprocess.Popen(words, cwd=folder, stdin=given, stdout=out, stderr=errors)
        handle = os.pidfd_open(process.pid)
        if during:
            during(Running(process.pid))
        left = max(0, start + seconds - time.monotonic())
        ran.late = not select.select([handle], [], [], left)[0]
        os.close(handle)
        if ran.late:
            process.kill()
        _, status, used = os.wait4(process.pid, 0)
        process.returncode = ran.status = os.waitstatus_to_exitcode(status)
        ran.seconds, ran.memory = time.monotonic() - start, used.ru_maxrss
        for file, name in ((out, "out"), (errors, "errors")):
            file.seek(0)
            setattr(ran, name, file.read(SEEN))
    return ran


def files_in(folder):
    """The bytes of each file below a folder, and None for each folder."""
    found = {}
    for name in bureau_calls.names(folder):
        path = f"{folder}/{name}"
        found[name] = None
        if os.path.isfile(path):
            with open(path, "rb") as file:
                found[name] = file.read()
    return found


class Arguments(argparse.ArgumentParser):
    """The arguments of a script, whose head says what they are."""

    def __init__(self, script, text, count, programs):
        super().__init__(prog=script, add_help=False)
        self.text, self.names = text, programs
        self.add_argument("--sample", type=int, default=count)
        self.add_argument("--seed", type=int, default=random.randrange(1000000))
        self.add_argument("--side-by-side", type=int, default=1)
        self.add_argument("--seconds", type=float, default=10)
        self.add_argument("--only", type=int)
        self.add_argument("programs", nargs="*")

    def error(self, message):
        print(self.text, file=sys.stderr)
        sys.exit(2)

    def found(self):
        """The arguments, with the paths of the programs."""
        given = self.parse_args()
        if len(given.programs) not in (0, len(self.names)) or given.side_by_side < 1:
            self.error("")
        given.programs = [os.path.realpath(path) for path in given.programs] or [
            f"{bureau_calls.TOP}/crates/{name}/out/{name}" for name in self.names]
        missing = [path for path in given.programs if not shutil.which(path)]
        if missing:
            print(f"{self.prog}: {missing[0]} is missing", file=sys.stderr)
            sys.exit(3)
        return given


def scratch(name):
    """A folder in memory, where there is one, that goes at the end."""
    room = "/dev/shm" if os.path.isdir("/dev/shm") else None
    return tempfile.TemporaryDirectory(prefix=name, dir=room)


# What a process tries its cases by.
TRIAL = None


def begin(trial):
    """Begins a process that tries cases: with a folder and ports of its own."""
    global TRIAL
    TRIAL = trial
    _, most = resource.getrlimit(resource.RLIMIT_FSIZE)
    resource.setrlimit(resource.RLIMIT_FSIZE, (LENGTH, most))
    bureau_calls.PORTS = itertools.cycle(range(20000 + os.getpid() * 97 % 8000, 32000))
    trial.begin(tempfile.mkdtemp(dir=trial.scratch))


def try_one(number):
    return number, *TRIAL.try_case(number)


def tried(trial, numbers, processes):
    """Each case by its number: its kind, and what was wrong, each by its kind and in words."""
    if processes == 1:
        begin(trial)
        yield from map(try_one, numbers)
        return
    with multiprocessing.get_context("fork").Pool(processes, begin, (trial,)) as pool:
        yield from pool.imap(try_one, numbers, CHUNK)


def try_all(trial, given):
    """Tries all cases, prints what is wrong and how often, and returns the status."""
    kinds, wrongs, wrong, count = collections.Counter(), collections.Counter(), {}, 0
    numbers = range(given.sample) if given.only is None else [given.only]
    for number, kind, told in tried(trial, numbers, given.side_by_side):
        count += 1
        kinds[kind] += 1
        if told:
            wrong[kind] = wrong.get(kind, 0) + 1
            wrongs.update({name for name, _ in told})
            words = "; ".join(dict.fromkeys(f"{name}: {text}" for name, text in told))
            print(f"case {number}, seed {given.seed}: {kind}: {words[:1000]}", flush=True)
    for kind in sorted(kinds):
        print(f"{kinds[kind]:7} {kind}, {wrong.get(kind, 0)} wrong")
    for name, times in wrongs.most_common():
        print(f"{times:7} wrong: {name}")
    print(f"{count} cases, seed {given.seed}, {sum(wrong.values())} wrong")
    return 1 if wrong or not count else 0
