"""Proves crates side by side, each as soon as the crates that it uses are proved, and makes programs."""
import os
import subprocess
import threading

import rooms

# What compiling and linking a program take, as lines of a crate would.
COMPILING = 6000


def memory():
    """The free memory, in bytes."""
    with open("/proc/meminfo", encoding="utf-8") as lines:
        found = [int(line.split()[1]) for line in lines if line.startswith("MemAvailable")]
    return 1024 * found[0]


def processors():
    return len(os.sched_getaffinity(0))


def answers(program):
    """Why a file is no program, or None where it answers --version."""
    try:
        ran = subprocess.run([program, "--version"], stdin=subprocess.DEVNULL,
                             stdout=subprocess.PIPE, stderr=subprocess.STDOUT, timeout=60)
    except (OSError, subprocess.TimeoutExpired) as error:
        return f"rt made no program that runs: {error}"
    is_well = ran.returncode == 0 and ran.stdout
    return None if is_well else "rt made a program that does not answer --version"


class Proving:
    """The crates that programs are made of, these among them, lowest first, and how far each is."""

    def __init__(self, crates, names, sources, runs, progress):
        self.crates, self.names, self.sources = crates, names, sources
        self.runs, self.progress = runs, progress
        self.programs = [it for it in names if crates.is_program(it)]
        self.heights = crates.heights(names, COMPILING)
        self.running, self.proved, self.failed = set(), set(), []
        self.changed, self.has_news = threading.Condition(), False
        # One more than there are processors, so that a crate of a long chain need not wait for
        # one of a short chain that was begun before it was ready. Each may take so much memory.
        self.slots = max(1, min(processors() + 1, memory() // 2_500_000_000))

    def waiting(self):
        """The crates that are not begun, those of the longest chain first."""
        left = set(self.names) - self.proved - self.running - set(self.failed)
        return sorted(left, key=lambda name: (-self.heights[name], name))

    def take(self, name):
        """Counts a crate as proved, which earlier work has proved."""
        self.proved.add(name)

    def told(self):
        """How far the work is, and what is left."""
        left = len(self.names) - len(self.proved) - len(self.running)
        after = f"after {self.progress.seconds()} seconds"
        text = f"{len(self.proved)} of {len(self.names)} crates proved {after}"
        in_work = [f"{it}, a program" if it in self.programs else it for it in sorted(self.running)]
        return f"{text}; in work: {', '.join(in_work)}; after them {left}" if in_work else text

    def is_good(self, name, made):
        """Why what rt made of a crate is not good, or None. A program is as old as its sources."""
        if name not in self.programs:
            return None
        why = answers(f"{made}/{name}")
        if why is None:
            given = os.stat(f"{self.sources}/crates.txt").st_mtime
            os.utime(f"{made}/{name}", (given, given))
        return why

    def work(self, name, jobs):
        try:
            words = ["lib", "--jobs", str(jobs)]
            if name in self.programs:
                # For any processor of x86-64. Those of ./test are for later ones: rt ci takes no
                # such word.
                words = ["run", "--cpu=x86-64", "--jobs", str(jobs), "--", "--version"]
            why = rooms.work_at(name, self.crates, self.sources, words, self.runs,
                                lambda made: self.is_good(name, made))
        except rooms.Stopped:
            why = "stopped"
        except OSError as error:
            why = f"{name}: {error}"
        with self.changed:
            self.running.discard(name)
            self.has_news = True
            if why is None:
                self.proved.add(name)
            else:
                self.failed.append(name)
                self.progress.note(f"{name} is not proved:\n{why}")
            self.changed.notify()

    def begin(self):
        """Begins crates that are ready, as many as there are slots for."""
        ready = [it for it in self.waiting() if set(self.crates.uses[it]) <= self.proved]
        longest = max((self.heights[it] for it in [*ready, *self.running]), default=0)
        alone = len(ready) == 1 and not self.running
        for name in ready:
            # The longest chain takes longest: its next crate waits for no slot, and gets most jobs,
            # of which a further one makes a proof a quarter dearer.
            is_longest = self.heights[name] == longest
            if len(self.running) >= self.slots + is_longest:
                break
            jobs = max(1, min(4, processors() - (not alone))) if is_longest else 1
            self.running.add(name)
            threading.Thread(target=self.work, args=(name, jobs), daemon=True).start()

    def prove(self):
        """Proves all, and returns whether all is proved. Begins nothing more where a crate fails, or
        where nobody reads what is said; but what is begun is ended and kept."""
        with self.changed:
            while True:
                if not self.failed and self.progress.is_read:
                    self.begin()
                if self.has_news or self.progress.is_due():
                    self.progress.show(self.told())
                    self.has_news = False
                if not self.running:
                    return not self.failed and not self.waiting()
                self.changed.wait(self.progress.wait())
