"""Bureaus' files with many jobs, and what a call takes: for the benches beside this.

The first job of a file is made by a program itself. Its rows of all tables are then multiplied by
SQL under the names of further jobs, 200 of a customer, since a customer may have no more. So the
file holds a bureau, in which each job did what the first did, and `operator check` must tell no
difference: the benches that are given an operator have it checked once.
"""

import argparse
import os
import sqlite3
import subprocess
import sys
import tempfile
import time
from contextlib import closing
from typing import NamedTuple

HERE = os.path.dirname(os.path.realpath(__file__))
JOBS_OF_ONE = 200
FIRST = 'BENCH0 1'
SLICES = 123
OF_A_JOB = {
    'jobs': 'kind, size, deck, loaded, held, collected',
    'stretches': 'place, switches, granted',
    'cards': 'place, card',
    'lines': 'place, form, line, image',
    'pages': 'page, storage',
    'states': 'i, a, b, compare, overflow, channel, waiting, form, line, taken, cards, lines, '
              'standing',
    'profiles': 'profile, chosen',
    'pockets': 'place, pocket',
}


class Wanted(NamedTuple):
    """A file to be made: how many jobs, what each is, whether it runs, the first one's script."""
    jobs: int
    each: str
    are_running: bool
    script: str

    def part(self, divisor):
        """The same with that part of the jobs, at least one of many."""
        return self._replace(jobs=-(-self.jobs // divisor))

    def title(self, path):
        """What the file is, and its size."""
        what = f'{self.jobs} jobs of {self.each}' if self.jobs else 'a new bureau'
        return f'{what}, {os.path.getsize(path) / 2 ** 20:.1f} MiB'


NEW = Wanted(0, '', False, '')


def collected(jobs, cards):
    """Collected jobs of so many cards, none of which is a program: they have printed nothing."""
    deck = f'{"ABC":80}\n' * cards
    script = f'submit {FIRST} object 4000 A {cards}\n{deck}slice {FIRST} 2000\ncollect {FIRST}\n'
    return Wanted(jobs, f'{cards} cards', False, script)


def printing(jobs):
    """Jobs that have printed 5,018 lines, and are running."""
    with open(f'{HERE}/decks/b_print.deck', encoding='ascii') as file:
        deck = file.read()
    count = deck.count('\n')
    script = f'submit {FIRST} object 4000 A {count}\n{deck}' + f'slice {FIRST} 2000\n' * SLICES
    return Wanted(jobs, '5018 lines', True, script)


def multiply(path, jobs):
    """Makes of the first job so many."""
    customer, number = FIRST.split()
    names = [(f'BENCH{at // JOBS_OF_ONE}', at % JOBS_OF_ONE + 1) for at in range(1, jobs)]
    with closing(sqlite3.connect(path)) as db, db:
        for table, columns in OF_A_JOB.items():
            text = (f'INSERT INTO {table} SELECT ?, ?, {columns} FROM {table} '
                    'WHERE customer = ? AND number = ? ORDER BY rowid')
            for name in names:
                db.execute(text, (*name, customer, int(number)))


def make_by(bureau, path, wanted):
    """Makes a file by a bureau."""
    subprocess.run([bureau, 'init', path], check=True)
    if wanted.jobs:
        with open(f'{path}.script', 'w', encoding='ascii') as file:
            file.write(wanted.script)
        subprocess.run([bureau, 'apply', path, file.name], stdout=subprocess.DEVNULL, check=True)
        os.remove(file.name)
        multiply(path, wanted.jobs)


class Taken(NamedTuple):
    """What a call took: seconds, processor seconds and the peak in MiB; and what it said."""
    seconds: float
    processor: float
    peak: float
    status: int
    output: str


def peak_of(pid):
    """The most memory that a process has had so far, in MiB. The figure that the system keeps of
    one that has ended counts what this script had when it started it."""
    try:
        with open(f'/proc/{pid}/status', encoding='ascii', errors='replace') as lines:
            found = [int(line.split()[1]) / 1024 for line in lines if line.startswith('VmHWM')]
            return max(found, default=0)
    except OSError:
        return 0


def processor_of(pid):
    """The processor seconds of a process so far, by the clock that clock_getcpuclockid names."""
    return time.clock_gettime(~pid << 3 | 2)


def timed(words):
    """Carries out a call."""
    with tempfile.TemporaryFile() as output:
        start, peak, ended = time.monotonic(), 0, 0
        process = subprocess.Popen(words, stdin=subprocess.DEVNULL, stdout=output)
        while not ended:
            time.sleep(0.002)
            peak = max(peak, peak_of(process.pid))
            ended, status, used = os.wait4(process.pid, os.WNOHANG)
        seconds = time.monotonic() - start
        process.returncode = os.waitstatus_to_exitcode(status)
        output.seek(0)
        return Taken(seconds, used.ru_utime + used.ru_stime, peak, process.returncode,
                     output.read().decode('ascii', 'replace'))


def make(sets, path, wanted):
    """Makes a file by the first bureau. Whether the last operator finds no difference in it."""
    make_by(sets[0].bureau, path, wanted)
    operator = sets[-1].operator
    found = timed([operator, 'check', path])
    is_well = found.status == 0 and found.output.endswith(f'jobs {wanted.jobs}, 0 differ\n')
    if not is_well:
        print(f'{operator} check: status {found.status}, {found.output[-300:]}', file=sys.stderr)
    return is_well


def positive(text):
    """The number that a text is, at least 1."""
    number = int(text)
    if number < 1:
        raise ValueError
    return number


def arguments(doc):
    """A parser of the arguments that all benches of large files have."""
    form = argparse.RawDescriptionHelpFormatter
    parser = argparse.ArgumentParser(description=doc, formatter_class=form)
    parser.add_argument('-f', dest='folder')
    parser.add_argument('--divide', type=positive, default=1, metavar='N')
    return parser


class Programs(NamedTuple):
    """A set of programs, and its name."""
    name: str
    bureau: str
    operator: str


def sets_of(parser, programs):
    """The one or two sets of these programs."""
    if len(programs) not in (2, 4):
        parser.error('they are BUREAU OPERATOR, or these before a change and then those after it')
    names = ('before', 'after') if len(programs) == 4 else ('now',)
    paths = [os.path.realpath(program) for program in programs]
    return [Programs(*one) for one in zip(names, paths[::2], paths[1::2])]
