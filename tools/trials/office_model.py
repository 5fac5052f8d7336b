"""A model of a bureau's office, by which `long-service` judges each reply over HTTP. It has nothing
of the programs' code: what a command does is written here anew, from docs/profile.

A job is known by its submission, its starts, and how many attempts were done since the last of
them. What a run makes is asked of a bureau of its own, which nobody stops, and of `bureau run`."""

import json
import os
import subprocess
import tempfile
import threading
from typing import NamedTuple

from bureau_calls import TOP, example

PHRASES = {200: "OK", 400: "Bad Request", 404: "Not Found", 405: "Method Not Allowed",
           409: "Conflict", 411: "Length Required", 413: "Payload Too Large",
           431: "Request Header Fields Too Large", 500: "Internal Server Error",
           503: "Service Unavailable"}
NAMES = "two_lines page_headings copy_and_count edited_amounts primes sales_report".split()
DECKS = ["endless_branch", "three_cards_punched", "two_cards_listed", "print_67_lines",
         "three_units_together", "waiting_order_is_done", "punch_alone", "all_characters",
         "last_card_without_switch_a", "skip_after_67_lines"]
# Its cards go into the pockets 4, 8 and 0 in turn, and then it halts.
STACKING = ",008015,022029,036038,039041,042043K44K84444.".ljust(80) + "\n"
POCKETS = {"": "cards", "0": "cards0", "4": "cards4", "8": "cards8"}
# The greatest limit of a slice, and how many of them a run without an end is followed for.
MOST, FOLLOWED = 2000, 40
# How many jobs a customer may have.
JOBS = 200


class Text(NamedTuple):
    """What is handed in."""
    kind: str
    size: int
    switches: str
    cards: str

    def __repr__(self):
        return f"{self.kind} {self.size} {self.switches} {self.cards.split(chr(10), 1)[0].strip()}"

    def command(self, customer, number):
        """The lines of a script that submit it."""
        count = self.cards.count("\n")
        return (f"submit {customer} {number} {self.kind} {self.size} {self.switches} {count}\n"
                + self.cards)


class Job(NamedTuple):
    """One state in which a job may be; None stands for a job that is not there."""
    text: Text
    starts: tuple = ()
    attempts: int = 0
    granted: int = 0
    held: bool = False
    collected: bool = False


class Life(NamedTuple):
    """What a job does from its last start on: after how many attempts it stops, None where it never
    does; how many of them are executed; how it then stands; its cards and lines at each multiple of
    the grain; and the five files of its export."""
    attempts: int
    executed: int
    standing: str
    grain: int
    counts: dict
    files: dict


class Beginning(NamedTuple):
    """Stands for any beginning of these bytes."""
    whole: bytes


class ModelError(Exception):
    """The reference itself is not as it should be."""


def texts():
    """The submissions; the last one has a fault."""
    with_names = [Text(kind, 4000, switches, example(f"{name}.{end}")) for name in NAMES
                  for kind, end in (("object", "deck"), ("autocoder", "source"))
                  for switches in ("A", "-")]
    found = with_names + [Text("object", 1400, "-", STACKING)]
    for name in DECKS:
        with open(f"{TOP}/cases/decks/{name}.deck", encoding="ascii") as file:
            found.append(Text("object", 4000, "A", file.read()))
    faulty = example("two_lines.source").replace("\n     READ ", "\n     RAED ", 1)
    return found + [Text("autocoder", 4000, "A", faulty)]


class Reference:
    """What uninterrupted runs make."""

    def __init__(self, program, folder):
        self.program, self.folder, self.file = program, folder, f"{folder}/reference"
        self.lives, self.loads, self.number, self.turn = {}, {}, 0, threading.Lock()
        self.call("init", self.file)

    def call(self, *words, folder=None):
        """The status and both outputs of the program."""
        done = subprocess.run([self.program, *words], cwd=folder or self.folder, encoding="ascii",
                              stdin=subprocess.DEVNULL, capture_output=True, check=False,
                              timeout=600)
        if done.returncode > 1:
            raise ModelError(f"{words} ended with {done.returncode} {done.stderr}")
        return done.returncode, done.stdout, done.stderr

    def replies(self, script):
        """The lines of the replies to a script."""
        with open(f"{self.folder}/script", "w", encoding="ascii") as file:
            file.write(script)
        return self.call("apply", self.file, f"{self.folder}/script")[1].splitlines()

    def loaded(self, text):
        """What a submission is answered, as a line of a script's output."""
        with self.turn:
            if text not in self.loads:
                self.number += 1
                self.loads[text] = self.replies(text.command("LOADS", self.number))[0]
            return self.loads[text]

    def life(self, text, starts):
        """The life of a submission from its last start on."""
        before = self.life(text, starts[:-1]) if starts else None
        with self.turn:
            if (text, starts) not in self.lives:
                self.lives[text, starts] = self.lived(text, starts, before)
            return self.lives[text, starts]

    def began(self, text, starts):
        """The commands that bring a new job to its last start."""
        self.number += 1
        job = f"R{self.number // JOBS} {self.number % JOBS + 1}"
        script = text.command(*job.split())
        for place, switches in enumerate(starts):
            attempts = self.lives[text, starts[:place]].attempts
            script += f"slice {job} {MOST}\n" * (attempts // MOST + 1)
            script += f"start {job} {switches}\n"
        return job, script

    def lived(self, text, starts, before):
        """Runs it once in the largest slices, and once in small ones."""
        job, script = self.began(text, starts)
        told = self.replies(script + f"slice {job} {MOST}\n" * FOLLOWED)[-FOLLOWED:]
        ran = [line.split(" ", 2) for line in told if line.startswith("ran ")]
        executed, standing = sum(int(words[1]) for words in ran), ran[-1][2]
        attempts = executed + standing.startswith("check")
        files = self.exported(*job.split())
        if standing == "running":
            if any(files.values()):
                raise ModelError(f"{text} does not end, and makes something")
            return Life(None, executed, standing, 1, {}, files)
        if not starts:
            self.compare(text, standing, files["lines"])
        grain = -(-attempts // 100) or 1
        counts = self.counted(text, starts, grain, attempts)
        return Life(attempts, executed, standing, grain, counts, files)

    def counted(self, text, starts, grain, attempts):
        """How many cards and lines there are after each so many attempts."""
        job, script = self.began(text, starts)
        times = -(-attempts // grain)
        script += f"standing {job}\n" + f"slice {job} {grain}\nstanding {job}\n" * times
        told = [line.split() for line in self.replies(script)[-2 * times - 1 :: 2]]
        places = [min(place * grain, attempts) for place in range(times + 1)]
        return {place: (int(words[-3]), int(words[-1])) for place, words in zip(places, told)}

    def exported(self, customer, number):
        """The five files of a job, by what their names end in."""
        with tempfile.TemporaryDirectory(dir=self.folder) as place:
            self.call("export", self.file, customer, number, folder=place)
            found = {}
            for name in os.listdir(place):
                with open(f"{place}/{name}", "rb") as file:
                    found[name.split(".")[1]] = file.read()
        return found

    def compare(self, text, standing, lines):
        """The lines must be those of `bureau run`."""
        deck = f"{self.folder}/deck"
        with open(deck, "w", encoding="ascii") as file:
            file.write(text.cards)
        if text.kind == "autocoder":
            self.call("assemble", deck, f"{self.folder}/loaded")
            deck = f"{self.folder}/loaded"
        _, out, told = self.call("run", deck, str(text.size), text.switches)
        if out.encode("ascii") != lines or not told.endswith(f" {standing}\n"):
            raise ModelError(f"run of {text} tells {told} and other lines than the bureau")


def compact(value):
    return json.dumps(value, separators=(",", ":")).encode("ascii")


def response(status, body, plain=False):
    """A reply as it goes over the wire."""
    kind = "text/plain" if plain else "application/json"
    return (f"HTTP/1.1 {status} {PHRASES[status]}\r\nContent-Type: {kind}\r\nContent-Length: "
            f"{len(body)}\r\nConnection: close\r\n\r\n").encode("ascii") + body


def refused(number, faults=None):
    """The status and the body of a refusal."""
    status = 404 if number == 20 else 400 if number in (10, 11, 12, 13, 16, 21, 29) else 409
    told = {"faults": faults} if faults else {}
    return status, compact({**told, "refusal": number})


class Model:
    """What each command is answered in each state, and the state after it."""

    def __init__(self, reference):
        self.reference, self.texts = reference, texts()

    def answer(self, job, what, argument):
        """The reply, or a Beginning that it has as its body, and the state after a command."""
        number = self.refusal(job, what, argument)
        if number:
            return response(*refused(number)), job
        status, body, after = getattr(self, what)(job, argument)
        if isinstance(body, Beginning):
            return body, after
        return response(status, body, what in ("cards", "lines")), after

    def grain(self, job):
        """A limit of a slice is a multiple of it."""
        return self.reference.life(job.text, job.starts).grain

    def refusal(self, job, what, argument):
        """The number of the refusal that a command meets; 0 for none, and for a submission."""
        if what == "submit":
            return 0
        if what == "slice" and not 1 <= argument <= MOST:
            return 21
        if what == "cards" and argument not in POCKETS:
            return 29
        if job is None:
            return 20
        if what in ("standing", "cards", "lines"):
            return 0
        stands = self.stands(job).split()[0]
        tests = {
            27: job.collected,
            22: job.held and what in ("slice", "start", "collect"),
            23: what == "slice" and stands != "running",
            24: what == "start" and stands != "halted" or what == "collect" and stands == "running",
            25: what == "hold" and job.held,
            26: what == "release" and not job.held,
        }
        return next((number for number, meets in tests.items() if meets), 0)

    def submit(self, job, text):
        told = self.reference.loaded(text).split()
        if job is not None and job.text != text:
            return *refused(14), job
        if told[0] == "refused":
            faults = [dict(zip(("card", "fault"), map(int, one.split(":")))) for one in told[2:]]
            return *refused(int(told[1]), faults), job
        body = compact({"cards": int(told[1]), "reply": "taken"})
        return 200, body, job or Job(text)

    def slice(self, job, limit):
        life = self.reference.life(job.text, job.starts)
        attempts = job.attempts + limit
        executed = limit
        if life.attempts is not None:
            attempts = min(attempts, life.attempts)
            executed = min(attempts, life.executed) - min(job.attempts, life.executed)
        after = job._replace(attempts=attempts, granted=job.granted + limit)
        return 200, compact({"executed": executed, "reply": "ran",
                             "standing": self.stands(after)}), after

    def start(self, job, switches):
        after = job._replace(starts=(*job.starts, switches), attempts=0)
        return 200, compact({"reply": "started"}), after

    def hold(self, job, _):
        return 200, compact({"reply": "held"}), job._replace(held=True)

    def release(self, job, _):
        return 200, compact({"reply": "released"}), job._replace(held=False)

    def collect(self, job, _):
        cards, lines = self.counts(job)
        body = compact({"cards": cards, "lines": lines, "reply": "collected"})
        return 200, body, job._replace(collected=True)

    def standing(self, job, _):
        cards, lines = self.counts(job)
        body = compact({"cards": cards, "collected": job.collected, "granted": job.granted,
                        "held": job.held, "lines": lines, "reply": "standing",
                        "standing": self.stands(job)})
        return 200, body, job

    def cards(self, job, pocket):
        return 200, self.made(job, POCKETS[pocket]), job

    def lines(self, job, _):
        return 200, self.made(job, "lines"), job

    def stands(self, job):
        """How a job stands, in words."""
        life = self.reference.life(job.text, job.starts)
        return life.standing if job.attempts == life.attempts else "running"

    def counts(self, job):
        """How many cards and lines a job has."""
        life = self.reference.life(job.text, job.starts)
        return life.counts[job.attempts] if life.attempts else (0, 0)

    def made(self, job, name):
        """The cards or the lines: all at a halt, else any beginning of them; of all cards as many
        as there are."""
        life = self.reference.life(job.text, job.starts)
        whole = life.files[name]
        if name == "cards":
            return b"".join(whole.splitlines(keepends=True)[: self.counts(job)[0]])
        return whole if job.attempts == life.attempts else Beginning(whole)

    def entries(self, name, body):
        """What a list of a customer's jobs says."""
        told = {entry["number"]: entry for entry in json.loads(body)["jobs"]}
        if compact({"jobs": [told[number] for number in sorted(told)], "reply": "jobs"}) != body:
            told = {0: "another order"}
        return Listed(told, self.entry)

    def entry(self, number, job):
        """A job as the list of a customer's jobs has it."""
        return job and {"collected": job.collected, "held": job.held, "number": number,
                        "standing": self.stands(job)}

    def queued(self, name, body):
        """What the queue says of one customer."""
        queue = json.loads(body)["queue"]
        queue.sort(key=lambda entry: (entry["customer"].encode("ascii"), entry["number"]))
        told = {entry["number"]: True for entry in queue if entry["customer"] == name}
        if compact({"queue": queue, "reply": "queue"}) != body:
            told = {0: "another order"}
        return Listed(told, lambda _, job: job and not job.held and self.stands(job) == "running"
                      or None)


class Listed(NamedTuple):
    """What a list says of each number that it has, and what it says of a state."""
    listed: dict
    of_state: object

    def agrees(self, number, job):
        """Whether a job may be in this state."""
        return self.listed.get(number) == self.of_state(number, job)


def is_whole(got):
    """Whether a reply has all the bytes that it says."""
    head, end, body = got.partition(b"\r\n\r\n")
    length = head.partition(b"Content-Length: ")[2].split(b"\r\n")[0]
    return bool(end) and length.isdigit() and len(body) == int(length)


def fits(whole, got):
    """Whether a reply is, or begins, what was to come."""
    if not isinstance(whole, Beginning):
        return whole.startswith(got)
    head, end, body = got.partition(b"\r\n\r\n")
    if not end:
        return response(200, whole.whole, True)[:17].startswith(got[:17])
    length = int(head.partition(b"Content-Length: ")[2].split(b"\r\n")[0])
    return length <= len(whole.whole) and response(200, whole.whole[:length], True).startswith(got)
