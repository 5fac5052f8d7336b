"""The programs that the cases of the operator call, and a bureau that is served."""
import os
import shutil
import signal
import subprocess
import sys

HERE = os.path.dirname(os.path.realpath(__file__))
TOP = os.path.dirname(HERE)
sys.path.insert(0, f"{TOP}/tools/trials")

import programs
from bureau_calls import asked, connected, free_port

BUREAU, OPERATOR = programs.path_of("bureau"), programs.path_of("operator")
# Sources and decks of examples/, for jobs.
DECKS = [("object", "two_lines.deck"), ("object", "primes.deck"), ("autocoder", "two_lines.source"),
         ("object", "copy_and_count.deck"), ("autocoder", "sales_report.source")]


def operator(*words, seconds=120):
    done = subprocess.run([OPERATOR, *words], stdin=subprocess.DEVNULL, capture_output=True,
                          encoding="utf-8", timeout=programs.within(seconds), check=False)
    return done.returncode, done.stdout, done.stderr


class Served:
    """A bureau that is served, and that may be killed and served anew."""

    def __init__(self, folder, whole=None):
        self.file, self.port = f"{folder}/served", free_port()
        if whole:
            shutil.copyfile(whole, self.file)
        else:
            subprocess.run([BUREAU, "init", self.file], check=True)
        self.process = None
        self.serve()

    def serve(self):
        self.process = subprocess.Popen([BUREAU, "serve", self.file, str(self.port), "1000000"],
                                        stdin=subprocess.DEVNULL, stdout=subprocess.DEVNULL,
                                        stderr=subprocess.DEVNULL)
        # The port is bound before the file is opened, so that an answer tells that it is.
        self.ask("GET", "/queue")

    def ask(self, method, path, body=b""):
        """The answer; None where the bureau was killed within."""
        try:
            return asked(connected(self.process, self.port), method, path, body)
        except (AttributeError, ValueError):
            return None

    def kill(self):
        self.process.send_signal(signal.SIGKILL)
        self.process.wait()

    def kill_and_serve(self):
        self.kill()
        self.serve()
