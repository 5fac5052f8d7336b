"""Runs the commands that README shows, in an unpacked archive.

Those are the indented lines that call one of the programs, curl or sha256sum. Each is to end with
status 0, and each line that a run of a deck or a request prints is to stand in README. The port is
another one. A command of curl is left out if curl is not there.
"""
import re
import shutil
import signal
import socket
import subprocess
import time

COMMAND = re.compile(r"    ((?:\./(?:bureau|operator|workbench)|curl|sha256sum) .*)")
SERVE = re.compile(r"(\./bureau serve \S+ )(\d+)( \d+) &")
TOLD = re.compile(r"\./bureau run |curl ")


def commands(text):
    return [found[1] for found in map(COMMAND.fullmatch, text.split("\n")) if found]


def free_port():
    with socket.socket() as it:
        it.bind(("127.0.0.1", 0))
        return it.getsockname()[1]


def wait_for(port):
    for _ in range(200):
        with socket.socket() as it:
            if it.connect_ex(("127.0.0.1", port)) == 0:
                return
        time.sleep(0.05)


class Walk:
    """The commands one after the other, and the service that one of them starts."""

    def __init__(self, room, text):
        self.room, self.text, self.served, self.ports = room, text, [], {}

    def run(self, command):
        """What is wrong with what a command does."""
        serve = SERVE.fullmatch(command)
        if serve:
            self.ports[serve[2]] = free_port()
            words = f"exec {serve[1]}{self.ports[serve[2]]}{serve[3]}"
            self.served.append(subprocess.Popen(["sh", "-c", words], cwd=self.room,
                                                stdin=subprocess.DEVNULL))
            wait_for(self.ports[serve[2]])
            return
        here = command
        for port, other in self.ports.items():
            here = here.replace(f"localhost:{port}/", f"localhost:{other}/")
        if here.startswith("curl "):
            here = f"curl -sS -m 60 --noproxy '*' {here[5:]}"
        try:
            ran = subprocess.run(["sh", "-c", here], cwd=self.room, stdin=subprocess.DEVNULL,
                                 stdout=subprocess.PIPE, stderr=subprocess.STDOUT, text=True,
                                 timeout=120, check=False)
        except subprocess.TimeoutExpired:
            yield f"README: {command}: it does not end"
            return
        if ran.returncode:
            yield f"README: {command}: status {ran.returncode}: {ran.stdout}"
        elif TOLD.match(command):
            for line in ran.stdout.splitlines():
                if f"`{line}`" not in self.text:
                    yield f"README: {command}: it does not show `{line}`, which is printed"

    def end(self):
        for it in self.served:
            it.send_signal(signal.SIGTERM)
            it.wait()


def wrong(room):
    """What of README's commands does not go as it shows, in a folder."""
    with open(f"{room}/README.md", encoding="utf-8") as file:
        text = file.read()
    found = commands(text)
    for wanted in ("./bureau run ", "./bureau serve ", "./workbench ", "curl "):
        if not any(it.startswith(wanted) for it in found):
            yield f"README: it shows no command {wanted}"
    walk = Walk(room, re.sub(r"\s+", " ", text))
    try:
        for command in found:
            if command.startswith("curl ") and not shutil.which("curl"):
                continue
            yield from walk.run(command)
    finally:
        walk.end()
