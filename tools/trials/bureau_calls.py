"""What scripts beside this one share: ports, requests to a program that serves, names of files."""

import http.client
import itertools
import os
import socket
import threading
import time

TOP = os.path.dirname(os.path.dirname(os.path.dirname(os.path.realpath(__file__))))
# How every subcommand answers a file that it can't use: the status and both outputs.
REFUSED = (3, "", "fault 2\n")
# Below the ports that the system gives to clients, so that nobody takes one by chance.
PORTS = itertools.cycle(range(20000 + os.getpid() * 97 % 8000, 32000))
TURN = threading.Lock()


def example(name):
    """The text of a file of examples/."""
    with open(f"{TOP}/examples/{name}", encoding="ascii") as file:
        return file.read()


def names(folder):
    """Every name under a folder."""
    found = []
    for place, folders, files in os.walk(folder):
        found += [os.path.relpath(os.path.join(place, name), folder) for name in folders + files]
    return sorted(found)


def free_port():
    """A port on which nobody listens."""
    with TURN:
        for port in PORTS:
            with socket.socket() as one:
                one.setsockopt(socket.SOL_SOCKET, socket.SO_REUSEADDR, 1)
                try:
                    one.bind(("127.0.0.1", port))
                except OSError:
                    continue
                return port


def connected(process, port, seconds=60, small=False):
    """A connection to a process that serves; None where the process has ended. A small one has
    room for some thousand bytes of an answer that nobody takes."""
    end = time.monotonic() + seconds
    while time.monotonic() < end:
        stream = socket.socket()
        stream.settimeout(seconds)
        if small:
            stream.setsockopt(socket.SOL_SOCKET, socket.SO_RCVBUF, 2048)
            stream.setsockopt(socket.IPPROTO_TCP, socket.TCP_MAXSEG, 536)
        try:
            stream.connect(("127.0.0.1", port))
            return stream
        except ConnectionError:
            stream.close()
            if process.poll() is not None:
                return None
            time.sleep(0.0005)
    raise ValueError(f"it does not listen after {seconds} seconds")


def asked(stream, method, path, body=b""):
    """The status and the body of the answer; None where no whole answer came."""
    line = http.client.HTTPConnection("127.0.0.1")
    line.sock = stream
    try:
        line.request(method, path, body=body or None)
        answer = line.getresponse()
        return answer.status, answer.read().decode("ascii")
    except (OSError, http.client.HTTPException):
        return None
    finally:
        line.close()
        stream.close()
