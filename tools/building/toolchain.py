#!/usr/bin/env python3
"""The toolchain's command `rt`, as the tools here start it.

`toolchain.py WORDS ..` is `rt WORDS ..` but for two things. It takes the sum of a crate's files
once, where rt takes it anew for each crate that uses that crate; so it is only for a copy that
nobody edits. And it ends, with all that it has started, when its standard input ends: with the
process that started it, however that ends.
"""
import functools
import importlib.machinery
import importlib.util
import os
import shutil
import sys
import threading

sys.dont_write_bytecode = True


def home():
    """The folder of rt's own files, or None where another command is named rt."""
    folder = os.path.dirname(os.path.realpath(shutil.which("rt") or "/"))
    return folder if os.path.isfile(f"{folder}/rtlib.py") else None


def load(file):
    """A file of rt's as a module."""
    name = os.path.basename(file).partition(".")[0]
    loader = importlib.machinery.SourceFileLoader(name, f"{home()}/{file}")
    made = importlib.util.module_from_spec(importlib.util.spec_from_loader(name, loader))
    sys.modules[name] = made
    loader.exec_module(made)
    return made


def remember(rtlib):
    """Has rt find a crate's sum, and the crates below it, once."""
    rtlib.Crate.stamp = functools.lru_cache(None)(rtlib.Crate.stamp)
    rtlib.Crate.below = functools.lru_cache(None)(rtlib.Crate.below)


def stamps(top, names):
    """What rt keeps beside the library of each crate, lowest first, if it is made of these sources;
    nothing where rt is another command."""
    if home() is None:
        return {}
    rtlib = load("rtlib.py")
    remember(rtlib)
    known = {}
    for name in names:
        folder = f"{top}/crates/{name}"
        known[folder] = rtlib.Crate(folder, top, known)
    return {name: known[f"{top}/crates/{name}"].stamp() for name in names}


def command():
    """The arguments that start rt in a copy that nobody edits."""
    return ["rt"] if home() is None else [sys.executable, os.path.realpath(__file__)]


def end_with_starter():
    while os.read(0, 4096):
        pass
    os._exit(1)


def main(words):
    rt = load("rt")
    remember(rt.rtlib)
    # Its first call starts a process, which is to be done before there are threads.
    rt.rtlib.guarded()
    threading.Thread(target=end_with_starter, daemon=True).start()
    return rt.main(words)


if __name__ == "__main__":
    sys.exit(main(sys.argv[1:]))
