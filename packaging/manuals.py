"""Looks at manual pages and completions that were made of a program's help."""
import os
import re
import shutil
import subprocess

import helped
from programs import asked

MACROS = {".TH", ".SH", ".SS", ".PP", ".TP", ".B", ".BR", ".I", ".RI", ".br", ".EX", ".EE", ".RS",
          ".RE"}
SECTIONS = ["NAME", "SYNOPSIS", "DESCRIPTION", "SUBCOMMANDS", "VERSION", "SEE ALSO"]
ESCAPES = (("\\(ga", "`"), ("\\(aq", "'"), ("\\(ha", "^"), ("\\(ti", "~"), ("\\-", "-"),
           ("\\&", ""), ("\\e", "\\"))

# Completes a subcommand, and of each the options.
SCRIPT = """\
. "$1" || exit
COMP_WORDS=(NAME "") COMP_CWORD=1
_NAME
printf '%s\\n' "${COMPREPLY[@]}"
for row in "${COMPREPLY[@]}"; do
    COMP_WORDS=(NAME "$row" --) COMP_CWORD=2
    _NAME
    [[ " ${COMPREPLY[*]} " == *' --help '* ]] || exit
done"""


def plain(text):
    for name, sign in ESCAPES:
        text = text.replace(name, sign)
    return text


def structure(lines):
    """What of a page's form is not so."""
    if not lines[1:] or not re.fullmatch(r'\.TH [A-Z-]+ 1 "[\d-]+" "[^"]+" "Puckersilt"', lines[1]):
        yield "its second line is no title"
    opened = []
    for number, line in enumerate(lines[1:], 2):
        macro = line.split(" ")[0]
        if line.startswith("'") or line.startswith(".") and macro not in MACROS:
            yield f"line {number} is a request that no page has: {line}"
        if macro in (".EX", ".RS"):
            opened.append(macro)
        elif macro in (".EE", ".RE") and (not opened or opened.pop()[1] != macro[1]):
            yield f"line {number} ends what was not begun"
    if opened:
        yield f"{opened[0]} has no end"
    if [line[4:] for line in lines if line.startswith(".SH ")] != SECTIONS:
        yield f"its sections are not {', '.join(SECTIONS)}"


def wrong(file, folder, name):
    """What is not so in the manual page of a program."""
    where = os.path.basename(file)
    if not os.path.isfile(file):
        yield f"{where}: it is not there"
        return
    with open(file, encoding="ascii", errors="replace") as it:
        text = it.read()
    yield from (f"{where}: {line}" for line in structure(text.splitlines()))
    rows = helped.subcommands(asked(f"{folder}/{name}", "--help"))
    if re.findall(r"^\.SS (.*)$", text, re.M) != rows:
        yield f"{where}: its subcommands are not those of the program"
    has = set(plain(text).split())
    for words in ([], *([it] for it in rows)):
        lacks = set(asked(f"{folder}/{name}", *words, "--help").split()) - has
        # A call ends in a colon, and what it does in a full stop, which the page has not.
        lacks = {it for it in lacks if it.rstrip(":.") not in has}
        if lacks:
            yield f"{where}: it lacks of the help of {' '.join([name, *words])}: {sorted(lacks)}"
    if shutil.which("mandoc"):
        ran = subprocess.run(["mandoc", "-Tlint", "-W", "warning", file], stdout=subprocess.PIPE,
                             stderr=subprocess.STDOUT, text=True, check=False)
        yield from (f"{where}: {line}" for line in ran.stdout.splitlines())


def incomplete(file, folder, name):
    """What is not so in the completion of a program."""
    where = f"completion of {name}"
    if not os.path.isfile(file):
        yield f"{where}: it is not there"
    elif shutil.which("bash"):
        rows = helped.subcommands(asked(f"{folder}/{name}", "--help"))
        script = SCRIPT.replace("NAME", name)
        ran = subprocess.run(["bash", "--norc", "-c", script, "bash", file],
                             stdin=subprocess.DEVNULL, stdout=subprocess.PIPE,
                             stderr=subprocess.STDOUT, text=True, check=False)
        if ran.returncode or ran.stdout.split() != rows:
            yield f"{where}: it does not complete the subcommands: {ran.stdout.strip()}"
