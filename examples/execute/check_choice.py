#!/usr/bin/env python3
"""Checks RequestChoice of --common: what it asks and prints at a terminal, gadgets in one argument too, and that it fails where there is none.

usage: examples/execute/check_choice.py PROGRAM

The last line is 'N passed, M failed'.
"""
import os
import pty
import subprocess
import sys
import tempfile

os.environ["XDG_CONFIG_HOME"] = "/dev/null"
SCRIPT = 'FailAt 21\nRequestChoice >ENV:choice "Install" "Where to?" {}\nEcho "chosen: $choice, code $RC"\n'
# The gadgets, which are the same in each; a bar separates those of one argument.
GADGETS = ["RAM Disk Nowhere", '"RAM|Disk|Nowhere"', 'RAM "Disk|Nowhere"']
SHOWN = "Install\nWhere to?\n  1  RAM\n  2  Disk\n  0  Nowhere\nYour choice: "
# By what is typed: what the script prints, and how often the question stands at the terminal.
ANSWERS = {"2\n": ("chosen: 2, code 0\n", 1), "0\n": ("chosen: 0, code 0\n", 1), "Disk\n": ("chosen: 2, code 0\n", 1), "7\n\n1\n": ("chosen: 1, code 0\n", 3)}


def words_of(program, folder, gadgets):
    """The words of a run of the script with these gadgets, which is written to the folder."""
    with open(f"{folder}/install", "w", encoding="ascii") as file:
        file.write(SCRIPT.format(gadgets))
    return [program, "--common", f"{folder}/install"]


def at_terminal(words, typed):
    """What the script prints, and what stands at the terminal of its session but for what is typed there; then the input ends."""
    output, printed = os.pipe()
    child, terminal = pty.fork()
    if child == 0:
        os.dup2(printed, 1)
        os.execv(words[0], words)
    os.close(printed)
    os.write(terminal, typed.encode() + b"\x04")
    with os.fdopen(output, "rb") as file:
        out = file.read().decode()
    shown = b""
    try:
        while piece := os.read(terminal, 4096):
            shown += piece
    except OSError:
        pass  # the end of a terminal that nobody has open
    os.waitpid(child, 0)
    os.close(terminal)
    return out, shown.decode().replace("\r\n", "\n")


def main(words):
    if len(words) != 1:
        sys.exit("usage: examples/execute/check_choice.py PROGRAM")
    failed, program = 0, os.path.abspath(words[0])
    with tempfile.TemporaryDirectory(prefix="choice-") as folder:
        for gadgets in GADGETS:
            run = words_of(program, folder, gadgets)
            for typed, (wanted, times) in ANSWERS.items():
                out, shown = at_terminal(run, typed)
                good = out == wanted and shown.count(SHOWN) == times
                failed += not good
                print(f"choice {typed!r} of {gadgets}: {'ok' if good else f'FAILED: {out!r} {shown!r}'}")
        alone = subprocess.run(run, stdin=subprocess.DEVNULL, capture_output=True, text=True, start_new_session=True, timeout=60)
        good = alone.stdout == "chosen: , code 20\n" and "RequestChoice: no terminal to ask at: Install\n" in alone.stderr
        failed += not good
        print(f"choice without a terminal: {'ok' if good else f'FAILED: {alone}'}")
    print(f"{len(GADGETS) * len(ANSWERS) + 1 - failed} passed, {failed} failed")
    return 1 if failed else 0


sys.exit(main(sys.argv[1:]))
