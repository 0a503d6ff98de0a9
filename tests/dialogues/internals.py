#!/usr/bin/env python3
"""The rows of the internal commands as Resident lists them, which stand in one place: the file internal-commands has their names, in order.

In what a dialogue or a list of events prints, a line `\\internals` stands for all of them; `\\internals NAME` says that NAME is disabled.

usage: tests/dialogues/internals.py      (writes standard input with each such line, also after `| `, as its rows)
"""
import os
import sys

FOLDER = os.path.dirname(os.path.realpath(__file__))
WORD = b"\\internals"
SIGN = b"| "


def listed(line):
    """The lines for which a written line stands, without their newlines: the rows, or the line itself."""
    sign = SIGN if line.startswith(SIGN + WORD) else b""
    word, *disabled = line.removeprefix(sign).split(b" ")
    if word != WORD:
        return [line]
    with open(f"{FOLDER}/internal-commands", "rb") as file:
        names = file.read().split()
    return [sign + b"%-20s %s" % (name, b"DISABLED" if name in disabled else b"  -2") for name in names]


def expanded(text):
    """A text with the lines for which its lines stand."""
    return b"\n".join(row for line in text.split(b"\n") for row in listed(line))


if __name__ == "__main__":
    sys.stdout.buffer.write(expanded(sys.stdin.buffer.read()))
