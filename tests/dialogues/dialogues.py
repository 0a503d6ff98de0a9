"""The form of dialogues: what is typed is after `> `, what is printed is below the line that prints it.

`>` alone types an empty line. If no newline is printed (or typed) after a line, the line ends in `\\`. A backslash
at the end that is itself printed or typed is written twice, and a printed line that begins with `>` is written with `\\>`.
A line `\\internals` stands for the rows of the internal commands (internals.py). All is bytes.

A file NAME.dialogue holds one. Before the first typed line it may have

    words WORD ..    the program's arguments (default: none)
    error TEXT       a line on standard error (default: none)
    status N         the exit status (default: 0)

A file full_NAME.dialogue is one of a world of Full: the program runs it with the option --full of `run`.
"""
import os
from typing import NamedTuple

from internals import listed

ENDING = ".dialogue"
IN_FULL = "full_"


class BadDialogue(Exception):
    """Not a dialogue: a line before the first typed one is unknown, or one without a newline is not the last."""


class Dialogue(NamedTuple):
    """A dialogue: the program's arguments, its parts in order, each a typed line and what is printed after it, and its end."""

    words: list
    parts: list
    error: bytes
    status: int

    def typed(self, between=b""):
        """All that is typed, with a text between each two lines."""
        return between.join(line for line, _ in self.parts)

    def printed(self, between=b""):
        """All that is printed, with a text between what each two lines print."""
        return between.join(text for _, text in self.parts)


def unescaped(line):
    """The bytes that a written line means, with their newline if they have one."""
    text = line.rstrip(b"\\")
    marks = len(line) - len(text)
    return text + b"\\" * (marks // 2) + (b"" if marks % 2 else b"\n")


def parts_of(lines):
    """The parts of a dialogue by its written lines, from the first typed one. Raises BadDialogue."""
    parts = []
    for line in lines:
        if line == b">" or line.startswith(b"> "):
            if parts and not parts[-1][0].endswith(b"\n"):
                raise BadDialogue("a line is typed after one without a newline")
            parts.append((unescaped(line[2:]), b""))
        else:
            typed, printed = parts[-1]
            rows = [unescaped(row.removeprefix(b"\\") if row.startswith(b"\\>") else row) for row in listed(line)]
            parts[-1] = (typed, printed + b"".join(rows))
    return parts


def taken_apart(lines):
    """A dialogue by its written lines, without their newlines. Raises BadDialogue if it is not valid."""
    words, error, status = [], b"", 0
    for place, line in enumerate(lines):
        if line.startswith(b">"):
            return Dialogue(words, parts_of(lines[place:]), error, status)
        head, _, value = line.partition(b" ")
        if head == b"words":
            words = value.decode().split()
        elif head == b"error":
            error += value + b"\n"
        elif head == b"status" and value.isdigit():
            status = int(value)
        else:
            raise BadDialogue(f"before a line is typed, {line!r} is unknown")
    return Dialogue(words, [], error, status)


def in_full(dialogue):
    """A dialogue with the program's arguments for a world of Full."""
    return dialogue._replace(words=["run", "--full", *dialogue.words[1:]])


def dialogues_in(folder):
    """The dialogues of a folder by their names, in order. Raises BadDialogue."""
    dialogues = {}
    for file in sorted(os.listdir(folder)):
        name, ending = os.path.splitext(file)
        if ending == ENDING:
            with open(f"{folder}/{file}", "rb") as written:
                text = written.read()
            dialogue = taken_apart(text.removesuffix(b"\n").split(b"\n") if text else [])
            dialogues[name] = in_full(dialogue) if name.startswith(IN_FULL) else dialogue
    return dialogues
