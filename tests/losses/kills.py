"""Runs that are killed before a call of a path: what the script did not delete stands somewhere, and no file is torn. After a power cut
what was written and not brought to the disk is empty.

A kill can leave a temporary file, and that may be the only one that has the bytes of a file whose place another object was given.
"""
from races import Race, started
from rooms import FOLDER, filled

DATA = {"f/a": b"precious a\n", "f/b": b"precious b\n", "f/c": b"precious c\n"}
TREE = {f"f/{folder}/{name}": f"precious {folder}/{name}\n".encode() for folder in "deg" for name in "xy"}
LARGE = {"f/a": filled("a", 70000), "f/b": filled("b", 70013), "f/d/a": filled("d/a", 70026)}
SMALL = {"f/c": b"precious c\n"}
PROGRAM = "sh -c true"

# What stands before, and the script, which loses none of it.
SCRIPTS = [
    ("a file becomes a directory", DATA, ["Rename a t", "MakeDir a", "Rename t a/t", "Rename b a/b"]),
    ("a directory becomes a file", TREE, ["Rename d/x t", "Rename d/y u", "Delete d", "Rename t d"]),
    ("two files change places", DATA, ["Rename a t", "Rename b a", "Rename t b"]),
    ("three files change places", DATA, ["Rename a t", "Rename b a", "Rename c b", "Rename t c"]),
    ("a file is moved out, and another is in its place", DATA, ["Rename a T:a", "Rename b a", PROGRAM, "Rename T:a b"]),
    ("a file is moved out, and another is in its place to the end", DATA, ["Rename a T:a", "Echo >a new", PROGRAM, "Echo >>a more"]),
    ("two files change places outside", DATA, ["Rename a T:a", "Rename b T:b", "Rename T:a b", PROGRAM, "Rename T:b a"]),
    ("a file is lengthened", DATA, ["Echo >>a more"]),
    ("a file is copied and written over", DATA, ["Copy a b2 QUIET", "Echo >a new"]),
    ("two directories change places", TREE, ["Rename d t", "Rename e d", "Rename t e"]),
    ("three directories change places", TREE, ["Rename d t", "Rename e d", "Rename g e", "Rename t g"]),
    ("a directory is moved out, and another is in its place", TREE, ["Rename d T:d", "Rename e d", PROGRAM, "Rename T:d e"]),
    ("a directory is moved out, and a file is in its place", {**TREE, **DATA}, ["Rename d T:d", "Rename a d", PROGRAM, "Delete d QUIET", "Rename T:d d"]),
    ("a directory goes into another one", TREE, ["Rename d e/d", PROGRAM, "Rename e/d g/d", "Rename e d"]),
    ("a large file is renamed", {**LARGE, **SMALL}, ["Rename a n", PROGRAM, "Rename n d/n"]),
    ("two large files change places", {**LARGE, **SMALL}, ["Rename a t", "Rename b a", "Rename t b"]),
    ("a large file changes places with a small one", {**LARGE, **SMALL}, ["Rename a t", "Rename c a", "Rename t c"]),
    ("a large file becomes a directory", {**LARGE, **SMALL}, ["Rename a t", "MakeDir a", "Rename t a/t"]),
    ("a directory becomes a large file", {**LARGE, **SMALL}, ["Rename d/a t", "Delete d", "Rename t d"]),
]
# What the script deletes in these is only that.
DELETED = {"a directory is moved out, and a file is in its place": ["f/a"]}


def judge(before, kept, made):
    """Every whole file, or one with a line more, stands below the folder; what is not temporary is one of these."""
    wholes = {what for what in before.values() if what is not FOLDER} | {b"", b"new\n", b"more\n", b"new\nmore\n"} | {what + b"more\n" for what in made}

    def of(trial):
        stands = {path: what for path, what in trial.stands.items() if path.startswith("f/") and isinstance(what, bytes)}
        lost = [path for path in kept if not any(what in (before[path], before[path] + b"more\n") for what in stands.values())]
        torn = [path for path, what in stands.items() if ".amishell-execute." not in path and what not in wholes]
        return f"lost: {lost}" if lost else f"torn: {torn}" if torn else None

    return of


def killed(name, before, lines, by="a kill"):
    kept = [path for path in before if path not in DELETED.get(name, [])]
    return Race(f"{by} while {name}", before, started(*lines), "kill -KILL $PPID", judge(before, kept, list(before.values())), is_power_cut=by != "a kill")


RENAMED = [
    ("files are renamed", DATA, ["Rename a a2", "Rename b b2", PROGRAM, "Rename c c2"]),
    ("a file is copied and deleted", DATA, ["Copy a a2 QUIET", "Delete a QUIET"]),
]

KILLS = [killed(*case) for case in SCRIPTS] + [killed(*case, by="a power cut") for case in SCRIPTS + RENAMED]
