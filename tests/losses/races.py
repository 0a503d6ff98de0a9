"""The races: a script that changes a shared folder `f`, what another program does before one of its calls, and what then is a loss."""
from dataclasses import dataclass, field
from typing import Callable

from rooms import FOLDER, filled

LINE = "a line of another program"
# with --core a file of more than 65,536 bytes is a stand-in
SHARED = ["--core", "--share", "f"]


@dataclass
class Race:
    """A race. At most so many of its calls may lose something, each of which `named` describes: docs/EXECUTE.md names them."""

    name: str
    before: dict
    script: str
    act: str
    judge: Callable
    most: int = 0
    named: str = ""
    options: list = field(default_factory=lambda: SHARED)
    prepare: str = "true"
    is_after_start: bool = True
    is_power_cut: bool = False


def started(*lines, mark="../go"):
    """A script; the other program acts only after its first line."""
    return "\n".join(["FailAt 100", f'sh -c "touch {mark}"', *lines]) + "\n"


# What another program adds to a file, or puts in its place, is lost nowhere.

def seen(path, *lines):
    """A script that shows a file before it changes it: what it saw it may change and delete."""
    return started(f"List {path}", f"Type {path}", *lines)


def line_is_there(trial):
    was_seen = LINE in trial.said or "on this machine alone" in trial.said and "70000 bytes" not in trial.said
    return None if was_seen or trial.has_line() else "the line is lost"


def line_is_there_and_nothing_is_left(trial):
    return line_is_there(trial) or (f"{trial.left()} is left" if trial.left() else None)


FILES = {f"f/n{number}": f"{number}\n".encode() for number in range(3)}
A = {"f/a": b"a\n", **FILES}
D = {"f/d/x": b"x\n"}
LARGE = {"f/a": filled("a", 70000)}
INTO = [f"Rename n{number} a/n{number}" for number in range(3)]
# The file, its path, and the script: first those in which the file is moved aside, then those in which it is deleted.
ASIDE = [
    ("a file that becomes a directory", "a", A, ["Rename a t", "MakeDir a", "Rename t a/t"]),
    ("a file that becomes a directory with more in it", "a", A, ["Rename a t", "MakeDir a", "Rename t a/t", *INTO]),
    ("a file that is deleted and becomes a directory", "a", A, ["Delete a", "MakeDir a", "Echo >a/x new", "Echo >a/y new"]),
    ("a file that is moved out, and a directory in its place", "a", A, ["Rename a T:a", "MakeDir a", "Echo >a/x new"]),
    ("a file that is moved out, and another in its place", "a", A, ["Rename a T:a", "Echo >a new"]),
    ("a file in a directory that becomes a file", "d/x", D, ["Rename d/x t", "Delete d", "Rename t d"]),
    ("a file that is lengthened", "a", A, ["Echo >>a more"]),
    ("a file that is written over", "a", A, ["Echo >a new"]),
    ("a file that changes places with another", "a", A, ["Rename a t", "Rename n1 a", "Rename t n1"]),
    ("a large file that becomes a directory", "a", LARGE, ["Rename a t", "MakeDir a", "Rename t a/t"]),
]
DELETED = [
    ("a file that is deleted", "a", A, ["Delete a"]),
    ("a file that is renamed", "a", A, ["Rename a n"]),
    ("a file that is renamed into a new directory", "a", A, ["MakeDir d", "Rename a d/a"]),
    ("a file that is renamed and lengthened", "a", A, ["Rename a n", "Echo >>n more"]),
    ("a file in a directory that is deleted", "d/x", D, ["Delete d ALL"]),
    ("a file in a directory that is renamed", "d/x", D, ["Rename d e"]),
    ("a file that is moved out", "a", A, ["Rename a T:a"]),
    ("a large file that is renamed", "a", LARGE, ["Rename a n"]),
    ("a large file that is deleted", "a", LARGE, ["Protect a +d", "Delete a"]),
]
# Nobody can see what comes in the very moment in which the last name of a file is taken away, or given to another.
MOMENT = "(unlink|rename) "


def added(name, path, before, lines, most):
    return Race(f"a line is added by its name to {name}", before, seen(path, *lines), f'[ ! -d f/{path} ] && echo "{LINE}" >>f/{path}',
                line_is_there_and_nothing_is_left, most=most, named=MOMENT)


def added_by_a_handle(name, path, before, lines):
    """The handle is one more name of the file, outside; only while the file has one in the folder something is added."""
    return Race(f"a line is added by a handle to {name}", before, seen(path, *lines),
                f'[ "$(stat -c %h held)" -gt 1 ] && echo "{LINE}" >>held', line_is_there, most=2, named=MOMENT, prepare=f"ln f/{path} held")


def replaced(name, path, before, lines):
    return Race(f"another file takes the place of {name}", before, seen(path, *lines),
                f'[ ! -d f/{path} ] && echo "{LINE}" >new && mv new f/{path}', line_is_there_and_nothing_is_left, most=1, named=MOMENT)


CHANGED = [added(*change, 0) for change in ASIDE] + [added(*change, 1) for change in DELETED]
CHANGED += [added_by_a_handle(*change) for change in ASIDE + DELETED] + [replaced(*change) for change in ASIDE + DELETED]


def both_stand(trial):
    """What both made stands, or the Shell's is told to be missing, or the script saw the other's and made nothing."""
    if not trial.has_line():
        return "the line is lost"
    if "theirs" in trial.said:
        return None
    is_written = any(isinstance(what, bytes) and b"of the Shell" in what for path, what in trial.stands.items() if path.startswith("f/"))
    return None if is_written or trial.status == 125 else "what the Shell made is nowhere, and the status is not 125"


def unless_there(path):
    return [f"If NOT EXISTS {path}", f'Echo >{path} "of the Shell"', "Else", "Echo theirs", "EndIf"]


BOTH = [Race("both make a file", FILES, started(*unless_there("new")), f'echo "{LINE}" >>f/new', both_stand),
        Race("both make a file of a new directory", FILES, started("MakeDir d", *unless_there("d/new")),
             f'mkdir -p f/d && echo "{LINE}" >>f/d/new', both_stand),
        Race("both lengthen a file", A, started('Echo >>a "of the Shell"'), f'echo "{LINE}" >>f/a', both_stand)]


# The folder, or one in it, is exchanged: nothing is written or deleted but in the one that was given.

TREE = {"f/old": b"1\n", "f/d/old": b"2\n", "f/d/kept": b"3\n", "f/d/change": b"4\n", "f/d/move": b"5\n", "f/k": b"6\n", "f/g/x": b"7\n",
        "f/e/one": b"8\n", "f/kept": b"9\n", "f/big": filled("big", 70000), "f/d/big": filled("d/big", 70000)}
UPDATE = started("Echo >new new", "Echo >d/new new", "Delete old d/old QUIET", "Echo >d/change new", "Rename d/move d/moved", "Rename k t", "MakeDir k",
                 "Rename t k/t", "Rename g/x t", "Delete g", "Rename t g", "Delete e ALL QUIET", "Protect big +d", "Delete big QUIET",
                 "Rename d/big d/bigger")
# The same objects, with the same bytes and times, where nothing may be touched.
COPIED = "cp -a f out"


def outside(stands):
    """What stands outside of the folder that was given."""
    return {path: what for path, what in stands.items() if path.startswith(("out/", "out.was/"))}


def nothing_outside(trial, moved=lambda path: path):
    came, wanted = ({moved(path): what for path, what in outside(stands).items()} for stands in (trial.stands, trial.before))
    written, gone = sorted(came.keys() - wanted.keys()), sorted(wanted.keys() - came.keys())
    changed = sorted(path for path in came.keys() & wanted.keys() if came[path] != wanted[path])
    found = [f"{word} {paths}" for word, paths in (("written", written), ("deleted", gone), ("changed", changed)) if paths]
    return "outside: " + ", ".join(found) if found else nothing_lost(trial)


def nothing_lost(trial):
    """What the script did not touch stands in the folder, wherever that is by now."""
    stand = {what for path, what in trial.stands.items() if isinstance(what, bytes) and not path.startswith("out/")}
    lost = [path for path in ("f/kept", "f/d/kept", "f/d/move", "f/k", "f/g/x", "f/d/big") if trial.before[path] not in stand]
    return f"lost: {lost}" if lost else None


EXCHANGED = [
    Race("the folder becomes a link", TREE, UPDATE, "mv f f.was && ln -s out f", nothing_outside, prepare=COPIED),
    Race("the folder becomes a link of other names", TREE, UPDATE, "mv f f.was && ln -s out f", nothing_outside, prepare="mkdir out"),
    Race("the folder becomes a link and then itself again", TREE, UPDATE, "mv f f.was && ln -s out f && rm f && mv f.was f", nothing_outside,
         prepare=COPIED),
    Race("the folder above becomes a link", {f"up/{path}": what for path, what in TREE.items()}, UPDATE.replace("../go", "../../go"), "mv up up.was && ln -s out up",
         lambda trial: above_outside(trial), options=["--core", "--share", "up/f"], prepare="cp -a up out"),
    Race("a folder in it becomes a link", TREE, UPDATE, "[ -d f/d ] && mv f/d d.was && ln -s ../out/d f/d", nothing_outside, prepare=COPIED),
    Race("a folder in it becomes a link to an empty one", TREE, UPDATE, "[ -d f/d ] && mv f/d d.was && ln -s ../out f/d", nothing_outside,
         prepare="mkdir out"),
    Race("a folder that is deleted becomes a link", TREE, UPDATE, "[ -d f/e ] && mv f/e e.was && ln -s ../out/e f/e", nothing_outside, prepare=COPIED),
    Race("a folder that becomes a file becomes a link", TREE, UPDATE, "[ -d f/g ] && mv f/g g.was && ln -s ../out/g f/g", nothing_outside,
         prepare=COPIED),
    Race("a new folder becomes a link", TREE, UPDATE, "[ -d f/k ] && mv f/k k.was && ln -s ../out f/k", nothing_outside, prepare="mkdir out"),
]


def above_outside(trial):
    came, wanted = outside(trial.stands), outside(trial.before)
    return None if came == wanted else f"outside: {sorted(path for path in came.keys() | wanted.keys() if came.get(path) != wanted.get(path))}"


# What was moved stands somewhere, though another program takes its new name, or moves it back.

def moved_stands(trial):
    return None if any(what == b"a\n" for path, what in trial.stands.items() if path.startswith("f/")) else "the bytes of a are lost"


def lengthened_stands(trial):
    """What the script moved and lengthened stands, and so does what it had changed places with."""
    stand = [what for path, what in trial.stands.items() if path.startswith("f/") and isinstance(what, bytes)]
    lost = [token for token in (b"a\n", b"n1\n") if not any(what.startswith(token) for what in stand)]
    return f"the bytes {lost} are lost" if lost else line_is_there(trial)


EXCHANGED_AND_LENGTHENED = {"f/a": b"a\n", "f/n1": b"n1\n"}
MOVED = [
    Race("a file changes places with another and is lengthened, and so is the other", EXCHANGED_AND_LENGTHENED,
         started("Rename a t", "Rename n1 a", "Rename t n1", "Echo >>n1 more"), f'echo "{LINE}" >>f/n1', lengthened_stands),
    Race("a directory changes places with another, a file in it is lengthened, and so is one in the other", {"f/d/a": b"a\n", "f/e/a": b"n1\n"},
         started("Rename d t", "Rename e d", "Rename t e", "Echo >>e/a more"), f'echo "{LINE}" >>f/e/a', lengthened_stands),
    Race("a file that was moved out comes in where another program makes one", A,
         started("Rename a T:a", "Echo >a new", "sh -c true", "Rename T:a b", "sh -c true"), "[ -e f/b ] || echo theirs >f/b", moved_stands),
    Race("a file that is renamed is moved back", A, started("Rename a b", "Rename n0 m0", "Rename n1 m1"), "[ -f f/b ] && mv f/b f/a", moved_stands, most=1,
         named=MOMENT),
    Race("a directory that is renamed is moved back", {"f/d/a": b"a\n", "f/d/b": b"b\n"}, started("Rename d e"), "[ -f f/e/a ] && mv f/e/a f/d/a", moved_stands,
         most=1, named=MOMENT),
]


# A file becomes a pipe. Only between the look at it and its opening nobody can see that.

def ends(trial):
    return None


PIPES = [
    Race("a shared file becomes a pipe", A, started("Echo >b new", "Echo >>a more", "Delete n1", "sh -c true"), "rm -f f/a && mkfifo f/a", ends,
         most=3, named="open .*a$"),
    Race("a shared file that is deleted becomes a pipe", A, started("Delete a", "sh -c true"), "rm -f f/a && mkfifo f/a", ends, most=2,
         named="open .*a$"),
    Race("a file that is brought in becomes a pipe", {"d/a": b"a\n", "d/b": b"b\n"}, "Echo hi\n", "rm -f d/a && mkfifo d/a", ends,
         most=1, named="open .*a$", options=["--bring", "d"], is_after_start=False),
]


# What is taken replaces nothing that another program makes after the look at its place: by then there is a call of a temporary file.

def line_is_at_its_place(trial):
    stands = trial.stands.get("out")
    is_after_look = "acted" in trial.stands and ".amishell-execute." in " ".join(trial.call[1:2])
    return "the line is lost" if is_after_look and (stands is None or LINE.encode() not in stands) else None


TAKEN = [
    Race("what is taken comes where another program makes a file", {}, "Echo >RAM:out new\n", f'[ ! -e out ] && echo "{LINE}" >out', line_is_at_its_place,
         options=["--take", "RAM:out"], is_after_start=False),
    Race("what is taken takes the place of a file that another program replaces", {"out": b"old\n"}, "Echo >RAM:out new\n",
         f'grep -q old out && echo "{LINE}" >theirs && mv theirs out', line_is_at_its_place, most=1, named=MOMENT, options=["--take", "RAM:out"],
         is_after_start=False),
]

# What takes the name of an object whose mode is set does not get that mode, nor does what a link leads to.

def mode_stays(trial):
    mode = trial.modes.get("other")
    return None if mode == 0o755 else f"the mode of what the link leads to is {mode:o}"


MODES = [
    Race("a large file that is renamed out of a closed folder becomes a link", {"f/d/a": filled("a", 70000), "other": b"theirs\n"}, started("Rename d/a a"),
         "[ -f f/a ] && rm f/a && ln -s ../other f/a", mode_stays, prepare="chmod 700 f/d; chmod 755 other"),
    Race("a folder that is renamed becomes a link to another one", {"f/d/a": b"a\n", "other": FOLDER}, started("Rename d e"),
         "[ -d f/e ] && rmdir f/e && ln -s ../other f/e", mode_stays, prepare="chmod 700 f/d; chmod 755 other"),
]

RACES = EXCHANGED + BOTH + CHANGED + MOVED + PIPES + TAKEN + MODES
