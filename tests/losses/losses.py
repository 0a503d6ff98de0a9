"""The form of the cases: what stands before, a script that could lose some of it, and what has to stand afterwards.

A file NAME.losses has lines of comment, which begin with `#`, and cases. `== NAME` begins one; then comes a line for each of

    script               the script; its lines follow, each after `| `, where `\\xNN` is the byte of that number
    arguments WORD ..    its arguments
    options WORD ..      options beside `--host sh --share f`
    words WORD ..        all options, in place of these
    before PATH ..       what stands before the run
    after PATH ..        what stands afterwards in place of that
    gone PATH            what is not there afterwards
    anywhere PATH        its bytes stand somewhere below `f` afterwards; of all else only what is `gone` is looked at
    mode PATH MODE       the mode before; `mode-after` afterwards
    status N             the exit status (default: 0); `not 0`: any other; `any`
    says PATTERN         a line of standard error has it; may be repeated
    prints PATTERN       a line of standard output has it
    silent               nothing is written to standard error
    at most N lines      on both outputs together
    answers              standard input; its lines follow, each after `| `; without it there is none
    waits N              standard input stays open for so many seconds
    kill NAME ..         a run for each of these signals, after the seconds of `waits`, which begin when there is a file `started`
    seconds N            it has ended by then (default: 60)
    blocks N             no file may have more than N blocks of 1,024 bytes; `blocks N ignored`: SIGXFSZ is ignored
    closed N             the descriptor is closed
    nobody               the user is nobody; needs root
    user UID:GID[:GROUP ..]  the user; needs root
    owner PATH UID:GID   the owner and the group before; `owner-after` afterwards; needs root
    no more PATH PATH    no group and no others may do more with the second afterwards than with the first before
    readers PATH PATH    nobody can read the second afterwards who could not read the first before, counting the folders above each
    mount PATH PATH      the first folder is mounted at the second too; needs root
    disk PATH OPTIONS    the folder is a file system in memory, with these options of mount; needs root
    first LINE           a line of sh that runs before the program; may be repeated
    outside LINE         a line of sh that runs after the seconds of `waits`, before the answers come; may be repeated
    fails KIND AT ERRNO [on] [from PATH]  this call of the program fails, as scripts/fail.c tells; needs gcc

PATH is followed by nothing (its lines follow, each after `| `), `of N` (so many bytes), `as PATH` (the bytes that this has before),
`-> TARGET` (a link) or `pipe`; it ends in `/` if it is a folder. `before PATH to N of M` makes N files PATH1, PATH2 .. of M bytes. All paths
are those of the folder in which the program runs; `\\xNN` in one is the byte of that number. What is not said to be otherwise stands
afterwards as before.
"""
import os
import re
import shlex

from rooms import FOLDER, PIPE, Link, filled

ENDING = ".losses"
NOBODY = 65534
DEFAULT = ["--host", "sh", "--share", "f"]


class BadCase(Exception):
    """A line of a case is unknown."""


def bytes_of(text):
    """The bytes of a text of a case."""
    return re.sub(rb"\\x([0-9a-f]{2})", lambda sign: bytes([int(sign[1], 16)]), text.encode("latin-1"))


def path_of(word):
    """The path of a word. One that is no UTF-8 is as this machine's names are read."""
    return os.fsdecode(bytes_of(word)) if "\\x" in word else word


def ids_of(word):
    return [int(number) for number in word.split(":")]


class Case:
    """What a case says. Objects are bytes, FOLDER, PIPE or a Link; afterwards None stands for what is gone."""

    def __init__(self, name):
        self.name, self.words, self.arguments, self.script, self.answers = name, list(DEFAULT), [], b"", b""
        self.before, self.after, self.modes, self.modes_after = {"f": FOLDER}, {}, {}, {}
        self.anywhere, self.says, self.prints, self.signals, self.mounts = [], [], [], [], []
        self.status, self.most, self.waits, self.seconds, self.blocks, self.closed = "0", None, 0.0, 60.0, None, None
        self.user, self.fails, self.owners, self.owners_after, self.disks = None, None, {}, {}, []
        self.first, self.outside, self.no_more, self.readers = [], [], [], []
        self.is_silent = self.ignores_size = False

    def take(self, line, text):
        """Takes a line with the text that follows it."""
        key, _, rest = line.partition(" ")
        words = rest.split()
        if key in ("before", "after"):
            self.place(getattr(self, key), words, text)
        elif key in ("script", "answers"):
            setattr(self, key, text)
        elif key in ("words", "arguments"):
            setattr(self, key, shlex.split(rest))
        elif key == "options":
            self.words += shlex.split(rest)
        elif key in ("anywhere", "says", "prints", "first", "outside"):
            getattr(self, key).append(path_of(rest) if key == "anywhere" else rest)
        elif key == "gone":
            self.after[path_of(rest)] = None
        elif key == "no":
            self.no_more.append(words[1:])
        elif key == "readers":
            self.readers.append(words)
        elif key in ("mode", "mode-after"):
            (self.modes if key == "mode" else self.modes_after)[words[0]] = int(words[1], 8)
        elif key in ("owner", "owner-after"):
            (self.owners if key == "owner" else self.owners_after)[words[0]] = tuple(ids_of(words[1]))
        elif key in ("nobody", "user"):
            self.user = ids_of(rest) if key == "user" else [NOBODY, NOBODY]
        elif key in ("mount", "disk"):
            (self.mounts if key == "mount" else self.disks).append(words)
        elif key == "fails":
            self.fails = words
        elif key == "kill":
            self.signals = words
        elif key == "at":
            self.most = int(words[1])
        elif key in ("waits", "seconds"):
            setattr(self, key, float(rest))
        elif key == "blocks":
            self.blocks, self.ignores_size = int(words[0]), "ignored" in words
        elif key == "closed":
            self.closed = int(rest)
        elif key == "status":
            self.status = rest
        elif key == "silent":
            self.is_silent = True
        else:
            raise BadCase(f"{self.name}: {line}")

    def place(self, stands, words, text):
        path, how = path_of(words[0]), words[1:]
        if path.endswith("/"):
            stands[path.rstrip("/")] = FOLDER
        elif not how:
            stands[path] = text
        elif how[0] == "of":
            stands[path] = filled(path, int(how[1]))
        elif how[0] == "as":
            stands[path] = self.before[how[1]]
        elif how[0] == "to":
            stands.update((f"{path}{number}", filled(f"{path}{number}", int(how[3]))) for number in range(1, int(how[1]) + 1))
        elif how[0] == "->":
            stands[path] = Link(how[1])
        elif how == ["pipe"]:
            stands[path] = PIPE
        else:
            raise BadCase(f"{self.name}: {' '.join(words)}")

    def needs_root(self):
        return bool(self.user or self.mounts or self.disks or self.owners or self.owners_after)

    def wanted(self):
        """What has to stand afterwards, with the folders on the way to it. One that stood before stays, unless it is gone by name."""
        stands = {path: what for path, what in {**self.before, **self.after}.items() if what is not None}
        for path in [*self.before, *stands]:
            for end in re.finditer("/", path):
                if path[: end.start()] not in self.after:
                    stands.setdefault(path[: end.start()], FOLDER)
        return stands


def cases_of(lines):
    """The cases of a file. Raises BadCase."""
    cases, key, text = [], None, []

    def close():
        if key is not None:
            cases[-1].take(key, b"".join(text))

    for line in lines:
        line = line.rstrip("\n")
        if line == "|" or line.startswith("| "):
            text.append(bytes_of(line[2:] + "\n"))
        elif line and not line.startswith("#"):
            close()
            key, text = None, []
            if line.startswith("== "):
                cases.append(Case(line[3:]))
            else:
                key = line
    close()
    return cases
