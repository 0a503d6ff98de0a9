"""Races across two shared folders `f` and `g`, the volumes Work: and Backup: a run is killed, or another program acts, before a call of a path."""
from races import LINE, MOMENT, Race, started
from rooms import filled

OPTIONS = ["--share", "f=Work:", "--share", "g=Backup:"]
# with --core a file of more than 65,536 bytes is a stand-in
CORE = ["--core", *OPTIONS]
PROGRAM = "sh -c true"

DATA = {"f/a": b"precious a\n", "f/b": b"precious b\n", "g/a": b"other a\n", "g/c": b"precious c\n"}
TREE = {**{f"f/{folder}/{name}": f"precious {folder}/{name}\n".encode() for folder in "de" for name in "xy"}, "g/k": b"precious k\n", "f/a": b"precious a\n"}
LARGE = {"f/big": filled("f/big", 70000), "g/big": filled("g/big", 70013), "f/small": b"precious small\n", "g/old": b"precious old\n"}
EXCHANGE = ["Rename Work:a Work:z", "Rename Backup:a Work:a", "Rename Work:z Backup:a"]

# What stands before, and the script, which loses none of it.
SCRIPTS = [
    ("two files change places", DATA, EXCHANGE),
    ("three files change places by way of memory", DATA, ["Rename Work:a T:z", "Rename Backup:a Work:a", "Rename Work:b Backup:a", "Rename T:z Work:b"]),
    ("a file is copied to the other and deleted", DATA, ["Copy Work:b Backup: QUIET", "Delete Work:b QUIET"]),
    ("two files are moved out, and programs start", DATA,
     ["Rename Work:a T:a", "Rename Backup:a T:b", PROGRAM, "Rename T:a Backup:a", PROGRAM, "Rename T:b Work:a"]),
    ("all goes to the other by a pattern", TREE, ["Rename Work:#? TO Backup:"]),
    ("a directory goes to the other, and a file of it is in its place", TREE, ["Rename Work:d Backup:d", "Rename Backup:k Work:d"]),
    ("a file goes to the other, and a directory is in its place", TREE, ["Rename Backup:k Work:k", "Rename Work:d Backup:k"]),
    ("the directories of both change places", TREE,
     ["CD RAM:", "Assign Work:", "Assign Backup:", "Rename RAM:share1/Work RAM:z", "Rename RAM:share2/Backup RAM:share1/Work", "Rename RAM:z RAM:share2/Backup"]),
    ("two large files change places", LARGE, ["Rename Work:big Work:z", "Rename Backup:big Work:big", "Rename Work:z Backup:big"]),
    ("a large file and a small one change places", LARGE, ["Rename Work:big Work:z", "Rename Backup:old Work:big", "Rename Work:z Backup:old"]),
]


def below(trial):
    """What stands in both folders, by its path."""
    return {path: what for path, what in trial.stands.items() if path.startswith(("f/", "g/")) and isinstance(what, bytes)}


def all_stand(before):
    """Every file stands in one of the folders, with what another program has added, and what is not temporary is one of them."""
    def judge(trial):
        stands = below(trial)
        lost = [path for path, was in before.items() if not any(what.startswith(was) for what in stands.values())]
        torn = [path for path, what in stands.items() if ".amishell-execute." not in path and not any(what.startswith(was) for was in before.values())]
        return f"lost: {lost}, torn: {torn}" if lost or torn else None

    return judge


def killed(name, before, lines):
    options = OPTIONS if any("#?" in line for line in lines) else CORE
    return Race(f"a kill while {name} across volumes", before, started(*lines), "kill -KILL $PPID", all_stand(before), options=options, prepare="mkdir -p f g")


def with_line(trial):
    """The other program's line stands, and so does each file."""
    line_stands = "acted" not in trial.stands or any(LINE.encode() in what for path, what in below(trial).items() if path not in trial.left())
    return all_stand(DATA)(trial) if line_stands else "the line is lost"


def added(name, path, lines, most):
    script = started("Type Work:a", "Type Backup:a", *lines)
    return Race(f"a line is added to {path} while {name} across volumes", DATA, script, f'[ -f {path} ] && echo "{LINE}" >>{path}', with_line,
                most=most, named=MOMENT, options=OPTIONS)


VOLUMES = [killed(*case) for case in SCRIPTS] + [
    added("it changes places with another", "f/a", EXCHANGE, 0),
    added("it changes places with another", "g/a", EXCHANGE, 0),
    added("it goes to the other", "f/b", ["Rename Work:b Backup:b"], 1),
    added("it comes from the other", "g/c", ["Rename Backup:c Work:c"], 1),
    added("several go to the other", "f/b", ["MakeDir Backup:d", "Rename Work:(a|b) TO Backup:d"], 1),
    added("they come there", "g/d/a", ["MakeDir Backup:d", "Rename Work:(a|b) TO Backup:d"], 0),
]
