"""What the script of a random plan does, by steps of some lines. What a step is to destroy it shows first, by itself or by a program that shows
what a directory of this machine has. After each line that adds a token the script says whether it was written."""
from names import ALL_PATHS, EXCHANGED, FOLDERS, OUT


def unless_there(path, line):
    return [f"If NOT EXISTS {path}", line, "EndIf"]


def added(plan, line):
    """The line with a token of the script at its end, and whether it was written."""
    token, path = plan.script_token(), line.split(">")[-1]
    return [*([f"Type {path}", f"List {path}"] if plan.has_closed else []), f"{line} {token}", "If NOT WARN", f"Echo wrote-{token[1:-1]}", "EndIf"]


def bits(numbers):
    return numbers.choice(["rwed", "+d", "+w", "-w", "-d", "+r"])


# Each takes the plan, two paths, two folders and a name outside.

MOVES = [
    lambda plan, path, other, *_: [f"Rename {path} {other}"],
    lambda plan, path, other, *_: [f"Rename {path} {other}"],
    lambda plan, path, other, *_: unless_there(other, f"Copy {path} {other} QUIET"),
    lambda plan, path, other, *_: [f"Rename {path} z", f"Rename {other} {path}", f"Rename z {other}"],
    lambda plan, path, other, *_: [f"Rename {path} {path.upper()}"],
    lambda plan, path, *_: [f"Rename {path} .n"],
]
OUTSIDE = [
    lambda plan, path, other, folder, second, out: [plan.act(), f"Rename {path} {out}"],
    lambda plan, path, other, folder, second, out: [plan.act(), f"Rename {folder} {out}"],
    lambda plan, path, other, folder, second, out: unless_there(path, f"Rename {out} {path}"),
    lambda plan, path, other, folder, second, out: unless_there(path, f"Rename {out} {path}"),
    lambda plan, path, other, folder, second, out: unless_there(folder, f"Rename {out} {folder}"),
    lambda plan, path, other, folder, second, out: unless_there(out, f"Copy {path} {out} QUIET"),
    lambda plan, path, other, folder, second, out: [plan.act(), f"Rename {path} {out}", f"Rename {other} {path}"],
    lambda plan, path, other, folder, second, out: [plan.act(), f"Rename {path} {out}", *added(plan, f"Echo >>{path}")],
    lambda plan, path, other, folder, second, out: [plan.act(), f"Rename {path} {out}", f"Rename {other} {path}", f"Rename {out} {other}"],
    lambda plan, path, other, folder, second, out: [plan.act(), f"Rename {folder} {out}", f"Rename {second} {folder}", f"Rename {out} {second}"],
    lambda plan, path, other, folder, second, out: [f"Type {out}", f"List {out}", f"Echo >>{out} more"],
    lambda plan, path, other, folder, second, out: [f"Type {out}", f"List {out}", f"Delete {out} QUIET"],
]
LARGE = [
    lambda plan, path, *_: [f"Protect {path} {bits(plan.numbers)}"],
    lambda plan, path, *_: [f"Protect {path} {bits(plan.numbers)}"],
    lambda plan, path, *_: [f"List {path}", f"Filenote {path} note"],
    lambda plan, path, other, *_: [f"Protect {path} rwed", f"Rename {path} {other}", *added(plan, f"Echo >>{other}")],
    lambda plan, path, other, *_: [f"Rename {path} {other}", f"Rename {other} z", f"Rename z {path}"],
    lambda plan, path, *_: [f"Type {path}", f"List {path}", f"Delete {path} QUIET"],
]
WRITES = [
    lambda plan, path, *_: added(plan, f"Echo >>{path}"),
    lambda plan, path, *_: added(plan, f"Echo >>{path}"),
    lambda plan, path, *_: [f"Type {path}", f"List {path}", *added(plan, f"Echo >{path}")],
    lambda plan, path, other, *_: unless_there(other, f"Join {path} b AS {other}"),
    lambda plan, path, other, *_: [f"Type {other}", f"List {other}", f"Type {other}/{path.split('/')[-1]}", f"List {other}/{path.split('/')[-1]}",
                                   f"Copy {path} {other} QUIET"],
    lambda plan, path, *_: [f"Type {path}", f"List {path}", f"Delete {path} QUIET"],
    lambda plan, path, *_: added(plan, "Echo >>.n"),
]
CIRCLES = [
    lambda plan, path, other, folder, second, out: unless_there(second, f"Rename {folder} {second}"),
    lambda plan, path, other, folder, second, out: unless_there(second, f"Rename {folder} {second}"),
    lambda plan, path, other, folder, second, out: [f"Rename {folder} z", f"Rename {second} {folder}", f"Rename z {second}"],
    lambda plan, path, other, folder, second, out: circle(plan),
    lambda plan, path, other, folder, second, out: circle(plan),
    lambda plan, path, other, folder, second, out: [f"Rename {folder} {second}/{folder}"],
    lambda plan, path, other, folder, second, out: [f"Rename {second}/{folder} {folder}"],
    lambda plan, path, other, folder, second, out: [f"Rename {folder}/{second} z", f"Rename {folder} z/{folder}", f"Rename z {second}"],
    lambda plan, path, other, folder, second, out: [f"MakeDir {folder}"],
    lambda plan, path, other, folder, second, out: [f"Rename {folder} {folder.upper()}"],
    lambda plan, path, other, folder, second, out: ["CD RAM:", "Rename Work Old", "Rename Old Work", "CD Work"],
    lambda plan, path, other, folder, second, out: ["CD RAM:", "Rename Work Old", "MakeDir Work", "Rename Old/d Work/d", "Copy Old Work ALL QUIET", "CD Work"],
]
KINDS_CHANGE = [
    lambda plan, path, *_: [f"Rename {path} z", f"MakeDir {path}", f"Rename z {path}/a"],
    lambda plan, path, other, folder, *_: [f"Rename {folder}/a z", f"Type {folder}", f"List {folder}", f"Delete {folder}", f"Rename z {folder}"],
    lambda plan, path, other, folder, *_: [f"Rename {folder} z", f"Rename {path} {folder}", f"Rename z {path}"],
    lambda plan, path, other, folder, second, out: [f"show {folder}", f"Delete {folder} ALL QUIET"],
    lambda plan, path, other, folder, second, out: [f"show {second}", f"Copy {folder} {second} ALL QUIET"],
]
# Of three names, which nothing but the script changes.
EXCHANGES = [
    lambda plan, one, two, three: [f"Rename {one} z", f"Rename {two} {one}", f"Rename z {two}"],
    lambda plan, one, two, three: [f"Rename {one} z", f"Rename {two} {one}", f"Rename {three} {two}", f"Rename z {three}"],
    lambda plan, one, two, three: [f"Rename {one} T:t", f"Rename {two} {one}", f"Rename T:t {two}"],
    lambda plan, one, two, three: [f"Rename {one} T:t", f"Rename {two} {one}", plan.act(), f"Rename T:t {two}"],
    lambda plan, one, two, three: [f"Rename {one} T:{one}"],
    lambda plan, one, two, three: [f"Rename T:{one} {one}"],
    lambda plan, one, two, three: [f"Rename T:{one} {two}"],
    lambda plan, one, two, three: [f"Rename {one} {two}/{one}"],
    lambda plan, one, two, three: [f"Rename {two}/{one} {one}"],
    lambda plan, one, two, three: [f"Rename {one} z", f"MakeDir {one}", f"Rename z {one}/a"],
    lambda plan, one, two, three: [f"Rename {one} .n"] if plan.has_closed else [plan.act()],
    lambda plan, one, two, three: [plan.act()],
]
PROGRAMS = [lambda plan, *_: [plan.act()]]
GROUPS = {"moves": MOVES, "out": OUTSIDE, "large": LARGE, "writes": WRITES, "folders": CIRCLES, "kinds": KINDS_CHANGE, "programs": PROGRAMS}


def circle(plan):
    """All folders change their names in a circle."""
    one, two, three = plan.numbers.sample(FOLDERS, 3)
    return [f"Rename {one} z", f"Rename {two} {one}", f"Rename {three} {two}", f"Rename z {three}"]


def step(plan):
    """Some lines; those of the plan's kind are more frequent."""
    numbers = plan.numbers
    if plan.has_exchanges:
        return [*numbers.choice(EXCHANGES)(plan, *numbers.sample(EXCHANGED, 3)), *([plan.act()] if numbers.random() < 0.4 else [])]
    groups = GROUPS[plan.kind] if plan.kind in GROUPS and numbers.random() < 0.6 else numbers.choice([*GROUPS.values(), PROGRAMS])
    path, other = numbers.choice(ALL_PATHS), numbers.choice(ALL_PATHS)
    folder, second = numbers.sample(FOLDERS, 2)
    return numbers.choice(groups)(plan, path, other, folder, second, numbers.choice(OUT))
