#!/usr/bin/env python3
"""Checks the scripts of all documents and dialogues by amishell-execute --check: it accuses just the lines that are listed here, each
of which fails in its document or dialogue (--lenient: not those for which a run does not run it), and an editor finds each line of which it speaks.

usage: examples/execute/check_scripts.py PROGRAM

A document has a script as a block "file NAME", a dialogue as lines "> Echo >NAME text" and "> Echo >>NAME text". Those of dialogues
full_NAME are checked in Full, all others in Core. The last line is 'N passed, M failed', over the scripts.
"""
import glob
import os
import re
import subprocess
import sys
import tempfile

os.environ["XDG_CONFIG_HOME"] = "/dev/null"
ROOT = os.path.dirname(os.path.dirname(os.path.dirname(os.path.realpath(__file__))))

# By document or dialogue and script: the lines that fail whenever they are taken.
WRONG = {
    ("LANGUAGE.md", "S:searched"): [3],
    ("aros_arguments.dialogue", "S:bad"): [1],
    ("aros_scripts.dialogue", "S:directive"): [1],
    ("aros_scripts.dialogue", "S:lost"): [1],
    ("bad_directives.dialogue", "S:foo"): [1],
    ("bad_directives.dialogue", "S:directive"): [2],
    ("deepest.dialogue", "S:bad"): [1],
    ("full_skip.dialogue", "S:e"): [3, 5],
    ("full_skip.dialogue", "S:j"): [1],
    ("if_faults.dialogue", "S:two"): [6, 7],
    ("if_faults.dialogue", "S:value"): [2, 3],
    ("key_faults.dialogue", "S:bad1"): [1],
    ("key_faults.dialogue", "S:bad2"): [1],
    ("key_faults.dialogue", "S:bad3"): [1],
    ("key_faults.dialogue", "S:bad4"): [1],
    ("nothing_found.dialogue", "S:else"): [3],
    ("nothing_found.dialogue", "S:skip"): [2],
    ("nothing_found.dialogue", "S:ill"): [3],
    ("quit_through.dialogue", "S:bad"): [2, 3, 4],
    ("script_codes.dialogue", "S:open"): [1],
    ("skip.dialogue", "S:y"): [1],
    ("skip_back.dialogue", "S:f"): [2],
    ("skip_labels.dialogue", "S:i"): [2, 7],
    ("skip_labels.dialogue", "S:h"): [2],
    ("tick_flow.dialogue", "S:known"): [1],
}

# How editors read the lines of compilers.
ERROR_FORMAT = re.compile(r"(.+?):([0-9]+): (error|note): (.+)")


def unescaped(text):
    """What the text of a quoted word is."""
    signs = {"n": "\n", "N": "\n", "e": "\x1b", "E": "\x1b"}
    return re.sub(r"\*(.)", lambda m: signs.get(m[1], m[1]), text)


def of_document(path):
    """The scripts of a document, by name."""
    with open(path, encoding="utf-8") as file:
        text = file.read()
    return {m[1]: m[2] for m in re.finditer(r"^```file (\S+)\n(.*?)^```$", text, re.M | re.S)}


def of_dialogue(path):
    """The scripts that the typed lines of a dialogue make, by name."""
    scripts = {}
    with open(path, encoding="latin-1") as file:
        for line in file:
            m = re.match(r"> Echo >(>?)(S:\S+) (.*)$", line.rstrip("\n"))
            if not m:
                continue
            text = m[3]
            if len(text) > 1 and text[0] == text[-1] == '"':
                text = unescaped(text[1:-1])
            elif re.search(r'["`$]', text):
                continue
            scripts[m[2]] = (scripts.get(m[2], "") if m[1] else "") + text + "\n"
    return scripts


def accused(program, dialect, room, script):
    """The lines that the program accuses, with these options for the dialect, and what it says that no editor reads."""
    path = os.path.join(room, "script")
    with open(path, "w", encoding="latin-1") as file:
        file.write(script)
    came = subprocess.run([program, *dialect, "--lenient", "--check", path], capture_output=True, timeout=60).stdout.decode("latin-1")
    lines = []
    for told in came.splitlines():
        read = ERROR_FORMAT.fullmatch(told)
        if not read or read[1] != path or not 1 <= int(read[2]) <= len(script.split("\n")):
            lines.append(told)
        elif read[3] == "error":
            lines.append(int(read[2]))
    return lines


def main():
    if len(sys.argv) != 2:
        sys.exit(__doc__)
    program = os.path.realpath(sys.argv[1])
    sources = [(path, of_document(path)) for path in sorted(glob.glob(f"{ROOT}/docs/*.md")) + [f"{ROOT}/README.md"]]
    sources += [(path, of_dialogue(path)) for path in sorted(glob.glob(f"{ROOT}/tests/dialogues/*.dialogue"))]
    passed = failed = 0
    unseen = set(WRONG)
    with tempfile.TemporaryDirectory() as room:
        for path, scripts in sources:
            dialect = [] if os.path.basename(path).startswith("full_") else ["--core"]
            for name, script in scripts.items():
                key = (os.path.basename(path), name)
                unseen.discard(key)
                came = accused(program, dialect, room, script)
                if came == WRONG.get(key, []):
                    passed += 1
                else:
                    failed += 1
                    print(f"{key[0]}, {name}: FAILED (accused: {came})")
    for key in sorted(unseen):
        failed += 1
        print(f"{key[0]}, {key[1]}: FAILED (there is no such script)")
    print(f"{passed} passed, {failed} failed")
    sys.exit(failed > 0)


main()
