"""Gives amishell-execute random arguments, names and contents, and compares what comes back.

usage: hostile.py PROGRAM ROOM
"""
import os
import random
import subprocess
import sys

PROGRAM, ROOM = sys.argv[1:]
PRINTED = [chr(c) for c in range(32, 127)]
SIGNS = '*"$`;<>?+= []{}'
random.seed(20261126)
os.environ["XDG_CONFIG_HOME"] = "/dev/null"
os.makedirs(ROOM)
os.chdir(ROOM)
failures = 0


def some(most, all_signs):
    """A text of random signs."""
    return "".join(
        random.choice(PRINTED if random.random() < all_signs else SIGNS)
        for _ in range(random.randint(1, most))
    )


def run(*words):
    return subprocess.run([PROGRAM, *words], capture_output=True, stdin=subprocess.DEVNULL)


def compare(what, came, wanted):
    global failures
    if came != wanted:
        failures += 1
        print(what, repr(came), "but wanted", repr(wanted))


# Arguments: echo gets what .KEY read. They are put between quotes in a line, so in the text itself each sign of a line has a star.
def starred(text):
    return "".join("*" + c if c in '*"$`' else c for c in text)


with open("s", "w") as file:
    file.write('.KEY a,b,c\n.BRA \x01\n.KET \x02\nEcho "\x01a\x02|\x01b\x02|\x01c\x02"\n')
for _ in range(40):
    texts = [some(12, 0.5) for _ in range(3)]
    came = run("--quote", "s", *[starred(text) for text in texts])
    compare(texts, (came.returncode, came.stdout), (0, ("|".join(texts) + "\n").encode()))

# Names and contents: what is brought in is taken out again.
os.makedirs("in put")
data = {}
while len(data) < 25:
    name = some(30, 0.6)
    if ":" in name or "/" in name or name in (".", "..") or name.lower() in {n.lower() for n in data}:
        continue
    data[name] = os.urandom(random.choice([0, 1, 5, 100, 4095, 4096, 4097, 8192, 65536]) if len(data) < 10 else 50)
    with open("in put/" + name, "wb") as file:
        file.write(data[name])
    if random.random() < 0.3:
        os.chmod("in put/" + name, 0o755)
with open("quiet", "w") as file:
    file.write("; nothing\n")
came = run("--bring", "in put=D", "--take", "D=out", "quiet")
compare("brought and taken", (came.returncode, came.stdout, came.stderr), (0, b"", b""))
for name, bytes_ in data.items():
    try:
        with open("out/" + name, "rb") as file:
            compare(name, file.read(), bytes_)
    except OSError as error:
        compare(name, error, bytes_)
sys.exit(failures > 0)
