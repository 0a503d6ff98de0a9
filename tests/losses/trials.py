"""A run of a random plan, and what is lost by it."""
import os
import re
import shutil
import signal
import subprocess
import time
from collections import Counter

from deeds import BEGIN
from rooms import FOLDER, Link, look, place

SECONDS = 60
# The signals by which a run may end.
ENDS = [signal.SIGHUP, signal.SIGINT, signal.SIGKILL, signal.SIGTERM, signal.SIGXFSZ]
TOKEN = re.compile(rb"[ts]\d+x")
LARGE = re.compile(rb"(\d{5,}) bytes")
WRITTEN = re.compile(rb"wrote-(\d+)")
TEMPORARY = ".amishell-execute."
# What a run in memory takes.
MEMORY = ["Work", "Old", "T", "keep"]
ACT = "sh ../act"
# A program that starts in the folder tells that it begins, and which files it sees there, with their sizes.
SEES = r"""if [ ! -e script0 ]; then find . -type f -printf '%f %s\n' >../saw{0} 2>/dev/null; echo began-{0}; fi"""
LISTED = re.compile(rb"^list-(\d+)\n(.*?)^began-\1$", re.M | re.S)
FILE = re.compile(rb"^(\S+) +(\d+) [-h]", re.M)
SHOW = b"""#!/bin/sh
grep -raohE '[ts][0-9]+x' "$1" 2>/dev/null
true
"""
# What was not written, or gave way to what this machine has, is told. Where it could not be written, a program sees something else than the Shell.
TOLD = re.compile(rb"both changed|cannot |is not written|not written, since|left alone|kept, since|kept as|nothing is written")
NOT_SHARED = re.compile(rb"taken twice|files and folders, left alone from")
# The folder, or the script beside what fills the Shell, is not there, cannot be opened or is too large.
NOT_RUN = re.compile(rb"not a folder|cannot read f\n|does not fit|more than \d+ bytes in all, with script")
NOT_STARTED = re.compile(rb"^show: ", re.M)
GAVE_WAY = re.compile(rb"both changed|left alone|since its name|since it is not empty|since \S+ is in it|cannot read|cannot bring in")
UNWRITTEN = re.compile(rb"both changed|cannot |not written|nothing is written")


class Room:
    """A folder to be shared, what is beside it, and the runs of a plan there."""

    def __init__(self, program, shim, plan, room):
        self.program, self.shim, self.plan, self.room = program, shim, plan, room
        shutil.rmtree(room, ignore_errors=True)
        if plan.limits and plan.limits.is_full:
            os.makedirs(f"{room}/f")
            plan.limits.mount(f"{room}/f", {path: what for path, what in plan.before.items() if path.startswith("f/")})
        beside = {f"act{number}": "\n".join([f"echo {number} >>../began", BEGIN, SEES.format(number), *lines]).encode() + b"\n"
                  for number, lines in enumerate(plan.acts)}
        scripts = {f"script{number}": "".join(f"{line}\n" for line in self.lines(number)).encode() for number in range(len(plan.scripts))}
        hook = f'#!/bin/sh\ncd "{room}/f"\necho "$1" "$2" >../call\n{BEGIN}{plan.deed}\n'.encode() if plan.deed else b""
        if plan.limits:
            shared = {path: what for path, what in plan.before.items() if path.startswith("f/") and isinstance(what, bytes)}
            beside |= plan.limits.rest(shared, scripts["script0"])
        place(room, {"f": FOLDER, **plan.before, **beside, **scripts, "show": SHOW, "hook": hook}, {**plan.modes, "show": 0o755, "hook": 0o755})
        if plan.limits and plan.limits.is_nobody:
            plan.limits.give(room)
        self.before, self.states = self.files(), self.look_at_all()
        self.outside = self.beside()

    def lines(self, number):
        """The lines of a script. Before each program it lists what it has, if that can be compared with what the program sees."""
        plan = self.plan
        is_listed = plan.is_alone and not (plan.is_dry or plan.is_compared or plan.deed or "--core" in plan.options)
        is_listed = is_listed and ("--all" in plan.options or not any(".n" in line for line in plan.lines(number)))
        return [one for line in plan.lines(number)
                for one in ([f"Echo list-{line.removeprefix(ACT)}", "List RAM:Work ALL", line] if is_listed and line.startswith(ACT) else [line])]

    def beside(self):
        return look(f"{self.room}/out")[0]

    def files(self):
        return {path: what for path, what in look(f"{self.room}/f")[0].items() if isinstance(what, bytes)}

    def look_at_all(self):
        """Each object of the folder with what a run without a write leaves as it is."""
        found = {}
        for above, folders, files in os.walk(f"{self.room}/f"):
            for name in folders + files:
                about = os.lstat(os.path.join(above, name))
                found[os.path.join(above, name)] = (about.st_ino, about.st_mode, about.st_size, about.st_mtime_ns)
        return found

    def read(self, name):
        whole = f"{self.room}/{name}"
        if not os.path.exists(whole):
            return b""
        with open(whole, "rb") as file:
            return file.read()

    def begin(self, number):
        plan = self.plan
        words = [self.program, "--no-config", "--host", "sh", "--host", "show=./show", "--turns", "20000", "--share", "f", *plan.options, f"script{number}"]
        if "--turns" in plan.options:
            words[6:8] = []
        given = {name: value for name, value in os.environ.items() if name != "AMISHELL_HOSTS"}
        if plan.call:
            given |= {"LD_PRELOAD": self.shim, "FAIL_CALL": "path", "FAIL_AT": str(plan.call)}
            given |= {"FAIL_RUN": f"{self.room}/hook"} if plan.deed else {"FAIL_ERRNO": str(plan.error), **({"FAIL_ON": "1"} if plan.is_for_long else {})}
        begin = plan.limits.begin if plan.limits else None
        pipe = subprocess.PIPE
        return subprocess.Popen(words, cwd=self.room, env=given, preexec_fn=begin, stdin=subprocess.DEVNULL, stdout=pipe, stderr=pipe, start_new_session=True)

    def run_in_memory(self):
        """The script on a copy of the folder in memory alone, where its programs do nothing; what it has at the end is taken."""
        words = [self.program, "--no-config", "--host", "sh=/bin/true", "--host", "show=/bin/true", "--bring", "f=RAM:Work", "--type", "CD RAM:Work", *self.plan.options]
        words += [word for name in MEMORY for word in ("--take", f"RAM:{name}=memory/{name}")]
        subprocess.run([*words, "script0"], cwd=self.room, stdin=subprocess.DEVNULL, stdout=subprocess.DEVNULL, stderr=subprocess.DEVNULL, check=False)

    def run(self, seconds_each):
        """Runs the plan; gives the seconds that it took."""
        if self.plan.is_compared:
            self.run_in_memory()
        began = time.monotonic()
        children = [self.begin(number) for number in range(len(self.plan.scripts))]
        if self.plan.killed_at is not None:
            time.sleep(self.plan.killed_at * seconds_each)
            children[0].send_signal(self.plan.signal)
        self.statuses, self.said, self.told = [], b"", b""
        for child in children:
            try:
                # programs of a run that was killed write on; they hold its standard error
                said, told = child.communicate(timeout=SECONDS)
                self.said, self.told = self.said + said, self.told + told
                self.statuses.append(child.returncode)
            except subprocess.TimeoutExpired:
                os.killpg(child.pid, signal.SIGKILL)
                child.communicate()
                self.statuses.append(None)
        self.is_killed = any(status is not None and status < 0 for status in self.statuses)
        return time.monotonic() - began

    def fault(self):
        """What is lost, left or changed, or None."""
        if None in self.statuses:
            return "it does not end"
        if any(status and status < 0 and -status not in ENDS for status in self.statuses):
            return f"it ends badly: {self.statuses}"
        if self.beside() != self.outside:
            return "what is outside is changed"
        if self.plan.is_dry:
            return None if self.look_at_all() == self.states else "a dry run changes the folder"
        self.stands = self.files()
        lost = self.beside_memory() if self.plan.is_compared else self.loss()
        return lost or self.unseen() or self.torn() or self.left() or self.difference() or self.without_a_line()

    def close(self):
        """Ends what was mounted."""
        if self.plan.limits and self.plan.limits.is_full:
            subprocess.run(["umount", "-l", f"{self.room}/f"], check=True)

    def loss(self):
        """Tokens of the folder and of programs stand there, unless the script or a program showed them before it destroyed them."""
        sizes = set(LARGE.findall(self.said))
        self.shown = set(TOKEN.findall(self.said)) | {token for size, token in self.plan.sizes.items() if str(size).encode() in sizes}
        self.shown |= set(TOKEN.findall(self.read("gone")))
        required = set(TOKEN.findall(b"".join(self.before.values()) + self.read("log"))) - self.shown
        if re.match(rb"(unlink|rename) ", self.read("call")):
            # nobody can see what comes in the very moment in which the last name of a file is taken away, or given to another
            required -= set(TOKEN.findall((self.plan.deed or "").encode()))
        self.stand = {token for what in self.stands.values() for token in TOKEN.findall(what)}
        lost = required - self.stand
        # what a program shows of a folder is not what the Shell has if something could not be written; one that could not start shows nothing
        is_unsure = (UNWRITTEN.search(self.told) or NOT_STARTED.search(self.said)) and any("ALL" in line for number in range(len(self.plan.scripts)) for line in self.plan.lines(number))
        if lost and not is_unsure:
            return f"lost: {sorted(lost)}"
        lost = self.of_scripts() - self.stand - self.shown
        if lost and not (self.is_killed or 125 in self.statuses) and not TOLD.search(self.told):
            return f"lost without a word: {sorted(lost)}, statuses {self.statuses}"
        if lost and self.is_killed and not TOLD.search(self.told):
            return f"lost by a kill after an update: {sorted(lost)}"
        return None

    def unseen(self):
        """Each file that the script has as a program begins the program sees: while the system refuses to write one, none starts. What something else
        changed, or what is not shared, need not be there."""
        for number, listed in LISTED.findall(self.said) if not GAVE_WAY.search(self.told) else []:
            has = Counter(f"{name.decode().lower()} {size.decode()}" for name, size in FILE.findall(listed))
            unseen = has - Counter(self.read(f"saw{number.decode()}").decode().lower().splitlines())
            if unseen:
                return f"program {number.decode()} begins, and does not see what the script has: {sorted(unseen)}"
        return None

    def of_scripts(self):
        """The tokens that the scripts wrote, if a script is killed only those before the last program that began."""
        written = {b"s%sx" % number for number in WRITTEN.findall(self.said)}
        lines = [line for number in range(len(self.plan.scripts)) for line in self.plan.lines(number)]
        if not self.is_killed:
            return written
        if "--all" not in self.plan.options and any(".n" in line for line in lines):
            # what is in a name that is not shared is in memory alone
            return set()
        began, kept, found = set(self.read("began").decode().split()), set(), set()
        for line in lines:
            found |= {token.encode() for token in re.findall(r"s\d+x", line)}
            if line.startswith("sh ../act") and line.removeprefix("sh ../act") in began:
                kept |= found
        return written & kept

    def torn(self):
        """No file but a temporary one has a part of its bytes. Of two runs one may bring in what a program of the other has written by half."""
        for path, what in self.stands.items() if self.plan.is_alone else []:
            large = [size for size, token in self.plan.sizes.items() if what.startswith(token + b"\n")]
            if TEMPORARY not in path and (large and len(what) < large[0] or not large and what and not what.endswith((b"\n", b"\0"))):
                return f"torn: {path} has {len(what)} bytes"
        return None

    def left(self):
        """A temporary file is left but by a kill, and not told; its folder may have another name by then. None is told if its folder is moved in that
        very moment."""
        moved = re.findall(r"mv -nT \S+ (\S+)", self.plan.deed or "")
        left = [path for path in self.stands if TEMPORARY in path and os.path.basename(path).encode() not in self.told
                and not any(path.startswith(f"{folder}/") for folder in moved)]
        if self.plan.error and self.plan.is_for_long:
            # it cannot be looked at either
            return None
        return f"left: {left}" if left and not self.is_killed else None

    def difference(self):
        """What the Shell has and the folder has not, or the other way round, with a status that does not say so. Names that begin with a dot and links
        are not shared, and a directory with such a one in it stays. A program may act after the last look, and at the limit of turns. Of two names
        that differ in case alone one or both are left alone, with a line, and so is what there is no room for."""
        if "--take" not in self.plan.options or self.plan.call or self.is_killed or {124, 125} & set(self.statuses) or NOT_SHARED.search(self.told):
            return None
        stands = look(f"{self.room}/f")[0]
        unseen = [path for path, what in stands.items() if isinstance(what, Link) or TEMPORARY in path or re.search(r"(^|/)\.", path) and "--all" not in self.plan.options]
        came = {path.lower(): what for path, what in stands.items() if path not in unseen}
        wanted = {path.lower(): what for path, what in look(f"{self.room}/taken")[0].items()}
        other = sorted(path for path in came.keys() | wanted.keys() if came.get(path) != wanted.get(path)
                       and not any(one.lower().startswith(path + "/") for one in unseen))
        return f"status {self.statuses[0]}, and the folder is not what the Shell has: {other}" if other else None

    def beside_memory(self):
        """What the script has in a run in memory alone, the folder has too, and nothing else, unless bytes of the folder are outside at the end: these it
        has as well, and the status says so."""
        taken = look(f"{self.room}/memory")[0]
        if taken.get("Work") is not FOLDER:
            return None
        below = "Work/"
        outside = {token for path, what in taken.items() if not path.startswith(below) and isinstance(what, bytes) for token in TOKEN.findall(what)}
        before = set(TOKEN.findall(b"".join(self.before.values())))
        lost = outside & before - set(TOKEN.findall(b"".join(self.stands.values())))
        if lost:
            return f"lost: {sorted(lost)}"
        is_told = 125 in self.statuses
        came, wanted = ({path.lower(): what for path, what in stands.items()} for stands in
                        (look(f"{self.room}/f")[0], {path.removeprefix(below): what for path, what in taken.items() if path.startswith(below)}))
        missing = sorted(path for path, what in wanted.items() if came.get(path) != what)
        more = sorted(came.keys() - wanted.keys())
        if missing or more and not (outside and is_told):
            return f"status {self.statuses[0]}, and the folder is not what a run in memory has: {missing}, {more}"
        return "status 125, and the folder is what the script has" if is_told and not outside else None

    def without_a_line(self):
        """Status 125 has its lines."""
        is_told = NOT_RUN.search(self.told) or b"cannot take" in self.told or b"Shell's files differ" in self.told and self.told.count(b"\n") > 1
        return "status 125 without its lines" if 125 in self.statuses and not is_told else None
