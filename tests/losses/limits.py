"""What the system does not let a run do (a user's rights, a full file system, few descriptors, short files), and the Shell: too many bytes or objects."""
import os
import random
import resource
import signal
import subprocess

from names import FOLDERS

NOBODY = 65534
PAGE = 4096
# The kinds of plans that need root, and those that do not.
FOR_ROOT, FOR_ALL = ["rights", "full"], ["few", "short", "tight"]
# With --core: the sizes of most files that fill the Shell, and how many; what there is without them and what is shared.
FILLED = {"bytes": (65536, 15), "objects": (0, 900)}
MOST = {"bytes": 1048576, "objects": 1024}
BESIDE = {"bytes": 199, "objects": 26}


def fill(folder):
    """Makes the files that fill the Shell, but for the last ones."""
    for name, (size, count) in FILLED.items():
        os.mkdir(f"{folder}/{name}")
        for number in range(count):
            with open(f"{folder}/{name}/{number}", "wb") as file:
                file.write(bytes(size))


class Limits:
    """The limits of a plan by its kind and random numbers. Where there is none it is None."""

    def __init__(self, kind, numbers):
        self.is_nobody, self.is_full = kind == "rights", kind == "full"
        self.descriptors = numbers.randint(3, 14) if kind == "few" else None
        self.bytes = numbers.choice([numbers.randint(0, 16), numbers.randint(60000, 70100)]) if kind == "short" else None
        self.is_error = numbers.random() < 0.7
        self.pages, self.inodes = numbers.randint(0, 4), numbers.randint(0, 6)
        self.folders = {f"f/{name}": numbers.choice([0o755, 0o555, 0o1777, 0o300, 0o000]) for name in FOLDERS if numbers.random() < 0.4}
        self.folders["f"] = numbers.choice([0o755, 0o755, 0o755, 0o555, 0o1777, 0o777])
        self.owners = numbers.random()
        self.filled = numbers.choice(list(FILLED)) if kind == "tight" else None
        self.spare = numbers.randint(0, 8) if self.filled == "objects" else numbers.randint(0, 40)

    def options(self):
        """The options that bring in what fills the Shell, and that share also a folder of which something cannot be opened."""
        filled = ["--bring", f"../{self.filled}=T:filled", "--bring", "rest=T:rest"] if self.filled else []
        return [*filled, "--part"] if self.is_nobody or self.descriptors else filled

    def rest(self, shared, script):
        """The files that fill the Shell beside these, but for a little room."""
        if not self.filled:
            return {}
        size, count = FILLED[self.filled]
        if self.filled == "bytes":
            left = MOST["bytes"] - size * count - BESIDE["bytes"] - len(script) - sum(map(len, shared.values())) - self.spare
            return {"rest/last": bytes(max(0, left))}
        above = {path.rsplit("/", 1)[0] for path in shared}
        return {f"rest/{number}": b"" for number in range(MOST["objects"] - count - BESIDE["objects"] - len(shared) - len(above) + 1 - self.spare)}

    def __str__(self):
        return ", ".join(f"{name} {value}" for name, value in self.__dict__.items())

    def mount(self, folder, files):
        """Makes the folder a file system of its own, on which there is a little more room than for these files."""
        pages = sum(-(-len(what) // PAGE) for what in files.values()) + self.pages
        inodes = len({path.rsplit("/", 1)[0] for path in files}) + len(files) + 1 + self.inodes
        subprocess.run(["mount", "-t", "tmpfs", "-o", f"size={max(pages, 1) * PAGE},nr_inodes={inodes}", "losses", folder], check=True)

    def give(self, room):
        """Gives the folder to nobody, but for some of the files."""
        numbers = random.Random(self.owners)
        os.chmod(room, 0o777)
        for above, folders, files in os.walk(f"{room}/f"):
            for name in sorted([*folders, *files]):
                if numbers.random() < 0.85:
                    os.chown(os.path.join(above, name), NOBODY, NOBODY, follow_symlinks=False)
        if numbers.random() < 0.8:
            os.chown(f"{room}/f", NOBODY, NOBODY)
        for path, mode in self.folders.items():
            if os.path.isdir(f"{room}/{path}") and not os.path.islink(f"{room}/{path}"):
                os.chmod(f"{room}/{path}", mode)

    def begin(self):
        """What the child does before it becomes the program."""
        os.umask(0o022)
        if self.bytes is not None:
            signal.signal(signal.SIGXFSZ, signal.SIG_IGN if self.is_error else signal.SIG_DFL)
            resource.setrlimit(resource.RLIMIT_FSIZE, (self.bytes, resource.RLIM_INFINITY))
        if self.descriptors:
            resource.setrlimit(resource.RLIMIT_NOFILE, (self.descriptors, 1024))
        if self.is_nobody:
            os.setgroups([])
            os.setgid(NOBODY)
            os.setuid(NOBODY)
