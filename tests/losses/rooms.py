"""What stands in a folder before a run and afterwards: an object is its bytes, FOLDER, PIPE or a Link."""
import os

FOLDER, PIPE = "a folder", "a pipe"


class Link(str):
    """A link, by its target."""


def filled(path, count):
    """So many bytes that no other path has."""
    line = f"{path} {count}\n".encode()
    return (line * (count // len(line) + 1))[:count]


def place(room, objects, modes):
    """Makes what stands before a run."""
    for path, what in sorted(objects.items()):
        whole = os.path.join(room, path)
        os.makedirs(whole if what is FOLDER else os.path.dirname(whole), exist_ok=True)
        if what is PIPE:
            os.mkfifo(whole)
        elif isinstance(what, Link):
            os.symlink(what, whole)
        elif what is not FOLDER:
            with open(whole, "wb") as file:
                file.write(what)
    for path, mode in modes.items():
        os.chmod(os.path.join(room, path), mode)


def read(entry):
    """The object of an entry of a folder."""
    if entry.is_symlink():
        return Link(os.readlink(entry.path))
    if entry.is_dir():
        return FOLDER
    if not entry.is_file():
        return PIPE
    with open(entry.path, "rb") as file:
        return file.read()


def entries(folder, above=""):
    """The entries of a folder and of those below it, with their paths from it."""
    with os.scandir(folder) as found:
        for entry in found:
            yield above + entry.name, entry
            if entry.is_dir(follow_symlinks=False):
                yield from entries(entry.path, f"{above}{entry.name}/")


def look(folder, base=None):
    """All objects below a folder by their paths from a base (by default the folder), and their modes. None stand below one that is not there."""
    stands, modes = {}, {}
    for below, entry in entries(folder) if os.path.isdir(folder) else []:
        path = os.path.relpath(entry.path, base) if base else below
        stands[path], modes[path] = read(entry), entry.stat(follow_symlinks=False).st_mode & 0o7777
    stands.pop(".", None)
    return stands, modes


def shown(what):
    """An object in a few words."""
    if isinstance(what, Link):
        return f"a link to {what}"
    if isinstance(what, bytes):
        return f"{len(what)} bytes {what[:20]!r}"
    return what or "gone"
