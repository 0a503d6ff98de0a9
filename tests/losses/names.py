"""The names that random plans use."""

NAMES = ["a", "b", "c", "big"]
FOLDERS = ["d", "e", "g"]
# Those that change places: files and directories.
EXCHANGED = ["a", "b", "c", "d"]
OUT = ["T:t1", "T:t2", "T:t3", "RAM:keep"]
ALL_PATHS = NAMES + [f"{folder}/{name}" for folder in FOLDERS for name in NAMES]
