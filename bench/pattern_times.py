"""Times the program `bench_pattern` from outside: the milliseconds of one match of a name of 30
bytes by the worst patterns of up to 255 bytes, and of 1,000 names by ordinary patterns.

    (cd crates/bench_pattern && rt run) && python3 bench/pattern_times.py

The least time of five is taken, less that of a run with no rounds."""
import subprocess, sys, time

PROGRAM = sys.argv[1] if len(sys.argv) > 1 else "crates/bench_pattern/out/bench_pattern"
NAME = "a" * 29 + "b"

def run(pattern, name, rounds):
    start = time.perf_counter()
    subprocess.run([PROGRAM, pattern, name, str(rounds)], check=True, stdout=subprocess.DEVNULL)
    return time.perf_counter() - start

def once(pattern, name, rounds):
    """Milliseconds of one round: the best of five, less the start of the program."""
    return (min(run(pattern, name, rounds) for _ in range(5)) - min(run(pattern, name, 0) for _ in range(5))) / rounds * 1000

def nested(opening, inside, closing):
    depth = (255 - len(inside)) // (len(opening) + len(closing))
    return opening * depth + inside + closing * depth

WORST = {
    "#? again and again": "#?" * 127,
    "~(#?..)": "~(" + "#?" * 125 + ")",
    "#(#?..)": "#(" + "#?" * 125 + ")",
    "#(#(..a))": nested("#(", "a", ")"),
    "~(~(..#?))": nested("~(", "#?", ")"),
    "#~#~..?": "#~" * 127 + "?",
    "~~~..#?": "~" * 253 + "#?",
    "####..a": "#" * 254 + "a",
    "#(a|aa|#a)#(b|~a)..": "#(a|aa|#a)#(b|~a)" * 15,
    "#(|a|..)": "#(" + "|a" * 126 + ")",
    "(((..a)))": nested("(", "a", ")"),
    "[a-ba-b..]": "[" + "!-~" * 84 + "]",
    "[abc..]": "[" + "b" * 253 + "]",
    "#[..]": "#[" + "b" * 252 + "]",
    "255 letters": "a" * 255,
    "#?#?..b with alternatives": "|".join(["#?#?"] * 51),
    "~a~a..": "~a" * 127,
}
worst = 0
for label, pattern in WORST.items():
    assert len(pattern) <= 255, label
    ms = once(pattern, NAME, 500)
    worst = max(worst, ms)
    print(f"{ms:8.4f} ms  {label}")
print(f"{worst:8.4f} ms  the slowest of them, for one name of 30 bytes")
for pattern in ["#?.info", "~(#?.info)", "#?", "Picture#[0-9].info"]:
    print(f"{once(pattern, '-', 200):8.4f} ms  {pattern} for 1,000 names")
