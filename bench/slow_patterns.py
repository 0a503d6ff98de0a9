"""A slow reading of patterns, apart from the crate: it tries all cuts.

It writes what the program `bench_pattern` must print for the same lines:

    python3 bench/slow_patterns.py < crates/bench_pattern/stdin > crates/bench_pattern/stdout

parse(text) gives ('ok', alternatives) or ('bad', place).
Items: ('c', x) ('?',) ('%',) ('#', i) ('~', i) ('g', alts) ('[', negated, [(lo, hi)])
"""
import functools, itertools

def fold(c):
    return c.lower() if 'A' <= c <= 'Z' else c

def read_class(t, i):
    """t[i] == '['. (negated, members, end) or None if the class is not closed; its faults are found elsewhere."""
    j = i + 1
    neg = j < len(t) and t[j] == '~'
    if neg:
        j += 1
    chars = []           # (char, was_quoted)
    while True:
        if j >= len(t):
            return None
        if t[j] == ']':
            break
        if t[j] == "'":
            if j + 1 >= len(t):
                return None
            chars.append((t[j + 1], True)); j += 2
        else:
            chars.append((t[j], False)); j += 1
    members = []
    k = 0
    while k < len(chars):
        if k + 2 < len(chars) and chars[k + 1] == ('-', False):
            members.append((chars[k][0], chars[k + 2][0])); k += 3
        else:
            members.append((chars[k][0], chars[k][0])); k += 1
    return neg, members, j + 1

def tokens(t):
    out, i = [], 0
    while i < len(t):
        c = t[i]
        if c == "'":
            if i + 1 < len(t):
                out.append((i, 'item', ('c', t[i + 1]))); i += 2
            else:
                out.append((i, 'fault', None)); i += 1
        elif c == '[':
            r = read_class(t, i)
            if r is None:
                out.append((i, 'fault', None)); break
            neg, members, end = r
            bad = not members or any(lo > hi for lo, hi in members)
            out.append((i, 'fault' if bad else 'item', ('[', neg, members))); i = end
        elif c in '#~|()':
            out.append((i, c, None)); i += 1
        elif c in '?%':
            out.append((i, 'item', (c,))); i += 1
        else:
            out.append((i, 'item', ('c', c))); i += 1
    return out

def faults(toks):
    bad, opens = [], []
    for k, (place, kind, _) in enumerate(toks):
        if kind == 'fault':
            bad.append(place)
        elif kind == '(':
            opens.append(place)
        elif kind == ')':
            if opens: opens.pop()
            else: bad.append(place)
        elif kind in '#~':
            if k + 1 == len(toks) or toks[k + 1][1] in '|)':
                bad.append(place)
    return bad + opens

def frozen(x):
    return tuple(frozen(i) for i in x) if isinstance(x, (list, tuple)) else x

def parse(t):
    toks = tokens(t)
    bad = faults(toks)
    if bad:
        return 'bad', min(bad)
    def alts(k):
        rows = [[]]
        while k < len(toks) and toks[k][1] != ')':
            if toks[k][1] == '|':
                rows.append([]); k += 1
            else:
                item, k = one(k); rows[-1].append(item)
        return rows, k
    def one(k):
        kind = toks[k][1]
        if kind in '#~' and kind != 'item':
            item, k = one(k + 1); return (kind, item), k
        if kind == '(':
            rows, k = alts(k + 1); return ('g', rows), k + 1
        return toks[k][2], k + 1
    rows, k = alts(0)
    assert k == len(toks)
    return 'ok', frozen(rows)

@functools.lru_cache(None)
def item_matches(i, s):
    k = i[0]
    if k == 'c': return len(s) == 1 and fold(s) == fold(i[1])
    if k == '?': return len(s) == 1
    if k == '%': return s == ''
    if k == '#':
        return s == '' or any(item_matches(i[1], s[:n]) and item_matches(i, s[n:]) for n in range(1, len(s) + 1))
    if k == '~': return not item_matches(i[1], s)
    if k == 'g': return any(row_matches(r, s) for r in i[1])
    if k == '[':
        if len(s) != 1: return False
        held = any(fold(chr(m)) == fold(s) for lo, hi in i[2] for m in range(ord(lo), ord(hi) + 1))
        return held != i[1]
    raise ValueError(i)

@functools.lru_cache(None)
def row_matches(row, s):
    if not row: return s == ''
    return any(item_matches(row[0], s[:n]) and row_matches(row[1:], s[n:]) for n in range(len(s) + 1))

def matches(rows, s):
    return any(row_matches(r, s) for r in rows)

def literal(rows, text):
    """literal if the text is one alternative and each item is a character or 'c"""
    return len(rows) == 1 and all(i[0] == 'c' for i in rows[0])

SIGNS = "ab#~?%()|[]'-"

# what the table program prints: a line for each length of pattern
def mix(digest, byte):
    return (digest * 31 + byte) % 2 ** 32

def table():
    texts = [''.join(x) for n in range(4) for x in itertools.product('ab', repeat=n)]
    lines = []
    for L in range(5):
        patterns = bad = literals = pairs = 0
        digest = 0
        for x in itertools.product(SIGNS, repeat=L):
            t = ''.join(x)
            kind, r = parse(t)
            if kind == 'bad':
                bad += 1
                digest = mix(digest, r + 2)
                continue
            patterns += 1
            if literal(r, t):
                literals += 1
                digest = mix(digest, 100)
                for b in ''.join(i[1] for i in r[0]).encode():
                    digest = mix(digest, b)
            for s in texts:
                m = matches(r, s)
                pairs += m
                digest = mix(digest, 1 if m else 0)
        lines.append(f"{L}: {patterns} patterns, {bad} bad, {literals} literal, {pairs} matches, digest {digest}")
    return '\n'.join(lines) + '\n'

# what the program prints for a line
def answer(line):
    pattern, _, name = line.partition(' ')
    if len(pattern) > 255:
        return 'pattern too long'
    kind, r = parse(pattern)
    return f'bad pattern at {r}' if kind == 'bad' else 'yes' if matches(r, name) else 'no'

if __name__ == '__main__':
    import sys
    sys.setrecursionlimit(100000)
    sys.stdout.write(table())
    for line in sys.stdin.read().splitlines():
        print(f'{line}: {answer(line)}')
