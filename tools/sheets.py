#!/usr/bin/env python3
"""Job sheets for the program `sheets_table`, and the answers that an independent model of the papers gives.

    tools/sheets.py            writes its stdin and stdout
    tools/sheets.py FILE       prints the model's answer for one sheet
    tools/sheets.py FILE rewrite   prints the sheet's written form (02, No. 8)
    tools/sheets.py FILE clumps    prints the model's clumps of one sheet (02, No. 13)
    tools/sheets.py FILE either    prints the answer for a sheet of either form; to_two, to_one: the sheet moved (02, No. 9 and 10)
    tools/sheets.py SEED COUNT     writes that many more sheets about clumps to table.in and what `sheets_table` is to print to table.out
    tools/sheets.py SEED COUNT either   the same of sheets of both forms, for `sheets_table`
    tools/sheets.py -SIZE      prints a sheet of that many bytes: five atoms, then an atom's exclusion with itself again and again (65,536 is whole lines)

The model shares nothing with the library: lines by regular expressions, pairs by trying the stencil over a dictionary of bins, clumps by a plain
search from atom to atom. In stdin each sheet stands after a letter and its length, eight hexadecimal digits and a newline: p for `pairs`, r
for `rewrite`, c for `clumps`, f for the three programs on either form."""
import os
import random
import re
import sys

STENCIL = [(0, 0, 0), (0, 0, 1), (0, 1, -1), (0, 1, 0), (0, 1, 1), (1, -1, -1), (1, -1, 0), (1, -1, 1), (1, 0, -1), (1, 0, 0),
           (1, 0, 1), (1, 1, -1), (1, 1, 0), (1, 1, 1)]
HEADER = re.compile(rb"01([0-9a-f]{4})([0-9a-f]{8})([0-9a-f]{8})([0-9a-f]{8})0([0-7])([0-9a-f]{8})")
ATOM = re.compile(rb"02([0-9a-f]{4})([0-9a-f]{8})([0-9a-f]{8})([0-9a-f]{8})")
EXCLUSION = re.compile(rb"03([0-9a-f]{4})([0-9a-f]{4})")
# 02, No. 9, and the rule at a header's end, No. 10
HEADER_TWO = re.compile(rb"11([0-9a-f]{4})([0-9a-f]{8})([0-9a-f]{8})([0-9a-f]{8})0([0-7])([0-9a-f]{8})(01|02)?")
ATOM_TWO = re.compile(rb"12([0-9a-f]{4})([0-9a-f]{8})([0-9a-f]{8})([0-9a-f]{8})([0-9a-f]{8})")


class Refused(Exception):
    def __init__(self, number, place=0):
        self.text = b"8f%02x%08x\n" % (number, place)


def numbers(match):
    return [int(g, 16) for g in match.groups() if g]


def read(data, form=1):
    """The sheet in form 1, in form 2, or (0) in the form of its first header or atom line; each line of the other form is malformed."""
    return read_in(data, form)[:3]


def read_in(data, form):
    if len(data) > 65536:
        raise Refused(1)
    header, atoms, excluded, species, rule = None, {}, set(), {}, 1
    lines = data.split(b"\n")
    rest = lines.pop()
    if form == 0:
        form = next((2 if HEADER_TWO.fullmatch(x) or ATOM_TWO.fullmatch(x) else 1 for x in lines if not EXCLUSION.fullmatch(x)), 1)
    head_form, atom_form = (HEADER_TWO, ATOM_TWO) if form == 2 else (HEADER, ATOM)
    for n, line in enumerate(lines, 1):
        if m := head_form.fullmatch(line):
            if header is not None:
                raise Refused(10, n)
            header = numbers(m)[:6]
            rule = (numbers(m) + [1])[6]
        elif (m := atom_form.fullmatch(line)) and numbers(m)[0] < 1024:
            k, x, y, z, *kind = numbers(m)
            if k in atoms:
                raise Refused(10, n)
            atoms[k] = [x, y, z]
            species[k] = kind[0] if kind else 0
        elif m := EXCLUSION.fullmatch(line):
            a, b = sorted(numbers(m))
            if a != b and (a, b) not in excluded and len(excluded) == 1024:
                raise Refused(8, 1025)
            if a != b:
                excluded.add((a, b))
        else:
            raise Refused(9, n)
    if rest:
        raise Refused(9, len(lines) + 1)
    if header is None:
        raise Refused(11, 0xffffffff)
    count = header[0]
    if count > 1024:
        raise Refused(2, count)
    stray = [k for k in atoms if k >= count]
    if stray:
        raise Refused(4, min(stray))
    for k in range(count):
        if k not in atoms:
            raise Refused(11, k)
    return header, [atoms[k] for k in range(count)], excluded, [species[k] for k in range(count)], rule


def axis(d, edge, periodic):
    d = abs(d)
    return min(d, edge - d) if periodic else d


def candidates(count, edges, periodic, radius, places):
    """The pairs in 01's order, and whether all pairs were tried."""
    everything = [(i, j) for i in range(count) for j in range(i + 1, count)]
    if radius == 0 or any(p and e // radius < 3 for e, p in zip(edges, periodic)):
        return everything, True
    bins = [max(1, e // radius) for e in edges]
    cells = bins[0] * bins[1] * bins[2]
    if cells < 8:
        return everything, True
    if cells > 32768 or cells > 16384 - 1:
        raise Refused(7)
    held = {}
    for k, p in enumerate(places):
        held.setdefault(tuple(x * b // e for x, b, e in zip(p, bins, edges)), []).append(k)
    pairs = []
    for home in sorted(held):
        for s, step in enumerate(STENCIL):
            other = []
            for c, d, b, p in zip(home, step, bins, periodic):
                c += d
                other.append(c % b if p else c)
            there = held.get(tuple(other), [])
            if s == 0:
                pairs += [(a, b) for x, a in enumerate(there) for b in there[x + 1:]]
            else:
                pairs += [(min(a, b), max(a, b)) for a in held[home] for b in there]
    return pairs, False


def in_range(edges, periodic, radius, places):
    top = 2 ** 20
    if not all(1 <= e <= top for e in edges) or radius > top or any(x >= e for p in places for x, e in zip(p, edges)):
        raise Refused(3)
    # 02, No. 3
    if any(p and 2 * radius > e for e, p in zip(edges, periodic)):
        raise Refused(3)


def rewrite(data):
    """02, No. 8: header, atoms by number, exclusions by low then high number."""
    try:
        (count, ex, ey, ez, mask, radius), places, excluded = read(data)
        in_range((ex, ey, ez), [mask >> k & 1 == 1 for k in range(3)], radius, places)
        return b"".join([header(count, (ex, ey, ez), mask, radius)] + [atom(k, p) for k, p in enumerate(places)] + [exclusion(*p) for p in sorted(excluded)])
    except Refused as r:
        return r.text


def to_two(data):
    """02, No. 9 and 10: a sheet of the first form in the second, rule 01, species 0, as written."""
    try:
        (count, ex, ey, ez, mask, radius), places, excluded = read(data)
        in_range((ex, ey, ez), [mask >> k & 1 == 1 for k in range(3)], radius, places)
        return b"".join([header(count, (ex, ey, ez), mask, radius, 0x11, b"01")] + [atom_two(k, p, 0) for k, p in enumerate(places)] + [exclusion(*p) for p in sorted(excluded)])
    except Refused as r:
        return r.text


def to_one(data):
    """02, No. 9 and 10: a sheet of the second form in the first, as written; 12 for rule 2, then for the lowest atom whose species can't go."""
    try:
        (count, ex, ey, ez, mask, radius), places, excluded, species, rule = read_in(data, 2)
        if rule != 1:
            raise Refused(12, 0xffffffff)
        for k, t in enumerate(species):
            if t:
                raise Refused(12, k)
        in_range((ex, ey, ez), [mask >> k & 1 == 1 for k in range(3)], radius, places)
        return b"".join([header(count, (ex, ey, ez), mask, radius)] + [atom(k, p) for k, p in enumerate(places)] + [exclusion(*p) for p in sorted(excluded)])
    except Refused as r:
        return r.text


def listed(data, form=1):
    """Atoms, listed pairs, checks, and whether all pairs were tried."""
    (count, ex, ey, ez, mask, radius), places, excluded = read(data, form)
    edges, periodic = (ex, ey, ez), [mask >> k & 1 == 1 for k in range(3)]
    in_range(edges, periodic, radius, places)
    if count < 2:
        return count, [], 0, 0
    pairs, fallback = candidates(count, edges, periodic, radius, places)
    pairs = [p for p in pairs if p not in excluded]
    near = [(a, b) for a, b in pairs
            if sum(axis(places[a][k] - places[b][k], edges[k], periodic[k]) ** 2 for k in range(3)) <= radius * radius]
    if len(near) > 8192:
        raise Refused(8, len(near))
    return count, near, len(pairs), fallback


def pairs_either(data):
    """02, No. 9: as `pairs`, of a sheet of either form."""
    return solve(data, 0)


def solve(data, form=1):
    try:
        count, near, checks, fallback = listed(data, form)
        return b"81%08x%08x%02x\n" % (len(near), checks, fallback) + b"".join(b"82%04x%04x\n" % p for p in near)
    except Refused as r:
        return r.text


def clumps(data):
    """02, No. 13: from each atom that is not yet reached, all that listed pairs lead to."""
    try:
        count, near, _, _ = listed(data)
    except Refused as r:
        return r.text
    beside = {k: set() for k in range(count)}
    for a, b in near:
        beside[a].add(b)
        beside[b].add(a)
    reached, out = set(), b""
    for low in range(count):
        if low in reached:
            continue
        clump, waiting = {low}, [low]
        while waiting:
            for other in beside[waiting.pop()] - clump:
                clump.add(other)
                waiting.append(other)
        reached |= clump
        out += b"83%04x%04x\n" % (low, len(clump))
    return out


# ---- sheets

def header(count, edges=(10, 10, 10), mask=7, radius=3, mark=1, rule=b""):
    return b"%02x%04x%08x%08x%08x%02x%08x%s\n" % (mark, count, *edges, mask, radius, rule)


def atom_two(k, place, species):
    return b"12%04x%08x%08x%08x%08x\n" % (k, *place, species)


def atom(k, place):
    return b"02%04x%08x%08x%08x\n" % (k, *place)


def exclusion(a, b):
    return b"03%04x%04x\n" % (a, b)


EXAMPLE = [b"020003000000050000000500000008\n", b"0300020000\n", b"0100040000000a0000000a0000000a0700000003\n",
           b"020000000000000000000000000000\n", b"020002000000050000000500000005\n", b"020001000000090000000000000000\n"]


def some(rng, count, edges, mask, radius, exclusions=0):
    lines = [header(count, edges, mask, radius)]
    lines += [atom(k, [rng.randrange(e) for e in edges]) for k in range(count)]
    lines += [exclusion(rng.randrange(max(count, 1)), rng.randrange(max(count, 1))) for _ in range(exclusions)]
    return lines


def shuffled(rng, lines):
    lines = list(lines)
    rng.shuffle(lines)
    return lines


def sized(size):
    """A sheet of that many bytes."""
    lines = b"".join([header(5)] + [atom(k, (k, k, 0)) for k in range(5)])
    left = size - len(lines)
    return lines + exclusion(0, 0) * (left // 11) + b"0" * (left % 11)


def damaged(rng, text):
    """A byte changed, taken out, put in or two swapped."""
    text = bytearray(text)
    at = rng.randrange(len(text))
    kind = rng.randrange(4)
    if kind == 0:
        text[at] = rng.choice(b"0123456789abcdefABCDEF \r\ng\0")
    elif kind == 1:
        del text[at]
    elif kind == 2:
        text.insert(at, rng.choice(b"0123456789abcdef\n"))
    else:
        other = rng.randrange(len(text))
        text[at], text[other] = text[other], text[at]
    return bytes(text)


def table():
    rng = random.Random(1)
    join = b"".join
    out = [join(EXAMPLE), join(EXAMPLE[:5]) + b"0200010000000900000000000000000\n", b"", b"\n", b"\0" * 64, b"0", join(EXAMPLE)[:-1],
           join(EXAMPLE).replace(b"\n", b"\r\n"), join(EXAMPLE).replace(b"a", b"A"), join(EXAMPLE) + b"\n", b"\n" + join(EXAMPLE),
           join(EXAMPLE).replace(b"\n", b" \n", 1)]
    # each refusal, at its edge
    two = [atom(0, (0, 0, 0)), atom(1, (1, 1, 1))]
    out += [join([header(2)] + two), join(two), join([header(2)] + two + [header(2)]), join([header(2)] + two + two[:1]),
            join([header(1)] + two), join([header(3)] + two), join([header(2)] + two[1:]), join([header(0)]), join([header(0), two[0]]),
            join([header(1), two[0]]), header(1024), header(1025), header(0xffff), join([header(1025)] + two),
            join([header(2)] + [atom(0, (0, 0, 0)), atom(1023, (0, 0, 0))]), join([header(2)] + two) + b"0204000000000000000000000000000a\n",
            join([header(2)] + two) + b"02040000000000000000000000000a\n", join([header(2)] + two) + atom(1024, (0, 0, 0))]
    for mask in range(10):
        out.append(join([b"010002" + b"0000000a" * 3 + b"%02x" % mask + b"00000003\n"] + two))
    for tag in (b"00", b"04", b"05", b"10", b"20", b"ff", b"81", b"0A"):
        out.append(join([header(2)] + two) + tag + b"00000000\n")
    # refusal 3 and the ranges
    for edges in ((0, 10, 10), (10, 0, 10), (10, 10, 0), (2 ** 20, 10, 10), (2 ** 20 + 1, 10, 10), (10, 10, 0xffffffff), (2, 10, 10), (10, 2, 10), (1, 1, 1)):
        out.append(join([header(2, edges)] + two))
        out.append(join([header(0, edges)]))
    for radius in (0, 1, 2, 3, 4, 9, 10, 2 ** 20, 2 ** 20 + 1, 0xffffffff):
        out.append(join([header(2, radius=radius)] + two))
    for place in ((9, 9, 9), (10, 9, 9), (9, 10, 9), (9, 9, 10), (0xffffffff, 0, 0)):
        out.append(join([header(2), two[0], atom(1, place)]))
    # refusal 7: 16,383 starts less one
    for edges, radius in (((127, 129, 1), 1), ((128, 128, 1), 1), ((32, 32, 16), 1), ((25, 25, 26), 1), ((2 ** 20, 2 ** 20, 2 ** 20), 1), ((7, 1, 1), 1), ((8, 1, 1), 1), ((2, 2, 2), 1)):
        for mask in (0, 1, 7):
            out.append(join([header(2, edges, mask, radius), two[0], atom(1, (1 % edges[0], 1 % edges[1], 0))]))
    # exclusions: with itself, twice, turned, of no atom, 1,024 and one more
    out += [join([header(2)] + two + [exclusion(0, 0)]), join([header(2)] + two + [exclusion(1, 0), exclusion(0, 1), exclusion(1, 0)]),
            join([header(2)] + two + [exclusion(0xffff, 0xfffe), exclusion(7, 0xffff)])]
    many = [exclusion(k, 5000 + k) for k in range(1024)]
    out += [join([header(2)] + two + many), join(many + [exclusion(9, 10)]), join(many + many[:3] + [exclusion(3, 3), header(2)] + two),
            join(many + [exclusion(9, 10), header(1)] + two + two), join(many + [b"03\n"])]
    # mixed faults: the first in line order counts, then 11, 2, 4, 11
    faults = [header(2), header(2), two[0], two[0], b"02\n", exclusion(1, 2), b"garbage\n", atom(7, (3, 3, 3)), header(2000)]
    for _ in range(24):
        out.append(join(shuffled(rng, rng.sample(faults, rng.randrange(2, len(faults))))))
    # sound sheets, and the same in other orders
    for count, edges, mask, radius, exclusions in ((12, (30, 30, 30), 7, 9, 4), (20, (40, 30, 20), 5, 6, 10), (9, (12, 50, 7), 2, 4, 3), (30, (64, 64, 64), 0, 16, 20),
                                                   (16, (9, 9, 9), 7, 3, 6), (25, (100, 20, 20), 1, 8, 0), (40, (33, 47, 61), 7, 11, 30)):
        lines = some(rng, count, edges, mask, radius, exclusions)
        out.append(join(lines))
        for _ in range(3):
            out.append(join(shuffled(rng, lines)))
        for _ in range(3):
            out.append(damaged(rng, join(lines)))
    # 1,024 atoms, and pairs at and past the room
    out.append(join(some(rng, 1024, (200, 200, 200), 7, 20, 40)))
    for count, spare in ((128, 64), (129, 64), (129, 63)):
        lines = [header(count, (1000, 10, 10), 0, 500)] + [atom(k, (0, 0, 0)) for k in range(count)]
        pairs = [(a, b) for a in range(count) for b in range(a + 1, count)]
        out.append(join(lines + [exclusion(a, b) for a, b in pairs[:max(0, min(1024, len(pairs) - 8192 - (1 if spare == 63 else 0)))]]))
    # as long as a sheet may be
    out.append(sized(65536))
    # 02, No. 3: twice the radius one below a periodic edge, at it, one above, on each axis; open axes fall back by any radius, and so does equality
    for mask in range(8):
        for edges in ((11, 40, 40), (10, 40, 40), (9, 40, 40), (40, 10, 40), (40, 9, 40), (40, 40, 10), (40, 40, 9)):
            out.append(join([header(2, edges, mask, 5)] + two))
    half = [atom(0, (0, 0, 0)), atom(1, (5, 0, 0)), atom(2, (5, 5, 5)), atom(3, (9, 9, 9))]
    for radius in (4, 5, 6, 10, 2 ** 19, 2 ** 20, 2 ** 20 + 1, 2 ** 31, 2 ** 31 + 1, 0xffffffff):
        for mask in (0, 7):
            out.append(join(shuffled(rng, [header(4, radius=radius, mask=mask), exclusion(0, 2)] + half)))
    for radius in (2 ** 19, 2 ** 19 + 1):
        out.append(join([header(2, (2 ** 20,) * 3, 7, radius), atom(0, (0, 0, 0)), atom(1, (2 ** 19, 0, 0))]))
    for count in (0, 1):
        for radius in (5, 6):
            for mask in (0, 7):
                out.append(join([header(count, radius=radius, mask=mask)] + two[:count]))
    # the absent atom comes before it; a stray one too
    out += [join([header(3, radius=6)] + two), join([header(1, radius=6)] + two), join([header(2, radius=6), two[0], atom(1, (10, 0, 0))])]
    return out


def clump_sheets(rng, count):
    """Sheets about which clumps are asked: frames around the radius at which they join, chains, crosses of two rows, all atoms on one place."""
    join = b"".join
    out = []
    for _ in range(count):
        kind = rng.randrange(6)
        if kind == 0:
            n = rng.choice((0, 1, 2, 3, 17, 64, 130))
            edges = tuple(rng.randrange(20, 60) for _ in range(3))
            out.append(join(shuffled(rng, some(rng, n, edges, rng.randrange(8), rng.choice((1, 2, 4, 6, 8, 10)), rng.randrange(4)))))
        elif kind == 1:
            n = rng.randrange(2, 200)
            name = list(range(n))
            rng.shuffle(name)
            step = rng.choice((1, 2, 3))
            gap = rng.randrange(1, n)
            lines = [header(n, (2 ** 12, 8, 8), rng.choice((0, 6)), step)]
            out.append(join(shuffled(rng, lines + [atom(name[k], (step * k + (1 if k >= gap else 0), 0, 0)) for k in range(n)])))
        elif kind == 2:
            n = rng.randrange(2, 90)
            lines = [header(n, (1000, 10, 10), 0, 5)] + [atom(k, (10 * (k % 3), 0, 0)) for k in range(n)]
            out.append(join(shuffled(rng, lines + [exclusion(rng.randrange(n), rng.randrange(n)) for _ in range(rng.randrange(60))])))
        elif kind == 3:
            n = rng.choice((200, 500, 1024))
            edge = rng.choice((60, 90, 120))
            out.append(join(some(rng, n, (edge, edge, edge), 7, rng.choice((3, 5, 6)), rng.randrange(30))))
        elif kind == 4:
            out.append(damaged(rng, join(some(rng, rng.randrange(2, 40), (30, 30, 30), 7, 9, 4))))
        else:
            n = rng.randrange(3, 40)
            lines = [header(n, (2 ** 20, 2 ** 20, 2 ** 20), 0, 2 ** 20)] + [atom(k, (k, 0, 0)) for k in range(n)]
            out.append(join(lines + [exclusion(a, b) for a in range(n) for b in range(a + 1, n) if rng.random() < 0.9]))
    return out


def forms():
    """Sheets as for `rewrite`: of each meaning several, one of them its written form."""
    rng = random.Random(8)
    join = b"".join
    out = [s for s in table() if len(s) < 3000][:200]
    # equal meaning: another order, exclusions again, turned round, of an atom with itself, of no atom
    for count, edges, mask, radius, exclusions in ((0, (1, 1, 1), 0, 0, 0), (1, (10, 10, 10), 7, 5, 1), (2, (2 ** 20,) * 3, 7, 2 ** 19, 3), (5, (2 ** 20, 9, 1), 1, 2 ** 19, 8),
                                                   (12, (30, 31, 32), 2, 15, 20), (12, (30, 31, 32), 4, 16, 20), (33, (7, 8, 9), 5, 3, 60), (40, (64, 64, 64), 6, 32, 90), (3, (4, 5, 6), 3, 2, 0)):
        lines = some(rng, count, edges, mask, radius)
        pairs = [tuple(rng.randrange(n) for n in (0x10000, 0x10000)) if rng.random() < 0.3 else (rng.randrange(max(count, 2)), rng.randrange(max(count, 2))) for _ in range(exclusions)]
        for _ in range(6):
            said = [rng.choice((p, p[::-1])) for p in pairs] + rng.sample(pairs, len(pairs) // 3) + [(k, k) for k in rng.sample(range(9), 2)]
            out.append(join(shuffled(rng, lines + [exclusion(*p) for p in said])))
        out.append(rewrite(out[-1]))
        out += [damaged(rng, out[-1]) for _ in range(3)]
    # the longest written form, and 1,024 exclusions that come twice
    many = [exclusion(k % 7, 7 + k) for k in range(1024)]
    for exclusions in (many, many + many[::-1]):
        out.append(join(shuffled(rng, some(rng, 1024, (200, 300, 400), 7, 100) + exclusions)))
    out.append(join(many + [header(0)] + many + [exclusion(0, 0xffff)]))
    return out


# what may stand at the end of a header, and what may not
RULES = [b"", b"01", b"02"]
NO_RULES = [b"00", b"03", b"04", b"0a", b"0A", b"10", b"11", b"12", b"20", b"21", b"fe", b"ff", b"0g", b" 1", b"1", b"2", b"001", b"101", b"0101", b"0102", b"00000001", b"1\r", b"01\r", b"01 "]


def typed(rng, lines, kinds, rules=RULES[:2]):
    """Lines of the first form in the second, with species of `kinds` and a rule of `rules`."""
    out = []
    for line in lines:
        if line[:2] == b"01":
            out.append(b"11" + line[2:-1] + rng.choice(rules) + b"\n")
        elif line[:2] == b"02":
            out.append(b"12" + line[2:-1] + b"%08x\n" % rng.choice(kinds))
        else:
            out.append(line)
    return out


def either_sheets():
    """Sheets of both forms."""
    rng = random.Random(9)
    join = b"".join
    none, some_kinds = [0], [0, 0, 1, 2, 0xffffffff]
    out = [join(EXAMPLE), join(typed(rng, EXAMPLE, none)), join(typed(rng, EXAMPLE, some_kinds)), b"", b"\n", b"0", join(typed(rng, EXAMPLE, none))[:-1],
           join(typed(rng, EXAMPLE, none)).replace(b"\n", b"\r\n"), join(typed(rng, EXAMPLE, none)).replace(b"a", b"A"), join(typed(rng, EXAMPLE, none)) + b"\n"]
    # each refusal of a sheet of the second form, at its edge, and each two of them: the one that comes first counts
    one = [atom(0, (0, 0, 0)), atom(1, (1, 1, 1))]
    two = [atom_two(0, (0, 0, 0), 0), atom_two(1, (1, 1, 1), 0)]
    seven = [atom_two(0, (0, 0, 0), 0), atom_two(1, (1, 1, 1), 7)]
    many = [exclusion(k, 5000 + k) for k in range(1024)]
    head = header(2, mark=0x11)
    faults = {"malformed": [b"12\n"], "again": [head], "atom again": [two[0]], "full": many + [exclusion(9, 10)], "stray": [atom_two(5, (1, 1, 1), 0)],
              "typed stray": [atom_two(5, (1, 1, 1), 3)], "other header": [header(2)], "other atom": [atom(1, (0, 0, 0))]}
    for rest in (two, seven):
        out += [join([head] + rest), join(rest), join([head] + rest[:1]), join([head] + rest[1:]), join([header(3, mark=0x11)] + rest), join([header(1025, mark=0x11)] + rest),
                join([header(2, mark=0x11, radius=6)] + rest), join([header(2, (0, 1, 1), mark=0x11)] + rest), join([header(3, mark=0x11, radius=6)] + rest)]
        for a in faults.values():
            if len(a) < 9:
                out += [join([head] + rest + a), join(a + rest), join(a + [head] + rest)]
        for a in ("malformed", "again", "atom again", "other header", "other atom", "stray", "typed stray"):
            for b in ("malformed", "again", "atom again", "other header", "other atom"):
                if a != b:
                    out.append(join([head] + rest + faults[a] + faults[b]))
    out += [join([head] + seven + faults["full"]), join(faults["full"] + [header(2)]), join(many + [head] + two), join(many + [header(2)] + one)]
    # the first header or atom says the form; exclusions have none
    out += [join([exclusion(0, 1), header(2)] + one), join([exclusion(0, 1), head] + two), join([exclusion(0, 1)] + one + [head]), join([exclusion(0, 1)] + two + [header(2)]),
            join([header(2), head] + one), join([head, header(2)] + two), join([header(2)] + two), join([head] + one), join([exclusion(1, 0)]), join([one[0], two[1], header(2)]),
            join([two[0], one[1], head]), join([head] + two + [exclusion(0, 0), exclusion(7, 0xffff)])]
    # widths and species: a digit more, a digit less, the width of the other form
    for line in (b"120001000000010000000100000001\n", b"1200010000000100000001000000010000000\n", b"120001000000010000000100000001000000000\n", b"02000100000001000000010000000100000000\n",
                 b"12040000000001000000010000000100000000\n", b"1200010000000100000001000000010000000g\n", b"12000100000001000000010000000100000001\n",
                 b"110002" + b"0000000a" * 3 + b"070000000301\n", b"010002" + b"0000000a" * 3 + b"070000000301\n"):
        out += [join([head, two[0]]) + line, join([header(2), one[0]]) + line]
    # the rule at a header's end (No. 10): each that is one and each that is none, in both forms, with and without a species, a stray and an absent atom
    for rule in RULES + NO_RULES:
        out += [join([header(2, mark=0x11, rule=rule)] + two), join(seven + [header(2, mark=0x11, rule=rule)]), join([header(2, rule=rule)] + one)]
    for rule in RULES:
        out += [header(0, mark=0x11, rule=rule), join([header(3, mark=0x11, rule=rule)] + two), join([header(1, mark=0x11, rule=rule)] + seven), header(1025, mark=0x11, rule=rule),
                join([header(2, mark=0x11, radius=6, rule=rule)] + two), join([header(2, mark=0x11, radius=6, rule=rule)] + seven), header(2, mark=0x11, rule=rule)[:-1],
                join([header(0, (0, 1, 1), mark=0x11, rule=rule)]), join([header(2, mark=0x11, rule=rule)] + one), join([header(2, mark=0x11, rule=rule)] + two + [header(2)]),
                join([exclusion(1, 0), header(2, mark=0x11, rule=rule)] + two + [b"12\n"]), join([header(2, mark=0x11, rule=rule).replace(b"07", b"08")] + two)]
        for again in RULES + NO_RULES[:2]:
            out.append(join([header(2, mark=0x11, rule=rule)] + two + [header(2, mark=0x11, rule=again)]))
    for kinds in ((0, 0, 0), (1, 0, 0), (0, 1, 0), (0, 0, 1), (0xffffffff, 5, 0), (0, 0x80000000, 9)):
        for edges in ((10, 10, 10), (1, 1, 1)):
            out.append(join(shuffled(rng, [header(3, edges, mark=0x11)] + [atom_two(k, (k, k, k), t) for k, t in enumerate(kinds)])))
    # sound sheets of both forms, the same in other orders, damaged ones, and the moves of each
    for count, edges, mask, radius, exclusions in ((0, (1, 1, 1), 0, 0, 0), (1, (10, 10, 10), 7, 5, 1), (12, (30, 31, 32), 2, 15, 20), (16, (9, 9, 9), 7, 3, 6), (25, (100, 20, 20), 1, 8, 9), (30, (64, 64, 64), 0, 16, 20)):
        lines = some(rng, count, edges, mask, radius, exclusions)
        for kinds, rules in ((none, RULES[:1]), (none, RULES[1:2]), (none, RULES[2:]), (some_kinds, RULES)):
            said = typed(rng, lines, kinds, rules)
            out += [join(said)] + [join(shuffled(rng, said)) for _ in range(3)] + [damaged(rng, join(said)) for _ in range(3)]
        out += [join(shuffled(rng, lines)), to_two(join(lines)), to_one(to_two(join(lines))), damaged(rng, join(lines))]
    # mixed by chance
    for _ in range(24):
        lines = some(rng, 3, (10, 10, 10), 7, 3, 2)
        out.append(join(shuffled(rng, [rng.choice((line, typed(rng, [line], some_kinds, RULES)[0])) if rng.random() < 0.2 else typed(rng, [line], none)[0] for line in lines])))
    # the longest forms, and as long as a sheet may be
    long = some(rng, 1024, (200, 300, 400), 7, 20) + [exclusion(k % 7, 7 + k) for k in range(1024)]
    out += [join(shuffled(rng, long)), join(shuffled(rng, typed(rng, long, none))), join(typed(rng, long, none + none + [4]))]
    short = b"".join([head] + two)
    out += [short + exclusion(0, 0) * ((65536 - len(short)) // 11), short + exclusion(0, 0) * ((65536 - len(short)) // 11 + 1)]
    return out


def more_either(rng, count):
    """Sheets of both forms and rules by chance: sound, shuffled, mixed, damaged."""
    out = []
    for _ in range(count):
        n = rng.choice((0, 1, 2, 3, 7, 20))
        edges = tuple(rng.choice((1, 5, 10, 30, 64)) for _ in range(3))
        lines = some(rng, n, edges, rng.randrange(8), rng.choice((0, 1, 2, 3, 5)), rng.randrange(6))
        kinds = rng.choice(([0], [0], [0, 0, 0, 1], [1, 2, 0xffffffff]))
        rules = rng.choice(([b""], [b"01"], [b"01"], [b"02"], RULES, RULES + NO_RULES))
        two = rng.random() < 0.7
        mixed = rng.choice((0, 0, 0, 0.05, 0.3))
        said = [typed(rng, [line], kinds, rules)[0] if two != (rng.random() < mixed) else line for line in lines]
        if rng.random() < 0.2:
            said.append(rng.choice(said))
        if rng.random() < 0.2:
            said.pop(rng.randrange(len(said)))
        text = b"".join(shuffled(rng, said))
        out.append(damaged(rng, text) if text and rng.random() < 0.25 else text)
    return out


def all_forms(data):
    return pairs_either(data) + to_two(data) + to_one(data)


def put(folder, names, *parts):
    """Each part: the letter of its sheets, the sheets, and what answers them."""
    with open(os.path.join(folder, names[0]), "wb") as f:
        f.write(b"".join(letter + b"%08x\n" % len(s) + s for letter, sheets, _ in parts for s in sheets))
    with open(os.path.join(folder, names[1]), "wb") as f:
        f.write(b"".join(answer(s) for _, sheets, answer in parts for s in sheets))


def main():
    if len(sys.argv) > 1 and sys.argv[1].startswith("-"):
        sys.stdout.buffer.write(sized(int(sys.argv[1][1:])))
        return
    if len(sys.argv) > 3 and sys.argv[3] == "either":
        put(".", ("table.in", "table.out"), (b"f", more_either(random.Random(int(sys.argv[1])), int(sys.argv[2])), all_forms))
        return
    if len(sys.argv) > 2 and sys.argv[1].isdigit():
        put(".", ("table.in", "table.out"), (b"c", clump_sheets(random.Random(int(sys.argv[1])), int(sys.argv[2])), clumps))
        return
    if len(sys.argv) > 1:
        with open(sys.argv[1], "rb") as f:
            sys.stdout.buffer.write({"rewrite": rewrite, "clumps": clumps, "either": pairs_either, "to_two": to_two, "to_one": to_one}.get("".join(sys.argv[2:]), solve)(f.read()))
        return
    crates = os.path.join(os.path.dirname(os.path.abspath(__file__)), "..", "crates")
    sheets, written, both = table(), forms(), either_sheets()
    more = sheets + clump_sheets(random.Random(2), 60)
    put(os.path.join(crates, "sheets_table"), ("stdin", "stdout"),
        (b"p", sheets + [sized(65537)], solve), (b"r", written, rewrite), (b"f", both, all_forms), (b"c", more, clumps))
    print(len(sheets) + 1, "sheets as for pairs,", len(written), "as for rewrite,", len(both), "of either form,", len(more), "as for clumps")


if __name__ == "__main__":
    main()
