#!/usr/bin/env python3
"""Shell counts by trying every pair, to hold the example `shells` of rust/ against.

    tools/shells.py --make FOLDER COUNT SEED      writes so many random sheets: boxes of all shapes, periodic and open, exclusions, and some that are refused
    tools/shells.py --apart FOLDER COUNT SEED     writes sheets of 300 atoms that keep 9 apart in a periodic box of edge 80, radius 40: docs/shells.svg is of 200, seed 5
    tools/shells.py WIDTH SHELLS SHEET..          prints a line for each shell: its number and its pairs; then the sheets that were counted and refused
    tools/shells.py --check TABLE WIDTH SHELLS SHEET..   compares with the table that the example printed; exits 1 where a number differs

It shares nothing with the library; a sheet is read by the model of tools/sheets.py. Python 3.9 or newer."""
import os
import random
import re
import sys

import sheets


def squared(a, b, edges, periodic):
    return sum(sheets.axis(p - q, e, r) ** 2 for p, q, e, r in zip(a, b, edges, periodic))


def count(width, shells, names):
    totals, counted, refused = [0] * shells, 0, 0
    for name in names:
        try:
            with open(name, "rb") as f:
                header, atoms, excluded = sheets.read(f.read())
            n, ex, ey, ez, mask, radius = header
            edges, periodic = (ex, ey, ez), [mask >> k & 1 for k in range(3)]
            if not all(1 <= e <= 2**20 for e in edges) or radius > 2**20 or any(r and 2 * radius > e for e, r in zip(edges, periodic)):
                raise sheets.Refused(3)
            if any(c >= e for a in atoms for c, e in zip(a, edges)):
                raise sheets.Refused(3)
            # more cells than a grid may have
            if n > 1 and radius and not any(r and e // radius < 3 for e, r in zip(edges, periodic)):
                cells = 1
                for e in edges:
                    cells *= max(1, e // radius)
                if cells > 32768:
                    raise sheets.Refused(7)
        except sheets.Refused:
            refused += 1
            continue
        counted += 1
        for j in range(n):
            for i in range(j):
                d = squared(atoms[i], atoms[j], edges, periodic)
                if d <= radius * radius and (i, j) not in excluded:
                    totals[min(d // width, shells - 1)] += 1
    return totals, counted, refused


def make(folder, number, seed):
    rng = random.Random(seed)
    os.makedirs(folder, exist_ok=True)
    for k in range(number):
        edges = [rng.choice([10, 24, 30, 41, 64]) for _ in range(3)]
        n = rng.choice([0, 1, 2, 10, 60, 120, 200])
        mask, radius = rng.randrange(8), rng.randrange(0, 6 if rng.random() < 0.95 else 40)
        lines = [b"01%04x%08x%08x%08x%02x%08x" % (n, *edges, mask, radius)]
        lines += [b"02%04x%08x%08x%08x" % (a, *(rng.randrange(e) for e in edges)) for a in range(n)]
        lines += [b"03%04x%04x" % (rng.randrange(max(n, 1)), rng.randrange(max(n, 1))) for _ in range(rng.choice([0, 5, 50]))]
        rng.shuffle(lines)
        if rng.random() < 0.02:
            lines.pop()
        with open(os.path.join(folder, "%04d.sheet" % k), "wb") as f:
            f.write(b"".join(line + b"\n" for line in lines))


def apart(folder, number, seed):
    rng, edge = random.Random(seed), 80
    os.makedirs(folder, exist_ok=True)
    for k in range(number):
        atoms = []
        while len(atoms) < 300:
            a = [rng.randrange(edge) for _ in range(3)]
            if all(squared(a, b, [edge] * 3, [1] * 3) >= 81 for b in atoms):
                atoms.append(a)
        with open(os.path.join(folder, "%04d.sheet" % k), "wb") as f:
            f.write(b"01%04x%08x%08x%08x07%08x\n" % (len(atoms), edge, edge, edge, 40))
            f.write(b"".join(b"02%04x%08x%08x%08x\n" % (i, *a) for i, a in enumerate(atoms)))


def main(words):
    if words[0] == "--apart":
        return apart(words[1], int(words[2]), int(words[3]))
    if words[0] == "--make":
        return make(words[1], int(words[2]), int(words[3]))
    table = None
    if words[0] == "--check":
        with open(words[1], encoding="utf-8") as f:
            table = f.read()
        words = words[2:]
    totals, counted, refused = count(int(words[0]), int(words[1]), words[2:])
    if table is None:
        for k, t in enumerate(totals):
            print(k, t)
        print("sheets", counted, "refused", refused)
        return
    head = tuple(map(int, re.search(r"^sheets (\d+), refused (\d+), pairs (\d+)", table, flags=re.M).groups()))
    rows = [int(t) for t in re.findall(r"^ *\d+ +\S+ +\S+ +(\d+) +\S+$", table, flags=re.M)]
    same = head == (counted, refused, sum(totals)) and rows == totals
    print("%d sheets, %d refused, %d pairs in %d shells: %s" % (counted, refused, sum(totals), len(totals), "the same" if same else "DIFFERENT"))
    sys.exit(0 if same else 1)


if __name__ == "__main__":
    main(sys.argv[1:])
