#!/usr/bin/env python3
"""skin_cases.py: hand-made edges of call 46, within_skin, for the fixed list of the program replay (crates/replay/stdin). The answers come from a judge,
not from here. Python 3.9 or newer."""
from record_cases import MASKS, MOST, case, scattered, table

U32 = 0xffffffff


def ask(edges, mask, cutoff, skin, old, new):
    return case('46', list(edges), MASKS[mask], cutoff, skin, table([x for a in old for x in a]), table([x for a in new for x in a]))


# four times the squared displacement at the squared skin, and on both sides; straight, aslant, and round the end of an axis
def moves():
    box = [40, 40, 40]
    for mask in (0, 3, 7):
        for d, skin in (((0, 0, 0), 0), ((1, 0, 0), 2), ((0, 2, 0), 4), ((0, 0, 3), 6), ((1, 1, 0), 3), ((1, 2, 2), 6), ((2, 3, 6), 14), ((1, 1, 1), 4)):
            at = [5, 5, 5]
            to = [a + x for a, x in zip(at, d)]
            for s in (skin - 1, skin, skin + 1):
                if s >= 0:
                    yield ask(box, mask, 3, s, [at], [to])
        # across the end of each axis, and as far as half of it
        for k in range(3):
            low, high = [7, 7, 7], [7, 7, 7]
            low[k], high[k] = 0, 39
            for s in (1, 2, 3):
                yield ask(box, mask, 4, s, [low], [high])
            high[k] = 20
            for s in (15, 16):
                yield ask(box, mask, 4, s, [low], [high])


# the first atom that moved, the last, and none; no atoms
def atoms():
    edges = [30, 25, 20]
    old = scattered(9, edges, 5)
    for k in (0, 4, 8):
        new = [list(a) for a in old]
        new[k][1] = (new[k][1] + 3) % 25
        for skin in (0, 5, 6, 7):
            yield ask(edges, 7, 3, skin, old, new)
            yield ask(edges, 7, 3, skin, new, old)
    yield ask(edges, 7, 3, 0, old, old)
    for mask in (0, 7):
        yield ask(edges, mask, 5, 5, [], [])
        yield ask(edges, mask, 5, 6, [], [])
        yield ask([20, 0, 20], mask, 5, 5, [], [])
        yield ask([20, MOST + 1, 20], mask, 5, 5, [], [])


# cutoff plus skin: half a periodic edge, 2^20, past 32 bits
def sums():
    for mask in (0, 2, 7):
        for cutoff, skin in ((0, 10), (10, 0), (5, 5), (5, 6), (0, 11), (11, 0), (U32, 1), (1, U32), (1 << 31, 1 << 31), (U32, U32), (U32 - 9, 10), (MOST, 0), (0, MOST), (MOST, 1), (1, MOST)):
            yield ask([20, 20, 20], mask, cutoff, skin, [[0, 0, 0]], [[0, 19, 1]])
    for cutoff, skin in ((0, MOST), (0, MOST + 1), (MOST // 2, MOST // 2), (MOST // 2, MOST // 2 + 1), (MOST - 1, 2)):
        yield ask([MOST] * 3, 0, cutoff, skin, [[0, 0, 0]], [[MOST - 1] * 3])
        yield ask([MOST] * 3, 0, cutoff, skin, [[0, 0, 0]], [[MOST // 2 - 1, 0, 0]])
        yield ask([MOST] * 3, 7, cutoff // 2, skin // 2, [[0, 0, 0]], [[MOST // 4, 0, 0]])
        yield ask([MOST] * 3, 7, cutoff // 2, skin // 2, [[0, 0, 0]], [[MOST - MOST // 4, 1, 0]])


# each refusal, alone and with the later one; coordinates of the old and of the new; words missing and over
def refusals():
    edges, a, b = [10, 10, 10], [1, 2, 3], [9, 9, 9]
    for old, new in (([a, b], [a]), ([a], [a, b]), ([], [a]), ([a], []), ([a, [1]], [a, [1]]), ([a, [1, 2]], [a, [1, 2]]), ([a, [1]], [a]), ([a], [a, [2]]), ([a, [1]], [a, b])):
        yield ask(edges, 7, 3, 2, old, new)
        yield ask(edges, 7, 3, 3, old, new)
        yield ask([0, 10, 10], 0, 3, 2, old, new)
    for k in range(3):
        for x in (10, U32):
            out = list(b)
            out[k] = x
            yield ask(edges, 7, 3, 2, [a, out], [a, b])
            yield ask(edges, 0, 3, 2, [a, b], [a, out])
            # an atom before it has moved too far: the ranges come first
            yield ask(edges, 7, 3, 1, [a, b], [[5, 5, 5], out])
        for e in (0, 1, MOST + 1, U32):
            yield ask([e if i == k else 10 for i in range(3)], 0, 3, 2, [[0, 0, 0]], [[0, 0, 0]])
            yield ask([e if i == k else 10 for i in range(3)], 7, 0, 0, [[0, 0, 0]], [[0, 0, 0]])
    words = ask(edges, 7, 3, 2, [a], [b]).split()
    for cut in (1, 7, 8, 9, 12, len(words) - 1):
        yield ' '.join(words[:cut])
    yield ' '.join(words + ['%016x' % 0])
    for k, x in ((1, 1 << 32), (4, 2), (7, 1 << 32), (8, 1 << 32), (9, 4), (10, 1 << 32), (13, 2), (16, 1 << 32)):
        yield ' '.join(words[:k] + ['%016x' % x] + words[k + 1:])


if __name__ == '__main__':
    for group in (moves, atoms, sums, refusals):
        for line in group():
            print(line)
