#!/usr/bin/env python3
"""record_cases.py cell|virial|exclusions|neighbor|frame|half|write|potentials|angles|verlet|step: hand-made edges of the calls 10 to 1a, 20 to 27, 30 to 37, 40 to 42, 50 to 54, and 60 to 64 for the fixed list of
the program replay (crates/replay/stdin). The answers come from a judge, not from here."""
import struct
import sys

INF, NAN = float('inf'), float('nan')
ENTRY, OTHER = 2.0**20, 2.0**500
NANO = 1e-9
UNITS = [0x3f83c29c34cf86e0, 0x3f1696fe94e12d2c, 0x402ccc9e55083fa2, 0x406406f7193c1128]


def of(x):
    return struct.unpack('>Q', struct.pack('>d', x))[0] if isinstance(x, float) else x


def up(x):
    return struct.unpack('>d', struct.pack('>Q', of(x) + 1))[0]


def down(x):
    return struct.unpack('>d', struct.pack('>Q', of(x) - 1))[0]


def case(call, *parts):
    words = []
    for p in parts:
        words += p if isinstance(p, list) else [p]
    return ' '.join([call] + ['%016x' % of(w) for w in words])


def table(xs):
    return [len(xs)] + list(xs)


# the ends of a range with both signs, what is next past them, and what is no number
def ends(limit):
    return [limit, -limit, up(limit), -up(limit), INF, -INF, NAN, 0.0, -0.0]


# ---- cells
CUBIC = [10.0, 0.0, 0.0, 0.0, 10.0, 0.0, 0.0, 0.0, 10.0]
BOX = [10.0, 0.0, 0.0, 0.0, 7.5, 0.0, 0.0, 0.0, 4.25]
TILTED = [10.0, 0.0, 0.0, 2.5, 9.0, 0.0, -1.5, 3.0, 8.0]
LEANING = [10.0, 1.0, -2.0, 2.5, 9.0, 0.5, -1.5, 3.0, 8.0]
MIRRORED = [10.0, 0.0, 0.0, 0.0, -9.0, 0.0, 0.0, 0.0, 8.0]
TURNED = [0.0, 10.0, 0.0, 10.0, 0.0, 0.0, 0.0, 0.0, 10.0]
FLAT = [10.0, 0.0, 0.0, 0.0, 10.0, 0.0, 0.0, 0.0, 0.0]
SINGULAR = [1.0, 2.0, 3.0, 2.0, 4.0, 6.0, 0.0, 1.0, 5.0]
NOTHING = [0.0] * 9
LEAST = [5e-324, 0.0, 0.0, 0.0, 5e-324, 0.0, 0.0, 0.0, 5e-324]
LARGEST = [ENTRY, 0.0, 0.0, 0.0, ENTRY, 0.0, 0.0, 0.0, ENTRY]


def with_sum(*off):
    c = list(CUBIC)
    for k, x in zip((1, 2, 3, 5, 6, 7), off):
        c[k] = x
    return c


NEARLY = [with_sum(NANO), with_sum(0.0, -NANO), with_sum(down(NANO)), with_sum(up(NANO)), with_sum(0.0, 0.0, 0.0, 0.0, 0.0, up(NANO)), with_sum(NANO / 2, NANO / 2)]
# the determinant against 1e-12 times the cube of the largest magnitude
THIN = [[1.0, 0.0, 0.0, 0.0, 1.0, 0.0, 0.0, 0.0, z] for z in (1e-12, down(1e-12), up(1e-12), -1e-12, -up(1e-12))]
SHAPES = [CUBIC, BOX, TILTED, LEANING, MIRRORED, TURNED, FLAT, SINGULAR, NOTHING, LEAST, LARGEST] + NEARLY + THIN
MASKS = [[m & 1, m >> 1 & 1, m >> 2 & 1] for m in range(8)]
ALL = MASKS[7]
POINTS = [[0.0, -0.0, 0.0], [5.0, -5.0, 10.0], [-0.25, 10.0, 23.75], [ENTRY, -ENTRY, 1.0]]
DIFFS = [[5.0, -5.0, 0.0], [up(5.0), -up(5.0), 15.0], [0.0, 14.999999, -1e9], [OTHER, -OTHER, 1.0]]


def cell():
    for x in ends(ENTRY):
        yield case('11', x)
        for k in range(3):
            yield case('10', *[x if i == k else 10.0 for i in range(3)])
    for c in SHAPES:
        for call in ('12', '13', '14', '15', '19'):
            yield case(call, c, ALL)
        for k, call in enumerate(('16', '17', '18')):
            yield case(call, c, ALL, POINTS[k])
            yield case(call, c, ALL, POINTS[3])
        for d in DIFFS:
            yield case('1a', d, 1, c, ALL)
    for m in MASKS:
        for c in (CUBIC, TILTED, MIRRORED):
            yield case('18', c, m, [-0.25, 10.0, 23.75])
            yield case('1a', [6.0, -6.0, 17.0], 1, c, m)
    for d in DIFFS:
        yield case('1a', d, 0)
    for k in range(9):
        for x in (ENTRY, up(ENTRY), NAN):
            c = list(TILTED)
            c[k] = x
            yield case(('12', '13', '14', '15', '19')[k % 5], c, ALL)
            yield case(('16', '17', '18')[k % 3], c, ALL, POINTS[1])
            yield case('1a', DIFFS[0], 1, c, ALL)
    for k in range(3):
        for call, limit in (('16', ENTRY), ('17', OTHER), ('18', ENTRY)):
            for x in ends(limit)[:5] + [NAN]:
                yield case(call, TILTED, ALL, [x if i == k else 1.0 for i in range(3)])
        for x in ends(OTHER)[:5] + [NAN]:
            yield case('1a', [x if i == k else 1.0 for i in range(3)], 1, BOX, ALL)
            yield case('1a', [x if i == k else 1.0 for i in range(3)], 0)
    yield case('1a', [NAN, 0.0, 0.0], 1, [NAN] * 9, ALL)
    for call, words in (('10', 2), ('10', 4), ('12', 11), ('12', 13), ('1a', 3), ('1a', 14), ('1a', 17)):
        yield case(call, [1] * words)
    yield case('1a', DIFFS[0], 2, CUBIC, ALL)
    yield case('1a', DIFFS[0], 1, CUBIC, [0, 0, 2])
    yield case('14', CUBIC, [0, 2, 0])


# ---- sums
def sums(n, x=1.5):
    return [x + k for k in range(n)]


def virial():
    sum_, other = sums(10), sums(10, -3.25)
    forces, added = sums(6), sums(6, 0.125)
    for x in ends(OTHER):
        yield case('24', x, 1.0, 1.0)
        yield case('24', 1.0, x, 1.0)
        yield case('24', 1.0, 1.0, x)
        yield case('26', UNITS, x)
        for k in (0, 1, 9):
            bad = list(sum_)
            bad[k] = x
            yield case('20', bad, other, table(added), table(forces))
            yield case('20', sum_, bad, table(added), table(forces))
            yield case('21', bad, 0, 1, sums(3), sums(3), table(forces))
        for k in (0, 5):
            bad = list(forces)
            bad[k] = x
            yield case('20', sum_, other, table(bad), table(forces))
            yield case('20', sum_, other, table(added), table(bad))
            yield case('21', sum_, 0, 1, sums(3), sums(3), table(bad))
        for k in range(3):
            bad = [x if i == k else 1.0 for i in range(3)]
            yield case('21', sum_, 0, 1, bad, sums(3), table(forces))
            yield case('21', sum_, 0, 1, sums(3), bad, table(forces))
            yield case('22', sums(9), bad, sums(3))
            yield case('22', sums(9), sums(3), bad)
        for k in range(9):
            bad = [x if i == k else 1.0 for i in range(9)]
            yield case('22' if k % 2 else '23', bad, *([sums(3), sums(3)] if k % 2 else []))
        yield case('25', UNITS, x, sums(9), table(sums(6)), table([1.0, 2.0]))
        yield case('25', UNITS, 10.0, sums(8) + [x], table(sums(6)), table([1.0, 2.0]))
    for k in range(4):
        for x in (2.0**-40, down(2.0**-40), 2.0**40, up(2.0**40), 0.0, NAN):
            bad = list(UNITS)
            bad[k] = x
            yield case('26', bad, 1.5)
            yield case('25', bad, 10.0, sums(9), table(sums(3)), table([1.0]))
    for x in (2.0**-10, down(2.0**-10), ENTRY, up(ENTRY), 0.0, NAN, INF):
        yield case('25', UNITS, 10.0, sums(9), table(sums(6)), table([1.0, x]))
    for x in ends(ENTRY):
        yield case('25', UNITS, 10.0, sums(9), table(sums(5) + [x]), table([1.0, 2.0]))
    # lengths, alone and before a number out of range; then the atom that is not there, alone and after one
    for a, b in ((0, 0), (0, 3), (3, 0), (3, 3), (3, 6), (6, 3), (4, 6), (6, 7), (5, 5), (1, 2)):
        yield case('20', sum_, other, table(sums(a)), table(sums(b)))
        yield case('20', [NAN] + sum_[1:], other, table(sums(a)), table(sums(b)))
        yield case('25', UNITS, 10.0, sums(9), table(sums(a)), table([1.0] * b))
        yield case('25', UNITS, NAN, sums(9), table(sums(a)), table([1.0] * b))
    for n in range(8):
        yield case('27', table([NAN] * n))
        yield case('21', sum_, 0, 0, sums(3), sums(3), table(sums(n)))
        yield case('21', sum_, 1, 9, sums(3), [NAN, 0.0, 0.0], table(sums(n)))
    for i, j in ((0, 0), (0, 1), (1, 0), (1, 1), (2, 0), (0, 2), (2, 2), (0xffffffff, 0), (0, 0xffffffff)):
        yield case('21', sum_, i, j, sums(3), sums(3), table(forces))
        yield case('21', sum_, i, j, sums(3), [0.0, up(OTHER), 0.0], table(forces))
    yield case('21', sum_, 1 << 32, 0, sums(3), sums(3), table(forces))
    yield case('27', 5, 0.0)
    yield case('27', 1, 0.0, 0.0)


# ---- exclusions
def exclusions():
    rows = [[], [0, 1], [0, 1, 0, 2], [0, 1, 1, 2, 1, 3], [5, 9, 5, 0xffffffff], [0xfffffffe, 0xffffffff]]
    pairs = [(0, 1), (1, 0), (0, 2), (2, 2), (3, 1), (0xffffffff, 0xfffffffe), (7, 5), (0, 0xffffffff), (0xffffffff, 0xffffffff)]
    for t in rows:
        for i, j in pairs:
            for room in (0, 1, 2, 3):
                yield case('32', len(t) // 2, i, j, table(t + [9] * room))
    # more rows than the table has, and no exclusion table besides; no exclusion table, and no room besides
    for t in ([1, 0], [0, 1, 0, 1], [0, 2, 0, 1], [2, 2], [1, 2, 0, 9], [0, 1, 1, 1]):
        for count in range(len(t) // 2 + 2):
            yield case('32', count, 4, 5, table(t))
            yield case('32', count, 4, 5, table(t + [0]))
    yield case('32', 0xffffffff, 1, 2, table([]))
    yield case('32', 0, 1 << 32, 2, table([]))
    raws = [[], [0, 1], [1, 0], [1, 1], [0, 1, 1, 0], [3, 2, 1, 0, 2, 3, 0, 1], [5, 5, 4, 3, 9, 9], [0xffffffff, 0, 0, 0xffffffff], [4, 1, 3, 1, 2, 1, 1, 0], [0], [0, 1, 2], [1, 1, 1]]
    for raw in raws:
        for room in range(0, 10):
            yield case('33', table(raw), table([7] * room))


# ---- the whole-number frame
MOST = 1 << 20


def rest(mark, n):
    return [mark + k for k in range(n)]


def build(edges, mask, radius, atoms, pairs=40, starts=40, items=None, table_=()):
    xs = [x for a in atoms for x in a]
    room = len(atoms) if items is None else items
    return case('40', list(edges), MASKS[mask], radius, table(xs), table(table_), table(rest(0xa0000000, pairs)), table(rest(0xb0000000, starts)),
                table(rest(0xc0000000, room)))


def scattered(n, edges, seed=1):
    out, x = [], seed
    for _ in range(n):
        a = []
        for e in edges:
            x = (x * 1103515245 + 12345) % (1 << 31)
            a.append((x >> 8) % e)
        out.append(a)
    return out


# in turn along a box's diagonal, first and last places among them
def diagonal(n, edges):
    return [[(e - 1) * k // (n - 1) for e in edges] for k in range(n)]


CLUSTER = [[0, 0, 0], [1, 0, 0], [0, 1, 0], [9, 9, 9]]
SIX = [[k, 0, 0] for k in range(6)]


def frame_shapes():
    for mask in range(8):
        # 27, 36 and 8 cells, or too narrow; no grid at all
        for edges, radius in (([9, 9, 9], 3), ([12, 9, 11], 3), ([6, 7, 6], 3), ([10, 10, 10], 4), ([5, 5, 5], 0)):
            yield build(edges, mask, radius, scattered(9, edges, 7 * mask + radius), 72)
        yield build([9, 9, 9], mask, 3, diagonal(7, [9, 9, 9]), 50)
        yield build([2, 2, 2], mask, 1, scattered(6, [2, 2, 2], mask + 1), 50)
    # 7 cells and 8
    for mask in (0, 1, 7):
        for edges, radius in (([7, 1, 1], 1), ([8, 1, 1], 1), ([21, 3, 3], 3), ([24, 3, 3], 3), ([23, 3, 3], 3), ([1, 7, 1], 1), ([1, 1, 8], 1), ([2, 2, 1], 1), ([4, 2, 1], 1)):
            yield build(edges, mask, radius, scattered(6, edges, radius), 30)
    # three bins of a periodic axis, and two; the document's edge 10
    for mask in (1, 2, 4, 7):
        for radius in (3, 4, 5, 10, 11):
            yield build([10, 10, 10], mask, radius, diagonal(5, [10, 10, 10]), 30, 65)
    # the radius exactly at a distance, and one less; straight and across the face
    box = [20, 20, 20]
    for edges, mask, a, b, d in ((box, 0, [1, 1, 1], [4, 5, 1], 5), (box, 7, [0, 19, 7], [17, 3, 7], 5), (box, 7, [0, 0, 0], [10, 0, 0], 10),
                                 (box, 0, [0, 0, 0], [19, 0, 0], 19), ([20, 3, 3], 7, [0, 0, 0], [19, 0, 0], 1), ([2, 20, 2], 2, [1, 0, 1], [1, 18, 1], 2)):
        for radius in (d - 1, d, d + 1):
            yield build(edges, mask, radius, [a, b], 4, 181)


def frame_rooms():
    for pairs in range(10):
        yield build([10, 10, 10], 7, 3, CLUSTER, pairs, 28)
    for pairs in (9, 10, 11, 28, 29, 30, 31):
        yield build([6, 1, 1], 0, 3, SIX, pairs, 3)
    for starts in (0, 1, 26, 27, 28, 29):
        for items in (3, 4, 6):
            yield build([10, 10, 10], 7, 3, CLUSTER, 20, starts, items)
    for n in (0, 1, 2):
        for items in range(n + 2):
            yield build([10, 10, 10], 7, 0 if n == 1 else 3, CLUSTER[:n], 2, 28 if n == 2 else 0, items)
    full = [(i, j) for i in range(4) for j in range(i + 1, 4)]
    for rows in ([], full[:1], full[1:], full, [(0, 9)], [(3, 0xffffffff)], full[2:4] + [(7, 8)]):
        for radius in (3, 5):
            yield build([10, 10, 10], 7, radius, CLUSTER, 12, 28, None, [x for r in rows for x in r])


def frame_limits():
    for k in range(3):
        for e in (0, 1, MOST, MOST + 1, 0xffffffff):
            edges = [e if i == k else 10 for i in range(3)]
            yield build(edges, 7, 3, [[0, 0, 0], [0, 0, 0]], 2, 28)
            yield build(edges, 0, MOST, [[0, 0, 0], [0, 0, 0]], 2, 0)
            yield build(edges, 0, 3, [], 0, 0)
            last = [e - 1 if i == k and e else 0 for i in range(3)]
            yield build(edges, 7, MOST, [[0, 0, 0], last], 2, 0)
        for x in (9, 10, 0xffffffff):
            spot = [x if i == k else 9 for i in range(3)]
            yield build([10, 10, 10], 7, 3, [[0, 0, 0], spot], 2, 28)
            yield build([10, 10, 10], 0, 4, [spot, [0, 0, 0]], 2, 9)
            yield build([10, 10, 10], 0, 4, [spot], 2, 9)
    for radius in (0, 1, MOST, MOST + 1, 0xffffffff):
        yield build([MOST] * 3, 0, radius, [[0, 0, 0], [MOST - 1] * 3], 2, 0)
        yield build([MOST] * 3, 7, radius, [[0, 0, 0], [MOST - 1] * 3], 2, 0)
        yield build([10] * 3, 5, radius, [], 2, 0)
    # a cell's first and last place, far out; 32 cells an axis are 32,768
    for radius in (MOST // 3, MOST // 3 + 1, MOST // 8, MOST // 20):
        at = [0, MOST // 3, MOST // 3 + 1, 2 * (MOST // 3), MOST - 1, radius]
        yield build([MOST] * 3, 7, radius, [[at[i], at[(i + 1) % 6], at[(i + 2) % 6]] for i in range(6)], 30, 600)
    for radius in (MOST // 32, MOST // 33):
        yield build([MOST] * 3, 7, radius, CLUSTER, 4, 30)


# refusals alone and two neighbouring ones at once: what is wrong, and in which argument
def frame_refusals():
    good = dict(edges=[10, 10, 10], mask=7, radius=3, atoms=CLUSTER, pairs=20, starts=28, items=4, table_=[0, 1])
    lengths = [dict(table_=[0]), dict(items=3), dict(table_=[0, 1, 2])]
    ranges = [dict(edges=[10, 0, 10]), dict(radius=MOST + 1), dict(atoms=CLUSTER[:3] + [[9, 9, 10]])]
    order = [dict(table_=[1, 0]), dict(table_=[2, 2]), dict(table_=[0, 1, 0, 1]), dict(table_=[1, 2, 0, 3])]
    cells = [dict(starts=27), dict(starts=0), dict(edges=[MOST] * 3, radius=1)]
    room = [dict(pairs=2), dict(pairs=0), dict(pairs=5)]
    kinds = [lengths, ranges, order, cells, room]
    yield build(**good)
    for k, one in enumerate(kinds):
        for a in one:
            yield build(**{**good, **a})
            for two in kinds[k + 1:]:
                for b in two:
                    if not set(a) & set(b):
                        yield build(**{**good, **a, **b})
    # half an atom, with and without a number out of range besides
    for n in (1, 2, 4, 5):
        for x in (1, 10):
            yield case('40', [10, 10, 10], MASKS[7], 3, table([x] * n), table([]), table([7] * 4), table([8] * 28), table([9] * 3))


def frame_no_cases():
    words = build([10, 10, 10], 7, 3, CLUSTER[:2], 2, 2).split()
    for cut in (1, 3, 7, len(words) - 1):
        yield ' '.join(words[:cut])
    yield ' '.join(words + ['%016x' % 0])
    for k, x in ((1, 1 << 32), (4, 2), (5, 2), (6, 2), (7, 1 << 32), (8, 7), (9, 1 << 32), (15, 1), (16, 3)):
        yield ' '.join(words[:k] + ['%016x' % x] + words[k + 1:])
    words = case('41', [10, 10, 10], MASKS[7], 3, [1, 2, 3], [4, 5, 6]).split()
    for k, x in ((1, 1 << 32), (4, 2), (7, 1 << 32), (8, 1 << 32), (13, 1 << 32)):
        yield ' '.join(words[:k] + ['%016x' % x] + words[k + 1:])
    yield ' '.join(words[:-1])
    yield ' '.join(words + ['%016x' % 0])


def distances():
    for mask in range(8):
        for a, b in (([0, 0, 0], [9, 9, 9]), ([0, 4, 5], [5, 9, 0]), ([3, 3, 3], [3, 3, 3]), ([9, 0, 2], [0, 9, 8])):
            yield case('41', [10, 10, 10], MASKS[mask], 3, a, b)
        yield case('41', [7, 11, MOST], MASKS[mask], 0, [0, 0, 0], [6, 10, MOST - 1])
        yield case('41', [MOST] * 3, MASKS[mask], MOST, [0, 0, 0], [MOST // 2 + mask - 4] * 3)
    for k in range(3):
        for e in (0, 1, MOST, MOST + 1, 0xffffffff):
            yield case('41', [e if i == k else 10 for i in range(3)], MASKS[7], 3, [0, 0, 0], [0, 0, 0])
        for x in (9, 10, 0xffffffff):
            spot = [x if i == k else 9 for i in range(3)]
            yield case('41', [10, 10, 10], MASKS[k], 3, [0, 1, 2], spot)
            yield case('41', [10, 10, 10], MASKS[k], 3, spot, [0, 1, 2])
    for radius in (0, MOST, MOST + 1, 0xffffffff):
        yield case('41', [1, 2, 3], MASKS[5], radius, [0, 0, 0], [0, 1, 2])
    yield case('41', [MOST] * 3, MASKS[0], 1, [0, 0, 0], [MOST - 1] * 3)


def frame():
    for group in (frame_shapes, frame_rooms, frame_limits, frame_refusals, frame_no_cases, distances):
        yield from group()


# ---- half the box (02, No. 3): twice the radius one below a periodic edge, at it, one above; the other edges are wide
def half_axes():
    for mask in range(8):
        for k in range(3):
            for edge, radius in ((11, 5), (10, 5), (9, 5)):
                edges = [edge if i == k else 20 for i in range(3)]
                # one pair at half the edge on this axis, a second at a place of its own, and one far off
                atoms = [[0, 0, 0], [edge // 2 if i == k else 0 for i in range(3)], [edge - 1 if i == k else 10 for i in range(3)], [edge - 1 if i == k else 0 for i in range(3)]]
                yield build(edges, mask, radius, atoms, 12, 40)
                yield case('41', edges, MASKS[mask], radius, atoms[0], atoms[1])
                yield case('41', edges, MASKS[mask], radius + 4, atoms[0], atoms[3])


# the least and the largest; twice a radius that no u32 holds; three edges at once
def half_ends():
    two = [[0, 0, 0], [0, 0, 0]]
    for mask in (0, 1, 2, 4, 7):
        for edge, radii in ((1, (0, 1)), (2, (1, 2)), (3, (1, 2)), (MOST - 1, (MOST // 2 - 1, MOST // 2)), (MOST, (MOST // 2, MOST // 2 + 1, MOST)),
                            (10, (0x7fffffff, 0x80000000, 0x80000001, 0xffffffff))):
            for radius in radii:
                yield build([edge] * 3, mask, radius, two, 4, 0)
                yield case('41', [edge] * 3, MASKS[mask], radius, [0, 0, 0], [edge - 1] * 3)
    for mask in range(8):
        yield build([12, 14, 16], mask, 7, [[0, 0, 0], [6, 7, 8], [11, 13, 15]], 6, 9)


# open axes keep any radius to 2^20: they fall back, or lay a grid over one that is periodic and long
def half_open():
    for k in range(3):
        short = [5 if i == k else 24 for i in range(3)]
        mask = 7 & ~(1 << k)
        for radius in (4, 5, 8, 12, 13):
            yield build(short, mask, radius, scattered(7, short, radius), 42, 40)
    for radius in (10, 100, MOST - 1, MOST, MOST + 1):
        yield build([10, 10, 10], 0, radius, CLUSTER, 12, 9)
        yield build([3, 7, MOST], 0, radius, [[0, 0, 0], [2, 6, MOST - 1], [1, 1, 12]], 12, 9)


# no atoms and one; room too short for what is never stored
def half_few():
    for radius in (5, 6):
        for n in (0, 1, 2):
            for mask in (0, 1, 6, 7):
                yield build([10, 10, 10], mask, radius, CLUSTER[:n], 0, 0)


# 3 with what is tested before it (1) and after it (5, 7, 8), and with the other ranges
def half_refusals():
    bad = dict(edges=[10, 20, 20], mask=1, radius=6, atoms=CLUSTER, pairs=20, starts=40, items=4, table_=[0, 1])
    others = [dict(), dict(table_=[0]), dict(items=3), dict(table_=[1, 0]), dict(table_=[2, 2]), dict(starts=0), dict(starts=27), dict(pairs=0), dict(pairs=2),
              dict(edges=[10, 0, 20]), dict(edges=[10, 20, MOST + 1]), dict(atoms=CLUSTER[:3] + [[10, 9, 9]]), dict(table_=[1, 0], starts=0, pairs=0)]
    for other in others:
        for radius in (5, 6):
            yield build(**{**bad, **other, 'radius': radius})
            yield build(**{**bad, **other, 'radius': radius, 'mask': 0})
    # half an atom comes before it
    for radius in (5, 6):
        yield case('40', [10, 10, 10], MASKS[7], radius, table([1] * 4), table([]), table([7] * 4), table([8] * 28), table([9] * 3))
    # a coordinate out of range besides, in either atom
    for radius in (5, 6):
        for a, b in (([9, 9, 9], [10, 0, 0]), ([0, 10, 0], [9, 9, 9]), ([9, 9, 9], [9, 9, 9])):
            yield case('41', [10, 10, 10], MASKS[7], radius, a, b)


def half():
    for group in (half_axes, half_ends, half_open, half_few, half_refusals):
        yield from group()


# ---- potentials: lj is epsilon, sigma, cutoff, shift; a cell 0, or 1 and a lattice
ARGON = [0.0103, 3.4, 2.5 * 3.4, 1]
IDS, PARAMS = [1, 8, 18], [0.001, 2.5, 0.0066, 3.1, 0.0103, 3.4]
SPECIES = [18, 1, 8, 6]
PLACES = [0.0, 0.0, 0.0, 3.75, 0.5, -0.25, 9.5, 9.0, 1.0, 0.5, 6.0, 5.5]
LISTED = [0, 1, 0, 2, 1, 2, 3, 0, 2, 3]
ROOM = [7.0] * 12
CHARGES = [1.0, -0.5, 0.0, -0.0]
CELLS = [[0], [1] + CUBIC + ALL, [1] + BOX + MASKS[5], [1] + TILTED + ALL, [1] + LEANING + ALL, [1] + SINGULAR + ALL]


def lj_pairs(lj=ARGON, at=CELLS[1], ids=IDS, params=PARAMS, species=SPECIES, xs=PLACES, pairs=LISTED, room=ROOM):
    return case('50', lj, at, table(ids), table(params), table(species), table(xs), table(pairs), table(room))


def lj_all(lj=ARGON, at=CELLS[1], ids=IDS, params=PARAMS, species=SPECIES, xs=PLACES, room=ROOM):
    return case('53', lj, at, table(ids), table(params), table(species), table(xs), table(room))


def coulomb(call, cutoff=9.0, at=CELLS[1], charges=CHARGES, xs=PLACES, pairs=LISTED, room=ROOM, units=UNITS):
    listed = [table(pairs)] if call == '51' else []
    return case(call, units, cutoff, at, table(charges), table(xs), *listed, table(room))


def bonds(k=20.0, r0=1.5, at=CELLS[1], pairs=LISTED, lengths=(), ks=(), xs=PLACES, room=ROOM):
    return case('52', k, r0, at, table(pairs), table(lengths), table(ks), table(xs), table(room))


def two(x):
    return [0.0, 0.0, 0.0, x, 0.0, 0.0]


def potentials():
    for at in CELLS:
        for shift in (0, 1):
            yield lj_pairs(ARGON[:3] + [shift], at)
            yield lj_all(ARGON[:3] + [shift], at)
        for charges in (CHARGES, [1.0, -1.0, 0.5, 2.0]):
            yield coulomb('51', at=at, charges=charges)
            yield coulomb('54', at=at, charges=charges)
        for lengths, ks in (((), ()), ((1.0, 2.0), (3.0,)), ([1.0] * 9, [2.0] * 9)):
            yield bonds(at=at, lengths=lengths, ks=ks)
    # at the cutoff, and at 1e-12: both sides
    for x in (3.0, up(3.0), down(3.0), 1e-6, up(1e-6), down(1e-6), 1e-7, 0.0, 1e-12, down(1e-12)):
        few = dict(at=[0], xs=two(x), pairs=[0, 1], room=[0.0] * 6)
        yield lj_pairs([0.0103, 3.4, 3.0, 1], species=[18, 18], **few)
        yield coulomb('51', 3.0, charges=[1.0, 2.0], **few)
        yield bonds(**few)
    for cutoff in (0.0, -0.0, ENTRY):
        yield lj_pairs([0.0103, 3.4, cutoff, 1])
        yield coulomb('54', cutoff)
    # pairs turned round, twice, of one atom; no pairs; no atoms
    for pairs in ([1, 0, 0, 1, 0, 1, 2, 2], []):
        yield lj_pairs(pairs=pairs)
        yield coulomb('51', pairs=pairs)
        yield bonds(pairs=pairs)
    yield lj_pairs(species=[], xs=[], pairs=[], room=[])
    yield lj_all(species=[], xs=[], room=[])
    yield lj_pairs(ids=[], params=[])
    # 3: each range's ends
    for x in ends(2.0**10):
        yield lj_pairs([x] + ARGON[1:])
        yield lj_pairs(ARGON[:1] + [x] + ARGON[2:])
        yield lj_all(params=PARAMS[:3] + [x] + PARAMS[4:])
        yield coulomb('51', charges=[1.0, x, 1.0, 1.0])
    for x in ends(ENTRY):
        yield lj_pairs(ARGON[:2] + [x, 1])
        yield lj_all(xs=PLACES[:5] + [x] + PLACES[6:])
        yield coulomb('54', x)
        yield coulomb('54', xs=PLACES[:5] + [x] + PLACES[6:])
        yield coulomb('51', at=[1] + CUBIC[:4] + [x] + CUBIC[5:] + ALL)
        yield bonds(k=x)
        yield bonds(r0=x)
        yield bonds(lengths=[1.0, x])
        yield bonds(ks=[x])
    for k in range(4):
        for x in (2.0**-40, down(2.0**-40), 2.0**40, up(2.0**40)):
            yield coulomb('51', units=UNITS[:k] + [x] + UNITS[k + 1:])
    # 1: each length; 4: each row; 5: ids that fall or stand; then neighbouring refusals at once
    for bad in (dict(ids=IDS[:2]), dict(params=PARAMS[:5]), dict(params=PARAMS + [1.0]), dict(species=SPECIES[:3]), dict(xs=PLACES[:11]), dict(room=ROOM[:9])):
        yield lj_pairs(**bad)
        yield lj_all(**bad)
    yield lj_pairs(pairs=LISTED[:9])
    for bad in (dict(charges=CHARGES[:3]), dict(xs=PLACES[:11]), dict(pairs=LISTED[:9]), dict(room=ROOM + [0.0] * 3)):
        yield coulomb('51', **bad)
    for bad in (dict(pairs=LISTED[:9]), dict(xs=PLACES[:10]), dict(room=[])):
        yield bonds(**bad)
    for k in range(10):
        pairs = LISTED[:k] + [4 if k % 2 else 0xffffffff] + LISTED[k + 1:]
        yield lj_pairs(pairs=pairs)
        yield coulomb('51', pairs=pairs)
        yield bonds(pairs=pairs)
    for ids in ([1, 8, 8], [8, 1, 18], [1, 18, 8], [0xffffffff, 0, 1]):
        yield lj_pairs(ids=ids)
        yield lj_all(ids=ids)
    for pairs in (LISTED, LISTED[:9], [9, 9]):
        for cutoff in (8.5, -1.0):
            for ids in (IDS, [3, 2, 1]):
                yield lj_pairs([0.0103, 3.4, cutoff, 1], ids=ids, pairs=pairs)
    # words missing and over, a shift that is no flag
    for line in (lj_pairs(), lj_all(), coulomb('51'), coulomb('54'), bonds()):
        yield line[:-17]
        yield line + ' 0000000000000000'
    yield lj_all([0.0103, 3.4, 8.5, 2])


# ---- cosine angles
CORNERS = [1, 0, 2, 0, 1, 3, 2, 3, 0, 3, 2, 1]


def angles(k=20.0, rest=-0.5, at=CELLS[1], rows=CORNERS, per=(), xs=PLACES, room=ROOM):
    return case('56', k, rest, at, table(rows), table(per), table(xs), table(room))


def angle_shapes():
    for at in CELLS:
        for per in ((), (5.0, 0.25), [7.0, -0.75] * 4, [3.0, 1.0] * 6):
            yield angles(at=at, per=per)
    for mask in MASKS:
        yield angles(at=[1] + BOX + mask)
    for k in (0.0, -0.0, -20.0, ENTRY, -ENTRY, 5e-324):
        for rest in (-1.0, 0.0, 1.0):
            yield angles(k, rest)
    # atoms of one row that are the same; rows turned round and twice; no rows; no atoms
    for rows in ([0, 1, 0], [1, 1, 0], [0, 1, 1], [2, 2, 2], [2, 0, 1, 1, 0, 2, 1, 0, 2], []):
        yield angles(rows=rows)
    yield angles(rows=[], xs=[], room=[])
    yield angles(rows=[], per=[1.0, 0.5], xs=[], room=[])


def corner(a, b, **more):
    return angles(at=[0], rows=[0, 1, 2], xs=a + [0.0] * 3 + b, room=[0.0] * 9, **more)


def angle_arms():
    # an arm of 1e-9 and its neighbours, on either side
    for x in (NANO, up(NANO), down(NANO), up(up(NANO)), 1e-10, 0.0, 2e-9):
        yield corner([x, 0.0, 0.0], [0.0, 1.0, 0.0])
        yield corner([0.0, 1.0, 0.5], [0.0, 0.0, -x])
        yield corner([x, 0.0, 0.0], [x, x, 0.0])
    # straight and folded arms: a cosine that rounds past 1 is held
    for n in range(12):
        v = [(n * 37 % 19 + 1) / 7, (n * 53 % 23 + 1) / 11, -(n * 29 % 17 + 1) / 13]
        for scale in (3.0, -3.0, 1.0, -0.1):
            yield corner(v, [scale * x for x in v], rest=(-1.0, 0.5, 1.0)[n % 3])
    yield corner([ENTRY, ENTRY, ENTRY], [-ENTRY, ENTRY, -ENTRY])


def angle_limits():
    for x in ends(ENTRY):
        yield angles(k=x)
        yield angles(per=[1.0, 0.5, x, 0.5])
        yield angles(per=[1.0, 0.5] * 5 + [x, 0.5])
        yield angles(xs=PLACES[:5] + [x] + PLACES[6:])
        yield angles(at=[1] + CUBIC[:4] + [x] + CUBIC[5:] + ALL)
    for x in (1.0, up(1.0), down(1.0), -1.0, -up(1.0), -down(1.0), 2.0, NAN, INF, -INF):
        yield angles(rest=x)
        yield angles(per=[1.0, x])
        yield angles(per=[1.0, 0.5] * 4 + [2.0, x])


def angle_refusals():
    lengths = [dict(xs=PLACES[:11]), dict(rows=CORNERS[:11]), dict(rows=CORNERS[:10]), dict(per=[1.0]), dict(per=[1.0, 0.5, 2.0]), dict(room=ROOM[:9]), dict(room=ROOM + [0.0] * 3), dict(room=[])]
    ranges = [dict(k=NAN), dict(rest=up(1.0)), dict(per=[1.0, -up(1.0)]), dict(at=[1] + CUBIC[:8] + [INF] + ALL), dict(xs=[up(ENTRY)] + PLACES[1:])]
    named = [dict(rows=CORNERS[:k] + [4 if k % 2 else 0xffffffff] + CORNERS[k + 1:]) for k in range(12)]
    for one in (lengths, ranges, named):
        for a in one:
            yield angles(**a)
    for one, later in ((lengths, ranges + named[:3]), (ranges, named[:3])):
        for a in one:
            for b in later:
                if not set(a) & set(b):
                    yield angles(**{**a, **b})
    line = angles()
    yield line[:-17]
    yield line + ' 0000000000000000'
    yield case('56', 1.0, 0.5)
    yield case('56', 1.0, 0.5, [2])


def angle_cases():
    for group in (angle_shapes, angle_arms, angle_limits, angle_refusals):
        yield from group()


# ---- the pair list
U32 = 0xffffffff
TINY = 5e-324


def state(cutoff=2.5, skin=0.5, pairs=0, references=0, checks=0, fallback=0, builds=0):
    return [cutoff, skin, pairs, references, checks, fallback, builds]


def cell_of(c, mask=7):
    return [0] if c is None else [1] + list(c) + MASKS[mask]


def cube(edge):
    return [edge, 0.0, 0.0, 0.0, edge, 0.0, 0.0, 0.0, edge]


def box(x, y, z):
    return [x, 0.0, 0.0, 0.0, y, 0.0, 0.0, 0.0, z]


def flat(atoms):
    return [float(x) for a in atoms for x in a]


# `pairs` and `refs` are what stands in the first of their rooms; `more` lengthens the references
def update(call, s=None, c=None, mask=7, atoms=(), table_=(), pairs=(), room=40, refs=(), more=0, starts=28, items=None, xs=None):
    xs = flat(atoms) if xs is None else xs
    listed = list(pairs) + rest(0xa0000000, room)[len(pairs):]
    long = max(len(xs) + more, 0)
    referred = list(refs) + [1e300 + 1e290 * k for k in range(long)][len(refs):]
    n = len(xs) // 3 if items is None else items
    return case(call, state() if s is None else s, cell_of(c, mask), table(xs), table(table_), table(listed), table(referred), table(rest(0xb0000000, starts)),
                table(rest(0xc0000000, n)))


def spots(n, edge, seed=1):
    return [[x / 8 - edge / 4 for x in a] for a in scattered(n, [int(edge * 12)] * 3, seed)]


CLOSE = [[0.0, 0.0, 0.0], [1.0, 0.5, 0.0], [0.0, 9.5, 1.0], [5.0, 5.0, 5.0], [9.75, 9.75, 9.75]]


def settings():
    for x in ends(ENTRY) + [TINY, -TINY, down(ENTRY), -1.0]:
        yield case('30', x, 0.5)
        yield case('30', 2.5, x)
        yield case('31', state(cutoff=x))
        yield case('31', state(skin=x))
        yield case('31', state(x, x))
    yield case('30', NAN, NAN)
    for k in (2, 3, 4, 6):
        s = state(0.1, 0.2)
        s[k] = U32
        yield case('31', s)
    for builds in (0, 1, U32 - 1, U32):
        for earlier in (0, 1, U32 - 1, U32):
            yield case('37', state(builds=builds), earlier)
    yield case('37', [NAN, INF, U32, U32, U32, 1, 7], 9)


def list_shapes():
    for k, c in enumerate(SHAPES):
        for mask in (7, (2 * k + 1) % 7):
            yield update('35', state(2.0, 0.5), c, mask, spots(7, 10.0, k + mask), starts=70)
    for mask in range(8):
        for c in (CUBIC, TILTED, MIRRORED, BOX):
            yield update('35', state(2.0, 0.5), c, mask, CLOSE, starts=65)
        yield update('36', state(2.5, 0.5), CUBIC, mask, spots(9, 10.0, mask + 1), room=72)
    for n in range(10):
        yield update('35', state(2.0, 0.5), None, 0, spots(n, 10.0, n + 3), room=80, starts=70)
    # 7 cells and 8, with a cell and without; three bins of a periodic axis and two
    for x in (6.9, 7.0, 7.99, 8.0):
        for c in (box(x, 1.0, 1.0), box(1.0, x, 1.0), box(1.0, 1.0, x)):
            yield update('35', state(1.0, 0.0), c, 0, [[0.0, 0.0, 0.0], [x - 0.5, 0.5, 0.5], [x, 0.0, 0.0], [0.25, x, x]], starts=9)
        yield update('35', state(1.0, 0.0), None, 0, [[0.0, 0.0, 0.0], [x, 1.0, 1.0], [x - 1.0, 1.0, 1.0], [0.5, 0.5, 0.5]], starts=9)
    for mask in (0, 1, 2, 4, 7):
        for cutoff in (10.0 / 3.0, up(10.0 / 3.0), down(10.0 / 3.0), 3.0, 5.0, 10.0, up(10.0)):
            yield update('35', state(cutoff, 0.0), CUBIC, mask, CLOSE)
    # a tiny negative fraction folds to 1
    for x in (-TINY, -1e-300, -1e-20, -1e-16, -1e-15, -0.0, 10.0, down(10.0), -10.0, 20.0, up(20.0)):
        for mask in (7, 6):
            yield update('35', state(2.0, 1.0), CUBIC, mask, [[x, 5.0, 5.0], [0.5, 5.0, 5.0], [9.5, 5.0, 5.0], [5.0, x, x]])
    # a pair across an open face that the fold hides
    for mask in range(8):
        yield update('35', state(3.0, 0.0), CUBIC, mask, [[9.75, 5.0, 5.0], [10.25, 5.0, 5.0], [5.0, -0.25, 0.25]])
    # no width, a width past every count, a product past every count
    for edge in (1e-7, 1e-6, 2.0**-20, 1.0, ENTRY):
        for radius in (0.25, 1.0, 1e-9, TINY):
            yield update('35', state(radius, 0.0), cube(edge), 7, [[0.0, 0.0, 0.0], [edge / 2, 0.0, 0.0]])
    for mask in (0, 3):
        yield update('35', state(1.0, 0.0), cube(1e-7), mask, CLOSE)


def list_distances():
    for atoms, d in (([[1.0, 1.0, 1.0], [4.0, 5.0, 1.0]], 5.0), ([[0.0, 19.0, 7.0], [17.0, 3.0, 7.0]], 5.0), ([[0.0, 0.0, 0.0], [0.0, 6.0, 0.0]], 6.0), ([[0.1, 0.2, 0.3], [0.4, 0.6, 0.3]], 0.5)):
        for c in (cube(20.0), None):
            for r in (d, up(d), down(d)):
                yield update('35', state(r, 0.0), c, 7, atoms, starts=65)
            yield update('35', state(d - 0.125, 0.125), c, 7, atoms, starts=65)
    # the displacement at half the skin, and the next float on either side; straight, and across a face
    for skin in (0.5, 2.0, 0.0, -0.0, -0.5, TINY, 2 * TINY, 0.1):
        half = abs(skin) / 2
        for start in (1.0, 9.875, 0.0):
            for moved in (start + half, up(start + half), down(start + half) if start + half > 0 else -TINY):
                end = moved - 10.0 if start > 9.0 else moved
                yield case('34', state(2.0, skin, 0, 1), cell_of(CUBIC), table([end, 0.0, 0.0]), table([start, 0.0, 0.0]))
    for skin in (0.5, 1.0):
        for moved in (skin / 2, up(skin / 2), -skin / 2, -up(skin / 2)):
            for k in range(3):
                refs = flat(CLOSE)
                xs = list(refs)
                xs[3 * k + k] = refs[3 * k + k] + moved
                yield update('36', state(2.0, skin, 1, 5, 7, k % 2, 3), CUBIC, 7, xs=xs, refs=refs, pairs=[0, 1], starts=65)
    for s in (state(2.0, 0.5, 0, 0), state(2.0, 0.0, 0, 0), state(2.0, -1.0, 0, 0), state(2.0, 0.5, 0, 1)):
        for n in range(3):
            yield case('34', s, cell_of(None), table(flat(CLOSE[:n])), table(flat(CLOSE[:2])))
            yield update('36', s, None, 0, CLOSE[:n], refs=flat(CLOSE[:n]), more=3)
            yield update('35', s, CUBIC, 7, CLOSE[:n], more=3, room=2 * (n // 2))
    for builds in (0, 1, U32 - 1, U32):
        for skin in (-1.0, -0.0, 0.5, -ENTRY):
            yield update('35', state(2.5, skin, 0, 0, 9, 1, builds), CUBIC, 7, CLOSE)
            yield update('36', state(2.5, skin, 1, 5, 9, 1, builds), CUBIC, 7, CLOSE, refs=flat(CLOSE), pairs=[3, 4])
            yield update('35', state(2.5, skin, 0, 0, 9, 1, builds), CUBIC, 7, CLOSE, room=3)


def list_rooms():
    for c, starts in ((CUBIC, 28), (None, 0)):
        for room in list(range(12)) + [20, 21]:
            yield update('35', state(2.5, 0.5), c, 7, CLOSE, room=room, starts=starts)
    for starts in (0, 1, 27, 28, 29):
        for items in (4, 5, 7):
            for more in (-1, 0, 1, 2):
                yield update('36', state(2.5, 0.5), CUBIC, 7, CLOSE, starts=starts, items=items, more=more)
    full = [(i, j) for i in range(5) for j in range(i + 1, 5)]
    for rows_ in ([], full[:1], full[1:], full, [(0, 9)], [(3, U32)], full[2:4] + [(7, 8)], [(2, 2)], [(4, 4), (5, 6)]):
        for cutoff in (2.5, 4.0):
            yield update('35', state(cutoff, 0.5), CUBIC, 7, CLOSE, [x for r in rows_ for x in r])


def list_claims():
    for room in (0, 1, 4, 5):
        for pairs in (0, room // 2, room // 2 + 1, U32):
            for call in ('35', '36'):
                yield update(call, state(2.5, 0.5, pairs, 0), CUBIC, 7, CLOSE[:2], room=room)
    for more in (0, 2, 3):
        for references in (0, 1, 2, 3, 4, U32):
            for call in ('35', '36'):
                yield update(call, state(2.5, 0.5, 0, references), CUBIC, 7, CLOSE[:2], more=more, refs=flat(CLOSE[:2]))
            yield case('34', state(2.5, 0.5, 0, references), cell_of(CUBIC), table(flat(CLOSE[:2])), table(flat(CLOSE[:2]) + [0.0] * more))
    # old listed pairs: reversed, twice, an atom with itself; an atom that is not there
    for pairs in ([0, 1, 1, 2], [1, 0, 1, 0], [2, 2, 4, 3], [0, 5, 1, 2], [5, 0, 1, 2], [0, 1, 1, 5], [0, 1, U32, 1], [5, 5, 6, 6]):
        for references in (5, 4):
            for skin in (0.5, 0.0):
                yield update('36', state(2.5, skin, 2, references), CUBIC, 7, CLOSE, refs=flat(CLOSE), pairs=pairs)
        yield update('35', state(2.5, 0.5, 2, 5), CUBIC, 7, CLOSE, pairs=pairs)


def list_limits():
    for x in ends(ENTRY):
        for call in ('35', '36'):
            yield update(call, state(cutoff=x), CUBIC, 7, CLOSE[:2])
            yield update(call, state(skin=x), CUBIC, 7, CLOSE[:2])
        for k in range(6):
            xs = flat(CLOSE[:2])
            xs[k] = x
            yield update('35', state(2.5, 0.5), CUBIC if k % 2 else None, 7, xs=xs)
            yield update('36', state(2.5, 0.5, 0, 2), CUBIC, 7, CLOSE[:2], refs=xs)
            yield update('36', state(2.5, 0.5, 0, 1), CUBIC, 7, CLOSE[:2], refs=xs)
            yield case('34', state(2.5, 0.5, 0, 2 - k % 2), cell_of(CUBIC), table(flat(CLOSE[:2])), table(xs))
            yield case('34', state(2.5, 0.5, 0, 2), cell_of(CUBIC), table(xs), table(flat(CLOSE[:2])))
    for k in range(9):
        for x in (ENTRY, up(ENTRY), -ENTRY, -up(ENTRY), NAN, INF):
            c = list(TILTED)
            c[k] = x
            yield update('35', state(2.5, 0.5), c, 7, CLOSE[:2], starts=100)
            yield case('34', state(2.5, 0.5), cell_of(c), table([]), table([]))


# refusals alone and two at once: what is wrong, and in which argument
def list_refusals():
    good = dict(s=state(2.5, 0.5, 1, 5), c=CUBIC, atoms=CLOSE, table_=[0, 1], refs=flat(CLOSE[:4]) + [5.0, 5.0, 5.0], pairs=[3, 4], room=20, items=5)
    lengths = [dict(table_=[0]), dict(items=4), dict(more=-1), dict(xs=flat(CLOSE) + [1.0])]
    claims = [dict(s=state(2.5, 0.5, 11, 5)), dict(s=state(2.5, 0.5, 1, 6))]
    ranges = [dict(s=state(-TINY, 0.5, 1, 5)), dict(c=box(10.0, NAN, 10.0)), dict(atoms=CLOSE[:4] + [[0.0, 0.0, up(ENTRY)]]), dict(refs=flat(CLOSE[:4]) + [NAN] * 3)]
    named = [dict(pairs=[3, 5]), dict(pairs=[U32, 1])]
    order = [dict(table_=[1, 0]), dict(table_=[2, 2]), dict(table_=[0, 1, 0, 1])]
    cells = [dict(starts=27), dict(c=cube(ENTRY))]
    room = [dict(room=2), dict(room=3)]
    kinds = [lengths, claims, ranges, named, order, cells, room]
    for call in ('36', '35'):
        yield update(call, **good)
        for k, one in enumerate(kinds):
            for a in one:
                yield update(call, **{**good, **a})
                for two in kinds[k + 1:]:
                    b = next((b for b in two if not set(a) & set(b)), None)
                    if b:
                        yield update(call, **{**good, **a, **b})
    xs = flat(CLOSE[:2])
    for n in range(7):
        for m in range(5, 9):
            for references in (2, 3):
                yield case('34', state(2.5, 0.5, 0, references), cell_of(CUBIC), table((xs + [NAN])[7 - n:]), table(xs + [INF] * (m - 6) if m > 5 else xs[:5]))


def list_no_cases():
    words = update('36', c=CUBIC, atoms=CLOSE[:1], room=2, starts=1).split()
    for cut in (1, 3, 8, 9, 20, 21, 22, len(words) - 1):
        yield ' '.join(words[:cut])
    yield ' '.join(words + ['%016x' % 0])
    for k, x in ((3, 1 << 32), (4, 1 << 32), (5, 1 << 32), (6, 2), (7, 1 << 32), (8, 2), (18, 2), (20, 2), (21, 4), (25, 1), (26, 3), (27, 1 << 32), (32, 2), (33, 1 << 32)):
        yield ' '.join(words[:k] + ['%016x' % x] + words[k + 1:])
    for call, n in (('30', 1), ('30', 3), ('31', 6), ('31', 8), ('37', 7), ('37', 9), ('34', 9), ('34', 11), ('38', 0), ('3f', 2)):
        yield case(call, [0] * n)


def neighbor():
    for group in (settings, list_shapes, list_distances, list_rooms, list_claims, list_limits, list_refusals, list_no_cases):
        yield from group()


# ---- kinetic energy, temperature, Berendsen
VS, MS = sums(6), [1.0, 39.948]
FAINT = 1e-12


def energy(vs=VS, ms=MS, units=UNITS):
    return case('60', units, table(vs), table(ms))


def warmth(vs=VS, ms=MS, units=UNITS, dof=6.0):
    return case('61', units, dof, table(vs), table(ms))


def berendsen(vs=VS, ms=MS, units=UNITS, dt=1.0, target=300.0, tau=100.0):
    return case('62', units, dt, target, tau, table(ms), table(vs))


CALLS = (energy, warmth, berendsen)


# units at which one atom of mass 1 and velocity 2^-20 has the temperature t, as nearly as there are any
def units_at(t):
    kb = 2.0**-40 / (3.0 * t)
    for _ in range(4):
        for k in (kb, down(kb), up(kb)):
            if 2.0 * (0.5 * 1.0 * 2.0**-40 / 1.0) / (3.0 * 1.0 * k) == t:
                return [1.0, k, 1.0, 1.0]
        kb = down(kb)
    return [1.0, kb, 1.0, 1.0]


def verlet_edges():
    # no atoms; a temperature of 1e-12, next below and next above; no velocity at all, with either zero
    for call in CALLS:
        yield call([], [])
        yield call([0.0, -0.0, 0.0], [1.0])
        yield call([5e-324, -5e-324, 0.0], [ENTRY])
        yield call([ENTRY] * 6, [ENTRY] * 2)
        yield call([-ENTRY] * 3, [2.0**-10], [2.0**40] * 4)
        yield call([-ENTRY] * 3, [2.0**-10], [2.0**-40] * 4)
        yield call(sums(9), [1.0, 1e3, 0.5])
    for t in (FAINT, down(FAINT), up(FAINT), 2 * FAINT, FAINT / 2):
        for target in (0.0, -0.0, 300.0):
            yield berendsen([2.0**-20, 0.0, -0.0], [1.0], units_at(t), target=target)
        yield warmth([2.0**-20, 0.0, -0.0], [1.0], units_at(t), 3.0)
    for dt in (0.0, -0.0, 1.0, -1.0, 5e-324, 100.0, 200.0, -200.0, 1024.0, -1024.0):
        for target, tau in ((300.0, 100.0), (0.0, 1.0), (ENTRY, 2.0**-10), (-0.0, ENTRY), (1.0, 1.0)):
            yield berendsen(dt=dt, target=target, tau=tau)
    # a factor's square at 0, below it and above, and a not-a-number: target at the temperature itself, dt at tau
    for dt, tau in ((1.0, 1.0), (1.0, down(1.0)), (up(1.0), 1.0), (-1.0, 1.0)):
        yield berendsen([2.0**-20, 0.0, -0.0], [1.0], units_at(1.0), dt, 0.0, tau)
        yield berendsen([2.0**-20, 0.0, -0.0], [1.0], units_at(1.0), dt, 1.0, tau)
    for dof in (0.0, -0.0, 5e-324, -5e-324, 1.0, -6.0, 1e-300, OTHER, -OTHER, 3.0):
        yield warmth(dof=dof)
        yield warmth([0.0] * 3, [1.0], dof=dof)


def verlet_limits():
    for k in range(4):
        for x in (2.0**-40, down(2.0**-40), 2.0**40, up(2.0**40), 0.0, -1.0, NAN):
            bad = list(UNITS)
            bad[k] = x
            for call in CALLS:
                yield call(units=bad)
    for k in (0, 5):
        for x in ends(ENTRY):
            for call in CALLS:
                yield call([x if i == k else 1.5 for i in range(6)])
    for k in (0, 1):
        for x in (2.0**-10, down(2.0**-10), ENTRY, up(ENTRY), 0.0, -1.0, NAN, INF):
            for call in CALLS:
                yield call(ms=[x if i == k else 1.5 for i in range(2)])
    for x in ends(OTHER):
        yield warmth(dof=x)
    for x in ends(1024.0):
        yield berendsen(dt=x)
    for x in (ENTRY, up(ENTRY), 0.0, -0.0, -5e-324, NAN, INF):
        yield berendsen(target=x)
    for x in (2.0**-10, down(2.0**-10), ENTRY, up(ENTRY), 0.0, -1.0, NAN, INF):
        yield berendsen(tau=x)


# lengths alone and before a number out of range, in each argument; words missing and over
def verlet_refusals():
    for a, b in ((0, 0), (0, 1), (3, 0), (3, 1), (3, 2), (6, 2), (6, 1), (2, 1), (4, 1), (7, 2), (1, 0)):
        for call in CALLS:
            yield call(sums(a), [1.0] * b)
            yield call([NAN] * a, [1.0] * b)
            yield call(sums(a), [0.0] * b)
            yield call(sums(a), [1.0] * b, [0.0] + UNITS[1:])
        yield warmth(sums(a), [1.0] * b, dof=INF)
        yield berendsen(sums(a), [1.0] * b, dt=up(1024.0))
        yield berendsen(sums(a), [1.0] * b, target=-1.0)
        yield berendsen(sums(a), [1.0] * b, tau=0.0)
    for call in CALLS:
        words = call().split()
        for cut in (1, 4, 5, len(words) - 1):
            yield ' '.join(words[:cut])
        yield ' '.join(words + ['%016x' % 0])
        yield ' '.join(words).replace('%016x' % 6, '%016x' % 7, 1)
        yield ' '.join(words).replace('%016x' % 2, '%016x' % 8192, 1)


def verlet():
    for group in (verlet_edges, verlet_limits, verlet_refusals):
        yield from group()


# ---- a step and its finish
TRIO = [[0.0, 0.0, 0.0], [1.25, 0.5, 0.0], [4.0, 4.5, 5.0]]
STILL = dict(lj=None, coulomb=None, bond=None)
PLAIN = [1.0, 1.0, 1.0, 1.0]


def term(numbers):
    return [0] if numbers is None else [1] + list(numbers)


# What is not said is three atoms with every term and no cell, no thermostat and no list yet. `pairs` and `refs` are what stands in the first of their rooms.
def moving(call, dt=0.5, thermostat=None, lj=ARGON, coulomb=(9.0,), bond=(20.0, 1.5), units=UNITS, s=None, c=None, mask=7, ids=(18,), params=(0.0103, 3.4), species=None,
           charges=None, bonds=(0, 1), lengths=(), ks=(), masses=None, table_=(), potential=-1.5, atoms=TRIO, xs=None, vs=None, pairs=(), room=6, refs=(), more=0,
           starts=0, items=None, forces=None):
    xs = flat(atoms) if xs is None else xs
    n = len(xs) // 3
    per = lambda given, usual: (usual * n)[:n] if given is None else given
    vs = [0.125 * k - 0.25 for k in range(3 * n)] if vs is None else vs
    forces = [0.5 - 0.25 * k for k in range(3 * n)] if forces is None else forces
    listed = list(pairs) + rest(0xa0000000, room)[len(pairs):]
    referred = list(refs) + [1e300 + 1e290 * k for k in range(max(len(xs) + more, 0))][len(refs):]
    return case(call, dt, term(thermostat), term(lj), term(coulomb), term(bond), units, state() if s is None else s, cell_of(c, mask), table(ids), table(params),
                table(per(species, [18, 1])), table(per(charges, [0.5, -0.5, 0.0])), table(bonds), table(lengths), table(ks), table(per(masses, [39.948, 1.0, 16.0])),
                table(table_), potential, table(xs), table(vs), table(listed), table(referred), table(rest(0xb0000000, starts)),
                table(rest(0xc0000000, n if items is None else items)), table(forces))


# verlet.rs, half a kick and the drift: velocities and positions after them
def drifted(dt, xs, vs, forces, masses, units=UNITS):
    accel = struct.unpack('>d', struct.pack('>Q', of(units[0])))[0]
    vs = [v + (f * (accel / masses[k // 3])) * (0.5 * dt) for k, (v, f) in enumerate(zip(vs, forces))]
    return [x + v * dt for x, v in zip(xs, vs)], vs


STEPS = ('63', '64')
WARM = (300.0, 100.0)


def step_terms():
    for call in STEPS:
        for t in (None, WARM):
            for absent in range(8):
                off = {k: None for b, k in enumerate(('lj', 'coulomb', 'bond')) if absent >> b & 1}
                yield moving(call, thermostat=t, **off)
            yield moving(call, thermostat=t, atoms=[], bonds=())
            yield moving(call, thermostat=t, atoms=[], bonds=(), c=CUBIC, starts=28, **STILL)
            yield moving(call, thermostat=t, atoms=TRIO[:1], bonds=())
            yield moving(call, thermostat=t, atoms=[TRIO[0]] * 2, vs=[0.0, -0.0] * 3, forces=[0.0] * 6)
            for dt in (0.0, -0.0, -0.5, TINY, 1024.0, -1024.0):
                yield moving(call, dt, t)
        for c, starts in ((CUBIC, 28), (BOX, 0), (TILTED, 40), (MIRRORED, 40), (SINGULAR, 0)):
            yield moving(call, thermostat=WARM, c=c, starts=starts)
        yield moving(call, lengths=[1.0], ks=[3.0], bonds=[0, 1, 2, 1])
        yield moving(call, lengths=[1.0, 2.0, 3.0], bonds=[0, 1], ids=(), params=())


# temperatures at 1e-12 and beside it, of the velocities after the second kick; no velocity; a factor's square at 0 and beside it
def step_warmth():
    one = dict(atoms=TRIO[:1], masses=[1.0], vs=[2.0**-20, 0.0, -0.0], forces=[0.0] * 3, bonds=())
    for call in STEPS:
        for t in (FAINT, down(FAINT), up(FAINT), 2 * FAINT):
            yield moving(call, 1.0, (300.0, 1.0), units=units_at(t), **one)
        yield moving(call, 1.0, (-0.0, 1.0), units=units_at(FAINT), **one)
        for dt, tau in ((1.0, 1.0), (1.0, down(1.0)), (up(1.0), 1.0), (-1.0, 1.0)):
            yield moving(call, dt, (0.0, tau), units=units_at(1.0), **one)
        yield moving(call, 1.0, (300.0, 1.0), **{**one, 'vs': [0.0, -0.0, 0.0]})


# a drift to 2^20, which is inside, and to what is next past it, by the velocity or by the force; what else may be wrong with it
def step_drift():
    least = 2.0**-32
    for k in (0, 4, 8):
        for sign in (1.0, -1.0):
            xs = flat(TRIO)
            xs[k] = sign * (ENTRY - 1.0)
            for v in (1.0, 1.0 + least / 2, 1.0 + least, 1.0 + least / 2 + 2.0**-50):
                vs = [sign * v if i == k else 0.0 for i in range(9)]
                yield moving('63', 1.0, s=state(0.0, 0.0), xs=xs, vs=vs, forces=[0.0] * 9, **STILL)
                yield moving('63', -1.0, WARM, xs=xs, vs=[-x for x in vs], forces=[0.0] * 9, **STILL)
            for v in (1.0, 1.0 + least):
                forces = [2.0 * sign * v if i == k else 0.0 for i in range(9)]
                yield moving('63', 1.0, s=state(0.0, 0.0), units=PLAIN, masses=[1.0] * 3, xs=xs, vs=[0.0] * 9, forces=forces, **STILL)
    far = dict(dt=1.0, xs=[ENTRY] + flat(TRIO)[1:], vs=[1.0] * 9, forces=[0.0] * 9)
    for more in (dict(), dict(table_=[1, 0]), dict(ids=[8, 8], params=[1.0] * 4), dict(bonds=[0, 3]), dict(room=0), dict(c=CUBIC, starts=27), dict(potential=NAN)):
        for call in STEPS:
            yield moving(call, **{**far, **more})
    yield moving('63', 1024.0, forces=[OTHER, -OTHER] + [0.0] * 7, masses=[2.0**-10] * 3, units=[2.0**40] * 4)
    yield moving('63', 1.0, vs=[ENTRY] * 9, forces=[0.0] * 9)


# the list is kept at a displacement of half the skin, counted after the drift, and built anew past it
def step_lists():
    refs = flat(TRIO)
    for v in (0.25, up(0.25), -0.25, 0.0):
        for k in (0, 7):
            vs = [v if i == k else 0.0 for i in range(9)]
            kept = dict(s=state(2.5, 0.5, 1, 3, 9, 1, 4), refs=refs, pairs=[0, 1], forces=[0.0] * 9)
            yield moving('63', 1.0, vs=vs, **kept)
            yield moving('64', 1.0, vs=vs, xs=[x + d for x, d in zip(refs, vs)], **kept)
    for s in (state(2.5, 0.0, 1, 3), state(2.5, -0.5, 1, 3), state(2.5, -0.0, 1, 3), state(2.5, 0.5, 1, 2), state(2.5, 0.5, 1, 0, 0, 0, U32), state(0.0, 64.0, 3, 3)):
        for call in STEPS:
            yield moving(call, s=s, refs=refs, pairs=[1, 0, 1, 0, 2, 2], thermostat=WARM)
    for call in STEPS:
        yield moving(call, s=state(2.5, 8.0, 3, 3), refs=refs, pairs=[0, 1, 0, 2, 1, 2], starts=0, c=CUBIC)
        yield moving(call, s=state(8.5, 0.5), table_=[0, 1])
        yield moving(call, s=state(8.5, 0.5, 0, 0, 0, 0, U32), table_=[0, 1, 0, 2, 1, 2], items=5, more=2, room=7)


# a 7 and an 8 stop a step; its finish with room enough, with too little, with a 7 where an 8 was
def step_stops():
    dt, vs, forces, masses = 0.5, [0.125 * k - 0.25 for k in range(9)], [0.5 - 0.25 * k for k in range(9)], [39.948, 1.0, 16.0]
    xs, half = drifted(dt, flat(TRIO), vs, forces, masses)
    for t in (None, WARM):
        same = dict(dt=dt, thermostat=t)
        for starts in (0, 1, 27):
            yield moving('63', c=CUBIC, starts=starts, **same)
        for starts in (27, 28, 30):
            yield moving('64', c=CUBIC, starts=starts, xs=xs, vs=half, **same)
        for room in (0, 1):
            yield moving('63', c=CUBIC, starts=28, room=room, **same)
            yield moving('63', s=state(8.5, -0.5, 0, 0, 7, 1, 3), room=room + 4, **same)
        for room in (0, 1, 2, 6):
            yield moving('64', c=CUBIC, starts=28, room=room, xs=xs, vs=half, **same)
        yield moving('64', c=CUBIC, starts=27, room=0, xs=xs, vs=half, **same)
        for room in (4, 5, 6):
            yield moving('64', s=state(8.5, 0.0, 0, 0, 0, 0, 3), room=room, xs=xs, vs=half, **same)
        for call in STEPS:
            yield moving(call, c=cube(ENTRY), starts=9, **same)
            yield moving(call, c=CUBIC, starts=0, room=0, s=state(2.5, 0.5, 0, 3, 0, 0, 8), refs=flat(TRIO) if call == '63' else xs, **same)
    fast = [OTHER, -OTHER, up(OTHER / 2)] + half[3:]
    for call in STEPS:
        yield moving(call, dt, xs=xs, vs=fast, **STILL)


# the ends of each range and what is next past them
def step_limits():
    def at(k, n, x, usual=1.0):
        return [x if i == k else usual for i in range(n)]

    for call in STEPS:
        for x in ends(1024.0)[:5] + [NAN]:
            yield moving(call, x, vs=[0.0] * 9, forces=[0.0] * 9)
        for x in ends(ENTRY):
            yield moving(call, vs=at(5, 9, x, 0.0), forces=[0.0] * 9, dt=0.0)
        for x in ends(OTHER):
            yield moving(call, vs=at(8, 9, x), dt=0.0)
            yield moving(call, forces=at(1, 9, x), dt=0.0)
            yield moving(call, potential=x)
        for x in (ENTRY, up(ENTRY), 0.0, -0.0, -TINY, NAN):
            yield moving(call, thermostat=(x, 100.0))
        for x in (2.0**-10, down(2.0**-10), ENTRY, up(ENTRY), -1.0, NAN):
            yield moving(call, thermostat=(300.0, x))
            yield moving(call, masses=at(2, 3, x))
    for k, x in enumerate((ENTRY, up(ENTRY), -ENTRY, -up(ENTRY), NAN)):
        call = STEPS[k % 2]
        yield moving(call, xs=at(3, 9, x), dt=0.0)
        yield moving(call, s=state(2.5, 0.5, 0, 3), refs=at(4, 9, x))
        yield moving(call, bond=(x, 1.5))
        yield moving(call, bond=(20.0, x))
        yield moving(call, lengths=[1.5, x])
        yield moving(call, ks=[20.0, x], bond=None)
        yield moving(call, c=box(10.0, 10.0, x))
    for k, x in enumerate((ENTRY, up(ENTRY), -TINY)):
        call = STEPS[k % 2]
        yield moving(call, s=state(cutoff=x))
        yield moving(call, lj=[0.01, 3.4, x, 0])
        yield moving(call, coulomb=(x,))
    for k, x in enumerate((1024.0, up(1024.0), -TINY)):
        call = STEPS[k % 2]
        yield moving(call, lj=[x, 3.4, 8.5, 1])
        yield moving(call, params=[0.0103, x], lj=None)
        yield moving(call, charges=at(1, 3, x), coulomb=None)
    for k in range(4):
        for x in (2.0**-40, down(2.0**-40), 2.0**40, up(2.0**40)):
            yield moving(STEPS[k % 2], units=[x if i == k else 1.0 for i in range(4)])


# refusals alone and two at once: what is wrong, and in which argument
def step_refusals():
    good = dict(s=state(2.5, 0.5, 1, 3), c=CUBIC, starts=28, table_=[0, 1], refs=flat(TRIO[:2]) + [9.0] * 3, pairs=[1, 2], room=2, items=3, dt=1.0)
    lengths = [dict(xs=flat(TRIO) + [1.0]), dict(params=[0.01]), dict(species=[18] * 2), dict(charges=[0.0] * 4), dict(bonds=[0]), dict(table_=[0]), dict(more=-1), dict(items=2),
               dict(forces=[0.0] * 8), dict(vs=[0.0] * 8), dict(vs=[0.0] * 12), dict(masses=[1.0] * 2), dict(masses=[1.0] * 4)]
    claims = [dict(s=state(2.5, 0.5, 2, 3)), dict(s=state(2.5, 0.5, 1, 4))]
    ranges = [dict(dt=up(1024.0)), dict(thermostat=(-1.0, 1.0)), dict(masses=[0.0] * 3), dict(vs=[NAN] * 9), dict(forces=[INF] * 9), dict(potential=NAN), dict(refs=[NAN] * 9),
              dict(xs=[up(ENTRY)] * 9), dict(units=[0.0] * 4), dict(c=box(10.0, NAN, 10.0)), dict(coulomb=(-1.0,))]
    named = [dict(pairs=[1, 3]), dict(bonds=[0, 1, U32, 0])]
    order = [dict(table_=[1, 0]), dict(ids=[3, 3], params=[1.0] * 4)]
    drift = [dict(vs=[ENTRY] * 9, forces=[0.0] * 9)]
    cells = [dict(starts=27), dict(c=cube(ENTRY))]
    room = [dict(s=state(2.5, 0.0, 0, 3), table_=[], room=0)]
    kinds = [lengths, claims, ranges, named, order, drift, cells, room]
    for call in STEPS:
        yield moving(call, **good)
        for k, one in enumerate(kinds):
            for j, a in enumerate(one):
                yield moving(call, **{**good, **a})
                later = kinds[k + 1:] if j == 0 else kinds[k + 1:k + 2]
                for two in later:
                    b = next((b for b in two if not set(a) & set(b)), None)
                    if b and (j == 0 or call == '63'):
                        yield moving(call, **{**good, **a, **b})
    yield moving('63', **{**good, 'pairs': [1, 3], 'bonds': [0, 9]})
    yield moving('63', **{**good, 'table_': [2, 2], 'ids': [3, 3], 'params': [1.0] * 4})


def step_no_cases():
    words = moving('63', thermostat=WARM, atoms=TRIO[:1], bonds=(), room=2).split()
    for cut in (1, 2, 5, 30, len(words) - 1):
        yield ' '.join(words[:cut])
        yield ' '.join(['64'] + words[1:cut])
    yield ' '.join(words + ['%016x' % 0])
    yield ' '.join(['64'] + words[1:] + ['%016x' % 0])
    for k, x in ((2, 2), (5, 2), (9, 2), (10, 2), (12, 3), (21, 1 << 32), (22, 1 << 32), (24, 2), (26, 2), (27, 2), (28, 1 << 32), (len(words) - 4, 4)):
        yield ' '.join(words[:k] + ['%016x' % x] + words[k + 1:])
    yield case('65', [0] * 40)


def step():
    for group in (step_terms, step_warmth, step_drift, step_lists, step_stops, step_limits, step_refusals, step_no_cases):
        yield from group()


# ---- writing sheets (02, No. 8): ex ey ez px py pz radius coordinates exclusions out
def writing(edges=(10, 11, 12), mask=5, radius=5, atoms=((1, 2, 3), (9, 10, 11)), rows=((0, 1), (0, 0xffff)), out=None, spare=0, byte=0x2e, xs=None, table_=None):
    xs = [x for a in atoms for x in a] if xs is None else xs
    table_ = [x for r in rows for x in r] if table_ is None else table_
    need = 41 + 31 * (len(xs) // 3) + 11 * (len(table_) // 2)
    return case('42', list(edges), MASKS[mask], radius, table(xs), table(table_), table([byte] * (need + spare if out is None else out)))


def write_forms():
    for mask in range(8):
        yield writing(mask=mask)
        yield writing((MOST, MOST - 1, 10), mask, 5, [(MOST - 1, 0xabcde, 9)], [(0xfffe, 0xffff)], spare=3, byte=mask)
    for n in (0, 1, 2, 16, 17, 40):
        yield writing((0x12345, 0x6789a, 0xbcdef), 7, 0x1000, [(257 * k, 0x1abc + k, 0xbbcde - k) for k in range(n)], [])
    for n in (0, 1, 15, 16, 17, 60):
        yield writing(atoms=[], rows=[(k // 3, 0xff00 + k) for k in range(n)], spare=n % 3)
    # the room: as it is needed, one short, one over, none, and a rest that stays
    for spare in (-200, -42, -41, -11, -1, 0, 1, 2, 50):
        for atoms in ([], [(0, 0, 0)], [(1, 2, 3)] * 4):
            need = 41 + 31 * len(atoms) + 11
            yield writing(atoms=atoms, rows=[(3, 4)], out=max(0, need + spare), byte=0xff - len(atoms))
    # exclusions of no atom, of all
    for rows in ([(0, 1)], [(0, 1), (0, 2), (1, 2)], [(5, 6)], [(0, 0xffff), (1, 0xffff), (0xfffe, 0xffff)]):
        yield writing(rows=rows)
    # 1,024 atoms and 1,024 exclusions: 8 at the bytes needed; one more: 2, 5
    for n, m in ((1024, 0), (1025, 0), (0, 1024), (0, 1025)):
        yield writing((2000, 2000, 2000), 0, 1, [(k % 2000, 0, k % 7) for k in range(n)], [(k, k + 1) for k in range(m)], out=1)


def write_ranges():
    for k in range(3):
        for e in (0, 1, 9, 10, MOST, MOST + 1, 0xffffffff):
            edges = [e if i == k else 10 for i in range(3)]
            yield writing(edges, 1 << k, 5, [(0, 0, 0)])
            yield writing(edges, 0, 5, [])
        for x in (9, 10, 0xffffffff):
            yield writing((10, 10, 10), 7, 5, [(0, 0, 0), tuple(x if i == k else 9 for i in range(3))])
    for radius in (0, 5, 6, MOST, MOST + 1, 0xffffffff):
        for mask in (0, 7):
            yield writing((10, 10, 10), mask, radius, [])


def write_refusals():
    good = dict(spare=4)
    lengths = [dict(xs=[1]), dict(xs=[1, 2, 3, 4, 5]), dict(table_=[0]), dict(table_=[0, 1, 0xffff]), dict(xs=[1, 2], table_=[7])]
    ranges = [dict(radius=6), dict(edges=(10, 0, 12)), dict(atoms=[(10, 0, 0)]), dict(radius=MOST + 1)]
    order = [dict(rows=[(1, 0)]), dict(rows=[(2, 2)]), dict(rows=[(0, 1), (0, 1)]), dict(rows=[(1, 2), (0, 3)]), dict(rows=[(0, 0x10000)]),
             dict(rows=[(0, 1), (0xffff, 0x10000)]), dict(rows=[(0x10000, 0x10001)]), dict(rows=[(0, 0xffffffff)])]
    room = [dict(out=0), dict(out=93)]
    kinds = [lengths, ranges, order, room]
    yield writing(**good)
    for k, one in enumerate(kinds):
        for a in one:
            yield writing(**{**good, **a})
            for two in kinds[k + 1:]:
                for b in two:
                    if not set(a) & set(b):
                        yield writing(**{**good, **a, **b})


def write_no_cases():
    words = writing().split()
    for cut in (1, 3, 7, 8, len(words) - 1):
        yield ' '.join(words[:cut])
    yield ' '.join(words + ['%016x' % 0])
    for k, x in ((1, 1 << 32), (4, 2), (5, 2), (6, 2), (7, 1 << 32), (8, 7), (9, 1 << 32), (15, 3), (16, 1 << 32), (len(words) - 1, 0x100), (len(words) - 100, 0xffffffff)):
        yield ' '.join(words[:k] + ['%016x' % x] + words[k + 1:])
    yield ' '.join(words[:-1] + ['%016x' % 0xff])


def write():
    for group in (write_forms, write_ranges, write_refusals, write_no_cases):
        yield from group()


if __name__ == '__main__':
    groups = {'write': write, 'cell': cell, 'virial': virial, 'exclusions': exclusions, 'neighbor': neighbor, 'frame': frame, 'half': half, 'potentials': potentials, 'angles': angles, 'verlet': verlet,
              'step': step}
    for line in groups[sys.argv[1]]():
        print(line)
