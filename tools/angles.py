#!/usr/bin/env python3
"""angles.py REPLAY [WORD..]: cosine angles held against physics that was not written here. REPLAY is the program `replay` (crates/replay/out/replay, with words
before it where it needs an emulator); `lmp` is LAMMPS (Debian: apt-get install lammps). Writes a page to standard output, and ends with 1 where a bound is
passed: docs/ANGLES.md is such a page.

One molecule, hexamethyldisiloxane without its hydrogens, bent at random: thirteen angles of three kinds, open and across the faces of a periodic box.
  gradient   forces against the numerical gradient of the energy (central differences, h and h/2 extrapolated), relative to the atom's force
  LAMMPS     energy, forces and virial against angle_style cosine/squared, whose K is half of k"""
import math
import os
import random
import re
import struct
import subprocess
import sys
import tempfile
import textwrap

# k (eV) and rest angle (degrees) of Si-O-Si, O-Si-C, C-Si-C
KINDS = [("Si-O-Si", 1.2, 144.0), ("O-Si-C", 4.1, 110.6), ("C-Si-C", 3.3, 109.5)]
EDGE = 12.5
STEP = 2.0**-10
BOUNDS = {"gradient": 1e-6, "energy": 1e-12, "forces": 1e-12, "virial": 1e-12}


def molecule():
    """Atoms O, Si, Si, then three carbons of each; the angles, (i, apex, k) and the kind."""
    bond, methyl, half = 1.64, 1.86, math.radians(72.0)
    sites = [[0.0, 0.0, 0.0], [bond * math.sin(half), bond * math.cos(half), 0.0], [-bond * math.sin(half), bond * math.cos(half), 0.0]]
    for s in (1, 2):
        out = [x / bond for x in sites[s]]
        side = [out[1], -out[0], 0.0]
        for turn in range(3):
            a = math.radians(120.0 * turn + 20.0 * s)
            across = [math.cos(a) * side[0], math.cos(a) * side[1], math.sin(a)]
            sites.append([c + methyl * (0.35 * o + 0.937 * w) for c, o, w in zip(sites[s], out, across)])
    rows = [((1, 0, 2), 0)]
    for s, first in ((1, 3), (2, 6)):
        carbons = range(first, first + 3)
        rows += [((0, s, c), 1) for c in carbons]
        rows += [((c, s, d), 2) for c in carbons for d in carbons if c < d]
    rng = random.Random(1)
    return [[x + rng.uniform(-0.12, 0.12) for x in p] for p in sites], rows


def bits(x):
    return "%016x" % struct.unpack(">Q", struct.pack(">d", x))[0]


def number(word):
    return struct.unpack(">d", bytes.fromhex(word))[0]


def rest(kind):
    return math.cos(math.radians(KINDS[kind][2]))


def case(atoms, rows, box):
    """Command 56: k, rest, cell, angles, per_angle, positions, forces."""
    whole = lambda n: "%016x" % n
    words = [bits(KINDS[0][1]), bits(rest(0))]
    words += [whole(1)] + [bits(x) for x in (box, 0.0, 0.0, 0.0, box, 0.0, 0.0, 0.0, box)] + [whole(1)] * 3 if box else [whole(0)]
    words += [whole(3 * len(rows))] + [whole(a) for r, _ in rows for a in r]
    words += [whole(2 * len(rows))] + [bits(x) for _, kind in rows for x in (KINDS[kind][1], rest(kind))]
    xs = [bits(x) for p in atoms for x in p]
    return " ".join(["56"] + words + [whole(len(xs))] + xs + [whole(len(xs))] + [bits(0.0)] * len(xs))


def answers(replay, cases):
    said = subprocess.run(replay, input="\n".join(cases) + "\n", text=True, stdout=subprocess.PIPE, check=True).stdout.split("\n")
    for line in said[:-1]:
        words = line.split()
        if words[:3] != ["56", "%016x" % 0, "%016x" % 0]:
            sys.exit("angles.py: the program answers %s" % line[:60])
        values = [number(w) for w in words[3:13]]
        forces = [number(w) for w in words[14:]]
        yield values[0], values[1:], [forces[k : k + 3] for k in range(0, len(forces), 3)]


def size(v):
    return math.sqrt(sum(x * x for x in v))


def apart(a, b, scale):
    return max(size([x - y for x, y in zip(p, q)]) / s for p, q, s in zip(a, b, scale))


def gradient(replay, atoms, rows, box):
    cases, spans = [], []
    for h in (STEP, STEP / 2):
        for i in range(len(atoms)):
            for axis in range(3):
                ends = []
                for sign in (1.0, -1.0):
                    moved = [list(p) for p in atoms]
                    moved[i][axis] += sign * h
                    ends.append(moved[i][axis])
                    cases.append(case(moved, rows, box))
                spans.append(ends[0] - ends[1])
    energies = [e for e, _, _ in answers(replay, cases)]
    slopes = [-(energies[2 * k] - energies[2 * k + 1]) / spans[k] for k in range(len(spans))]
    n = 3 * len(atoms)
    best = [(4.0 * fine - coarse) / 3.0 for coarse, fine in zip(slopes[:n], slopes[n:])]
    return [best[k : k + 3] for k in range(0, n, 3)]


def lammps(atoms, rows, box):
    edge = box or 100.0
    places = atoms if box else [[x + 50.0 for x in p] for p in atoms]
    data = ["angles", "", "%d atoms" % len(atoms), "1 atom types", "%d angles" % len(rows), "%d angle types" % len(KINDS), ""]
    data += ["0.0 %r %slo %shi" % (edge, a, a) for a in "xyz"] + ["", "Masses", "", "1 1.0", "", "Atoms", ""]
    data += ["%d 1 1 %r %r %r" % (i + 1, *p) for i, p in enumerate(places)]
    data += ["", "Angles", ""] + ["%d %d %d %d %d" % (i + 1, kind + 1, r[0] + 1, r[1] + 1, r[2] + 1) for i, (r, kind) in enumerate(rows)]
    run = ["units metal", "atom_style molecular", "boundary %s" % ("p p p" if box else "f f f"), "newton off", "pair_style zero 5.0 nocoeff", "angle_style cosine/squared",
           "read_data angles.data extra/special/per/atom 8", "pair_coeff * *"]
    run += ["angle_coeff %d %r %r" % (k + 1, KINDS[k][1] / 2.0, KINDS[k][2]) for k in range(len(KINDS))]
    run += ["compute w all pressure NULL angle", "variable v equal vol", "thermo_style custom step eangle c_w[1] c_w[2] c_w[3] c_w[4] c_w[5] c_w[6] v_v", "thermo_modify norm no format float %.17g",
            "dump f all custom 1 forces.txt id fx fy fz", "dump_modify f sort id format float %.17g", "run 0"]
    with tempfile.TemporaryDirectory() as folder:
        for name, lines in (("angles.data", data), ("angles.in", run)):
            with open(os.path.join(folder, name), "w", encoding="utf-8") as f:
                f.write("\n".join(lines) + "\n")
        log = subprocess.run(["lmp", "-in", "angles.in"], cwd=folder, text=True, stdout=subprocess.PIPE, stderr=subprocess.STDOUT)
        if log.returncode:
            sys.exit("angles.py: lmp: %s" % log.stdout[-400:])
        with open(os.path.join(folder, "forces.txt"), encoding="utf-8") as f:
            lines = f.read().split("\n")
    values = [float(w) for w in re.search(r"\n *Step .*\n *0 (.*)\n", log.stdout).group(1).split()]
    start = next(k for k, line in enumerate(lines) if line.startswith("ITEM: ATOMS")) + 1
    forces = [[float(w) for w in line.split()[1:]] for line in lines[start : start + len(atoms)]]
    version = re.search(r"LAMMPS \(([^)]*)\)", log.stdout).group(1)
    # the pressure is the virial over the volume, in bar; nktv2p is LAMMPS's own constant of units metal
    xx, yy, zz, xy, xz, yz = [p * values[7] / 1.6021765e6 for p in values[1:7]]
    return values[0], [xx, xy, xz, xy, yy, yz, xz, yz, zz], forces, version


def main():
    replay = sys.argv[1:] or sys.exit(__doc__)
    atoms, rows = molecule()
    across = [[(x + shift) % EDGE for x, shift in zip(p, (0.3, 12.1, 6.0))] for p in atoms]
    table, worst, version = [], {}, ""
    for name, places, box in (("open", atoms, None), ("periodic, edge %s" % EDGE, across, EDGE)):
        energy, virial, forces = next(answers(replay, [case(places, rows, box)]))
        slopes = gradient(replay, places, rows, box)
        theirs, stress, pushed, version = lammps(places, rows, box)
        sizes = [size(f) for f in forces]
        found = {"gradient": apart(forces, slopes, sizes), "energy": abs(energy - theirs) / abs(theirs), "forces": apart(forces, pushed, sizes),
                 "virial": size([a - b for a, b in zip(virial, stress)]) / size(virial)}
        table.append("| %s | %.17g | %.17g | %s |" % (name, energy, theirs, " | ".join("%.1e" % found[k] for k in BOUNDS)))
        for key, x in found.items():
            worst[key] = max(x, worst.get(key, 0.0))
    print("# Angles against physics from elsewhere\n")
    print(textwrap.fill("Made by `tools/angles.py`: hexamethyldisiloxane without its hydrogens, %d atoms, %d angles of three kinds, bent at random, "
                        "open and across the faces of a periodic box. The energies and forces are those of `angles_all` (`replay`, 56), in eV and eV/Å; LAMMPS is "
                        "version %s, `angle_style cosine/squared`, its K half of k." % (len(atoms), len(rows), version), 120) + "\n")
    print("| angle | k (eV) | rest (degrees) | rest cosine |\n|---|---|---|---|")
    for k, (name, strength, degrees) in enumerate(KINDS):
        print("| %s | %s | %s | %.17g |" % (name, strength, degrees, rest(k)))
    print("\n| box | energy | LAMMPS | forces and gradient | energies | forces | virials |\n|---|---|---|---|---|---|---|")
    print("\n".join(table))
    print("\n" + textwrap.fill("The last four columns are relative differences. Those of forces are the largest over the atoms, each to its atom's force. The bounds: "
                               + ", ".join("%.0e" % b for b in BOUNDS.values()) + ".", 120))
    missed = [k for k in BOUNDS if not worst[k] <= BOUNDS[k]]
    if missed:
        sys.exit("angles.py: past its bound: %s" % ", ".join(missed))


if __name__ == "__main__":
    main()
