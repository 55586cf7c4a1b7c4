#!/usr/bin/env python3
"""What Python costs: a build by NeighborList beside the same call from C, and tyngyrlak.ase.neighbor_list beside ASE's own (and matscipy's where it is
installed). One process, the sides take turns, this thread's time, the best of the rounds. Prints a table in Markdown.

    python3 python/bench.py [ATOMS [ROUNDS]]"""
import ctypes
import os
import platform
import subprocess
import sys
import tempfile
import time
import warnings

import numpy as np

ROOT = os.path.dirname(os.path.dirname(os.path.abspath(__file__)))
sys.path.insert(0, os.path.join(ROOT, "python"))
import tyngyrlak as t  # noqa: E402
from tyngyrlak import _library, _raw  # noqa: E402
from tyngyrlak.cell import flat_cell  # noqa: E402

warnings.simplefilter("ignore", t.NotProved)

TIMED = """
#define _POSIX_C_SOURCE 199309L
#include <time.h>
#include "tyngyrlak.h"
/* The nanoseconds of one build, and its answer. */
uint64_t timed(tyn_updated *answer, const tyn_state *s, const tyn_cell *cell, const double *positions, size_t n, uint32_t *pairs, size_t room,
    double *references, uint32_t *starts, uint32_t *items)
{
    static const uint32_t none[1];
    struct timespec from, to;
    clock_gettime(CLOCK_THREAD_CPUTIME_ID, &from);
    *answer = tyn_build(*s, *cell, positions, 3 * n, none, 0, pairs, room, references, 3 * n, starts, 32769, items, n);
    clock_gettime(CLOCK_THREAD_CPUTIME_ID, &to);
    return (uint64_t)(to.tv_sec - from.tv_sec) * 1000000000u + (uint64_t)to.tv_nsec - (uint64_t)from.tv_nsec;
}
"""


def timed_in_c(folder):
    source, made = os.path.join(folder, "timed.c"), os.path.join(folder, "timed.so")
    with open(source, "w") as f:
        f.write(TIMED)
    subprocess.run(["gcc", "-O2", "-shared", "-fPIC", "-I", os.path.join(ROOT, "include"), source, _library.path(), "-o", made], check=True)
    f = ctypes.CDLL(made).timed
    f.restype = ctypes.c_uint64
    return f


def liquid(n):
    """0.021 atoms an Å³ on a shaken grid, as bench/ has them."""
    edge = (n / 0.021) ** (1 / 3)
    k = int(np.ceil(n ** (1 / 3)))
    places = np.array(list(np.ndindex(k, k, k)), dtype=np.float64)
    places = places[np.random.default_rng(7).permutation(len(places))[:n]]
    return np.ascontiguousarray((places + 0.5 + np.random.default_rng(8).uniform(-0.3, 0.3, (n, 3))) * (edge / k)), edge


def best(sides, rounds):
    """The least time of each side, in ms; they take turns."""
    least = {name: float("inf") for name in sides}
    for _ in range(rounds):
        for name, side in sides.items():
            least[name] = min(least[name], side())
    return least


def by_thread(call):
    def side():
        start = time.thread_time_ns()
        call()
        return (time.thread_time_ns() - start) / 1e6

    return side


def main(n=16_000, rounds=9):
    positions, edge = liquid(n)
    cell, found = t.Lattice.cubic(edge), t.NeighborList(8.5, 2.0)
    found.build(positions, cell)
    room = dict(found.lent())
    pairs, references, starts, items = (np.zeros_like(room[k]) for k in ("pairs", "references", "starts", "items"))
    state, box, answer = t.NeighborList(8.5, 2.0).state(), flat_cell(cell), _raw.Updated()
    with tempfile.TemporaryDirectory() as folder:
        timed = timed_in_c(folder)
        point = lambda a: ctypes.c_void_p(a.ctypes.data)

        def from_c():
            return timed(ctypes.byref(answer), ctypes.byref(state), ctypes.byref(box), point(positions), ctypes.c_size_t(n), point(pairs),
                         ctypes.c_size_t(pairs.size), point(references), point(starts), point(items)) / 1e6

        from_c()
        assert answer.done.number == 0 and np.array_equal(pairs[: answer.state.pairs], found.pairs())
        least = best({"c": from_c, "python": by_thread(lambda: found.build(positions, cell))}, rounds)
    print("%s atoms, %s, Python %s, numpy %s; %s" % (format(n, ","), platform.machine(), platform.python_version(), np.__version__, t.made().split(":")[0]))
    print("\n| | ms | of the C call | asked |\n|---|---|---|---|")
    print("| `tyn_build` called from C, %s pairs | %.2f | 1 | |" % (format(len(found.pairs()), ","), least["c"]))
    print("| `NeighborList.build` from numpy | %.2f | %.3f | 1.05 |" % (least["python"], least["python"] / least["c"]))
    try:
        import ase
        import ase.neighborlist
    except ImportError:
        print("\nASE is not installed: its neighbor list is not timed")
        return
    from tyngyrlak.ase import neighbor_list

    atoms = ase.Atoms(numbers=np.full(n, 18), positions=positions, cell=[edge] * 3, pbc=True)
    sides = {"tyngyrlak.ase.neighbor_list": neighbor_list, "ase.neighborlist.neighbor_list": ase.neighborlist.neighbor_list}
    try:
        import matscipy.neighbours

        sides["matscipy.neighbours.neighbour_list"] = matscipy.neighbours.neighbour_list
    except ImportError:
        print("\nmatscipy is not installed: its neighbor list is not timed")
    sizes = {name: len(f("i", atoms, 8.5)) for name, f in sides.items()}
    assert len(set(sizes.values())) == 1, sizes
    least = best({name: by_thread(lambda f=f: f("ijdD", atoms, 8.5)) for name, f in sides.items()}, max(1, rounds // 3))
    ours = least["tyngyrlak.ase.neighbor_list"]
    print("\n| `neighbor_list('ijdD', atoms, 8.5)`, %s rows | ms | of ours |\n|---|---|---|" % format(sizes["tyngyrlak.ase.neighbor_list"], ","))
    for name, ms in least.items():
        print("| `%s`, %s | %.0f | %.1f |" % (name, "ASE " + ase.__version__ if name.startswith("ase") else "from ASE's atoms", ms, ms / ours))


if __name__ == "__main__":
    main(*map(int, sys.argv[1:]))
