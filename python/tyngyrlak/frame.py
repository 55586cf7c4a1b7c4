"""The whole-number frame: atoms at whole coordinates in a box whose axes are periodic or open, exact distances, the list of all pairs within a radius, and the
question how long that list may be kept.

Coordinates are arrays of uint32 with the shape (atoms, 3), exclusions rows in rising order, each low before high."""
import operator
from dataclasses import dataclass, field
from typing import NamedTuple, Set, Tuple

import numpy as np

from . import _raw
from ._tables import STARTS, rows
from .error import answered
from .sheet import given


class FramePairs(NamedTuple):
    """What a build found: the pairs within the radius that are not excluded (uint32, two columns, low before high, in the order of the search), the distances
    evaluated, and whether no grid was laid."""

    pairs: np.ndarray
    checks: int
    fallback: bool


def u32(name, x):
    """A whole number that a u32 holds. (ctypes by itself cuts off what does not fit.)"""
    n = operator.index(x)
    if not 0 <= n < 1 << 32:
        raise ValueError("%s is %d: a whole number from 0 to 2^32 - 1 is wanted" % (name, n))
    return n


@dataclass(frozen=True)
class Frame:
    """A box of whole edges, each axis periodic or open, and a radius: a pair is listed where its distance is at most that.

    Edges are 1 to 2^20, coordinates below the edge, the radius 0 to 2^20, and on a periodic axis at most half the edge; every call refuses others (3)."""

    edges: Tuple[int, int, int]
    periodic: Tuple[bool, bool, bool] = (True, True, True)
    radius: int = 0

    def squared_distance(self, a, b):
        """The exact squared distance of two atoms' nearest images."""
        p, q = (_raw.Spot(*(u32("a coordinate", x) for x in at)) for at in (a, b))
        return answered(_raw.tyn_squared_distance, _raw.tyn_squared_distance(self.flat(), p, q)).value

    def build(self, coordinates, exclusions=()):
        """All pairs within the radius, but for the exclusions: rows in rising order, each low before high."""
        n = _count(coordinates)
        table, items, starts = rows("exclusions", exclusions, 2), np.zeros(n, np.uint32), np.zeros(STARTS, np.uint32)
        pairs = np.zeros((16 * n, 2), np.uint32)
        while True:
            r = _raw.tyn_frame_build(self.flat(), coordinates, table, pairs, starts, items)
            if r.done.number != 8:
                answered(_raw.tyn_frame_build, r)
                return FramePairs(pairs[: r.pairs], r.checks, bool(r.fallback))
            pairs = np.zeros((r.done.place, 2), np.uint32)

    def widened(self, skin):
        """The same box with the radius plus a skin, at which a list is built that is to be kept."""
        return Frame(self.edges, self.periodic, self.radius + skin)

    def within_skin(self, skin, old, new):
        """Whether each atom has moved, by nearest image, so that four times its squared displacement is at most the squared skin. Then a list that
        widened(skin) built over the old coordinates has every pair of the new ones that is within this frame's radius. Refusals 1, 2, 3."""
        _count(old), _count(new)
        return bool(answered(_raw.tyn_within_skin, _raw.tyn_within_skin(self.flat(), skin, old, new)).value)

    def flat(self):
        """The frame as the library takes it."""
        return _raw.Frame(*(u32("an edge", e) for e in self.edges), *(bool(p) for p in self.periodic), u32("the radius", self.radius))


def _count(coordinates):
    shape = getattr(coordinates, "shape", None)
    if shape is None or len(shape) != 2 or shape[1] != 3:
        raise TypeError("coordinates are a numpy array of uint32 with the shape (atoms, 3)")
    return shape[0]


@dataclass
class Snapshot:
    """One moment of a run: a frame, its atoms (uint32, three columns) and the pairs that are never listed, low number before high. Made untested; the calls
    that read it test it."""

    frame: Frame
    atoms: np.ndarray
    exclusions: Set[Tuple[int, int]] = field(default_factory=set)

    @classmethod
    def from_sheet(cls, sheet):
        """What a job sheet (bytes; docs/SHEET.md) says. Refusals 1, 9, 10, 8, 11, 2, 4; what is out of range is refused where the frame is used."""
        places, table = np.zeros((1024, 3), np.uint32), np.zeros((1024, 2), np.uint32)
        return cls.told(answered(_raw.tyn_read, _raw.tyn_read(given(sheet), places, table)).job, places, table)

    @classmethod
    def told(cls, j, places, table):
        """What the library told of a sheet."""
        frame = Frame((j.ex, j.ey, j.ez), (bool(j.px), bool(j.py), bool(j.pz)), j.radius)
        return cls(frame, places[: j.atoms].copy(), {(low, high) for low, high in table[: j.count].tolist()})

    def exclude(self, i, j):
        """Leaves a pair out, either way round; an atom with itself is no pair."""
        if i != j:
            self.exclusions.add((min(i, j), max(i, j)))


@dataclass
class Sheet:
    """What a job sheet of either form says: the frame with its atoms and exclusions, the species of each atom (0 on a sheet of the first form), the form, 1 or 2,
    and the mixing rule, 1 or 2, as LennardJones takes it: 2 where the header says 02, else 1."""

    snapshot: Snapshot
    species: np.ndarray
    form: int
    rule: int

    @classmethod
    def read(cls, sheet):
        """Reads a sheet of either form; its first header or atom line says which, and from then on a line of the other form is malformed (9). Refusals as
        Snapshot.from_sheet, whose reading of a sheet of the first form this is."""
        places, species, table = np.zeros((1024, 3), np.uint32), np.zeros(1024, np.uint32), np.zeros((1024, 2), np.uint32)
        r = answered(_raw.tyn_read_either, _raw.tyn_read_either(given(sheet), places, species, table))
        return cls(Snapshot.told(r.job, places, table), species[: r.job.atoms].copy(), r.form, r.rule)
