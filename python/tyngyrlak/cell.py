"""Lattice cells and minimum-image displacements."""
from dataclasses import dataclass
from typing import Optional, Tuple

import numpy as np

from . import _raw
from ._tables import square, three, vec3
from .error import answered


@dataclass(frozen=True)
class Lattice:
    """A (possibly triclinic) lattice cell with the vectors a, b, c in Å, and which axes are periodic. Made untested, tested by the calls that read it.

    >>> Lattice.cubic(10.0).volume()
    1000.0
    >>> Lattice((10, 0, 0), (2, 9, 0), (0, 0, 8), periodic=(True, True, False))"""

    a: Tuple[float, float, float]
    b: Tuple[float, float, float]
    c: Tuple[float, float, float]
    periodic: Tuple[bool, bool, bool] = (True, True, True)

    def __post_init__(self):
        for name in "abc":
            x, y, z = getattr(self, name)
            object.__setattr__(self, name, (float(x), float(y), float(z)))
        px, py, pz = self.periodic
        object.__setattr__(self, "periodic", (bool(px), bool(py), bool(pz)))
        flat = _raw.Lattice(_raw.Vec3(*self.a), _raw.Vec3(*self.b), _raw.Vec3(*self.c), *self.periodic)
        object.__setattr__(self, "_flat", flat)

    @classmethod
    def orthorhombic(cls, lx, ly, lz):
        """A fully periodic orthorhombic cell with the given edge lengths (Å)."""
        return cls((lx, 0, 0), (0, ly, 0), (0, 0, lz))

    @classmethod
    def cubic(cls, l):
        """A fully periodic cubic cell of edge l (Å)."""
        return cls.orthorhombic(l, l, l)

    def matrix(self):
        """The cell matrix with the lattice vectors as columns. (ASE's cell has them as rows.)"""
        return np.array((self.a, self.b, self.c)).T

    def is_orthorhombic(self):
        """Whether the magnitudes of the six off-diagonal entries sum to less than 1e-9."""
        return bool(answered(_raw.tyn_is_orthorhombic, _raw.tyn_is_orthorhombic(self._flat)).value)

    def volume(self):
        """Signed cell volume in Å³."""
        return answered(_raw.tyn_volume, _raw.tyn_volume(self._flat)).value

    def inverse(self):
        """The inverse of the cell matrix, or None for a degenerate cell."""
        r = answered(_raw.tyn_inverse, _raw.tyn_inverse(self._flat))
        return square(r.rows) if r.found else None

    def to_fractional(self, r):
        """Fractional coordinates (raw, not wrapped); r itself in a degenerate cell."""
        return three(answered(_raw.tyn_to_fractional, _raw.tyn_to_fractional(self._flat, vec3(r))).value)

    def to_cartesian(self, s):
        """Cartesian coordinates of the fractional s."""
        return three(answered(_raw.tyn_to_cartesian, _raw.tyn_to_cartesian(self._flat, vec3(s))).value)

    def wrap(self, r):
        """A position wrapped into the primary cell along the periodic axes; r itself in a degenerate cell."""
        return three(answered(_raw.tyn_wrap, _raw.tyn_wrap(self._flat, vec3(r))).value)

    def perp_widths(self):
        """The distance between opposite faces along each lattice direction."""
        return three(answered(_raw.tyn_perp_widths, _raw.tyn_perp_widths(self._flat)).value)


NO_CELL = _raw.Cell()


def flat_cell(cell: Optional[Lattice]):
    """A cell or None as the library takes it."""
    if cell is None:
        return NO_CELL
    if not isinstance(cell, Lattice):
        raise TypeError("a cell is a Lattice or None; this is a %s" % type(cell).__name__)
    return _raw.Cell(1, cell._flat)


def of_flat(cell):
    if not cell.present:
        return None
    l = cell.lattice
    return Lattice(*((v.x, v.y, v.z) for v in (l.a, l.b, l.c)), periodic=(l.px, l.py, l.pz))


def min_image(d, cell=None):
    """Minimum-image displacement of d = ri - rj, wrapped into the cell if there is one; d itself in a degenerate cell."""
    return min_image_counted(d, cell)[0]


def min_image_counted(d, cell=None):
    """What min_image gives, and how many boxes it took off along each lattice direction (three whole numbers, 0 along an open axis and without a cell), by
    which a path is unfolded; "no fit" in their place where a count is no int32, "no inverse" in a degenerate cell.

    >>> min_image_counted((-9.5, 0.0, 0.5), Lattice.cubic(10.0))
    (array([0.5, 0. , 0.5]), (-1, 0, 0))"""
    i = answered(_raw.tyn_min_image, _raw.tyn_min_image(vec3(d), flat_cell(cell))).image
    return three(i.diff), {0: (i.x, i.y, i.z), 1: "no fit"}.get(i.kind, "no inverse")
