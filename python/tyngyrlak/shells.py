"""How many pairs sit at each distance, over any number of whole-number frames."""
from typing import NamedTuple

import numpy as np

from . import _raw
from ._tables import STARTS, listed, rows
from .error import answered


class Listed(NamedTuple):
    """What a frame's list was: the pairs that were added, the distances evaluated, and whether all pairs were tried, without a grid."""

    pairs: int
    checks: int
    fallback: bool


class Shells:
    """Exact totals by shell. A pair's shell is the whole part of its squared distance over the width; the last shell takes all that lies further out. A width
    of 0 and no shells are refused by add (3). `totals` of another run can be gone on from.

    >>> shells = Shells(4, 32)
    >>> for sheet in sheets:
    ...     shells.add(Snapshot.from_sheet(sheet))
    >>> shells.totals()"""

    def __init__(self, width, shells=0, totals=None):
        self._width = width
        self._totals = np.zeros(shells, np.uint64) if totals is None else np.array(totals, dtype=np.uint64)
        self._pairs, self._starts, self._items = np.zeros(0, np.uint32), np.zeros(STARTS, np.uint32), np.zeros(0, np.uint32)

    def add(self, snapshot):
        """Adds each near pair of the snapshot that is not excluded to its shell. Refusals 1, 2, 3, 5, 7, and 13 where a total would pass 2^64 - 1: the totals
        are then as they were."""
        table = rows("exclusions", sorted(snapshot.exclusions), 2)
        if self._items.size < len(snapshot.atoms):
            self._items = np.zeros(len(snapshot.atoms), np.uint32)
        while True:
            r = _raw.tyn_add_shells(
                snapshot.frame.flat(), snapshot.atoms, table, self._width, self._totals, self._pairs, self._starts, self._items
            )
            if r.done.number != 8:
                answered(_raw.tyn_add_shells, r)
                return Listed(r.pairs, r.checks, bool(r.fallback))
            # more pairs than there was room for: nothing was added, and the place says how many they are
            self._pairs = np.zeros(2 * r.done.place, np.uint32)

    def width(self):
        """The width of a shell, in squared distance."""
        return self._width

    def totals(self):
        """The totals, shell by shell: a read-only view."""
        return listed(self._totals)

    def sum(self):
        """All pairs that were added."""
        return sum(self._totals.tolist())
