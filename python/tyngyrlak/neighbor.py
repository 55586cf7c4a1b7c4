"""Verlet neighbor lists backed by a grid of cells.

The list holds every pair within cutoff + skin and stays valid until some atom has moved more than skin/2 or the cell has changed."""
import numpy as np

from . import _raw
from ._tables import STARTS, atoms, listed, rows
from .cell import flat_cell, of_flat
from .error import answered

#: Room for pairs to begin with, rows an atom.
_ROWS_AN_ATOM = 64


class NeighborList:
    """A Verlet neighbor list with an interaction cutoff and a skin (Å; a negative skin is 0). It owns the memory that the library is lent, and makes more
    where the pairs do not fit. `cutoff` and `skin` can be set later (build then: nothing else tells that the list is of other numbers); those out of range are
    kept as they are, and every call refuses them (3).

    Positions are numpy arrays of float64 with the shape (atoms, 3), in C order; they are lent, not copied.

    >>> list = NeighborList(8.5, 1.5)
    >>> list.build(positions, Lattice.cubic(36.183))
    >>> list.pairs()          # (m, 2), low before high, in the order of the search"""

    def __init__(self, cutoff, skin=0.0):
        made = _raw.tyn_new(cutoff, skin)
        self.cutoff, self.skin = float(cutoff), made.state.skin if made.done.number == 0 else float(skin)
        self._state = _raw.State()
        self._pairs = np.zeros((0, 2), np.uint32)
        self._references = np.zeros((0, 3))
        self._starts = np.zeros(STARTS, np.uint32)
        self._items = np.zeros(0, np.uint32)
        self._table, self._excluded = np.zeros(0, np.uint32), 0

    def search_radius(self):
        """The search radius, cutoff + skin."""
        return answered(_raw.tyn_search_radius, _raw.tyn_search_radius(self.state())).value

    def pairs(self):
        """The current pair list, two numbers a row, each pair low before high, in the order of the search: a read-only view of this list's own memory, which
        the next build writes over (`.copy()` keeps it). compute_pairs takes it, or the list itself."""
        return listed(self._pairs[: self._state.pairs])

    def checks(self):
        """Candidate distances evaluated in the most recent build."""
        return self._state.checks

    def used_fallback(self):
        """Whether the last build fell back to the all-pairs loop."""
        return bool(self._state.fallback)

    def builds(self):
        """How many times this list has been rebuilt. The counter comes round to 0 after 2^32 - 1; builds_since spans that."""
        return self._state.builds

    def builds_since(self, earlier):
        """How many builds there were since an earlier reading of builds."""
        return _raw.tyn_builds_since(self.state(), earlier)

    def exclude(self, i, j):
        """Excludes a pair from the list (bonded 1-2/1-3 neighbors, typically) from the next build on. An atom with itself is ignored."""
        while True:
            r = _raw.tyn_exclude(self._excluded, i, j, self._table)
            if r.done.number != 8:
                self._excluded = answered(_raw.tyn_exclude, r).value
                return
            longer = np.zeros(4 * r.done.place, np.uint32)
            longer[: self._table.size] = self._table
            self._table = longer

    def set_exclusions(self, pairs):
        """Replaces the exclusion set by pairs in any order and either way round: a list of tuples, or an array of whole numbers with two columns."""
        table = rows("exclusions", pairs if isinstance(pairs, np.ndarray) else list(pairs), 2).reshape(-1, 2)
        # the library puts a pair that is past all others at the end, so a sorted table costs no moves
        table = np.sort(table, axis=1)
        table = np.ascontiguousarray(table[np.lexsort((table[:, 1], table[:, 0]))])
        room = np.zeros(table.size, np.uint32)
        count = answered(_raw.tyn_set_exclusions, _raw.tyn_set_exclusions(table, room)).value
        self._table, self._excluded = room, count

    def exclusions(self):
        """The excluded pairs, each as (min, max)."""
        return {(i, j) for i, j in self.table().reshape(-1, 2).tolist()}

    def needs_rebuild(self, positions, cell=None):
        """Whether the pair list must be rebuilt for the given positions: some atom has moved more than skin/2, the skin is 0, or the count changed. It knows
        nothing of a cell that changed; outdated does."""
        return self._ask(_raw.tyn_needs_rebuild, positions, cell)

    def outdated(self, positions, cell=None):
        """Whether the pair list must be rebuilt for the given positions in the given cell: needs_rebuild calls for it, or the cell is not, bit for bit, the
        one that the list was built in (also a cell against none). An Evaluator asks this question."""
        return self._ask(_raw.tyn_outdated, positions, cell)

    def built_in(self):
        """The cell of the last build: None before the first one, and where it was built without a cell."""
        return of_flat(self._state.built_in)

    def maybe_build(self, positions, cell=None):
        """Rebuilds the pair list if needs_rebuild calls for it. Gives whether a rebuild happened."""
        return self._update(_raw.tyn_maybe_build, positions, cell)

    def build(self, positions, cell=None):
        """Builds the pair list from scratch. A refusal leaves the list as it was."""
        self._update(_raw.tyn_build, positions, cell)

    def _ask(self, question, positions, cell):
        n, references = atoms(positions), self._references
        # the library wants as many references as positions, also where the counts differ
        if len(references) < n:
            references = np.concatenate([references, np.zeros((n - len(references), 3))])
        return bool(answered(question, question(self.state(), flat_cell(cell), positions, references)).value)

    def _update(self, update, positions, cell):
        self.make_ready(atoms(positions))
        while True:
            r = update(self.state(), flat_cell(cell), positions, **self.lent())
            if not self.took(r):
                return bool(answered(update, r).rebuilt)

    def state(self):
        """The state that goes into a call."""
        s = _raw.State.from_buffer_copy(self._state)
        s.cutoff, s.skin = self.cutoff, self.skin
        return s

    def emptied(self, state, excluded):
        """What a strike or a new atom leaves of the list: this state, and so many rows of the exclusion table."""
        self.cutoff, self.skin, self._state, self._excluded = state.cutoff, state.skin, state, excluded

    def table(self):
        """The exclusion table."""
        return self._table[: 2 * self._excluded]

    def lent(self):
        """What every call that may build is lent, by the header's names."""
        return dict(exclusions=self.table(), pairs=self._pairs, references=self._references, starts=self._starts, items=self._items)

    def make_ready(self, n):
        """Sees to it that the rooms hold so many atoms. Rooms never get shorter."""
        if self._items.size < n:
            more = n - self._items.size
            self._items = np.concatenate([self._items, np.zeros(more, np.uint32)])
            self._references = np.concatenate([self._references, np.zeros((more, 3))])
        if not self._pairs.size:
            self._pairs = np.zeros((_ROWS_AN_ATOM * n, 2), np.uint32)

    def kept(self):
        """What of the list a call may change, to be put back by `put_back`."""
        return self.cutoff, self.skin, self._state, self._pairs.copy(), self._references.copy()

    def put_back(self, kept):
        """The list as it was, in the room of now."""
        self.cutoff, self.skin, self._state, pairs, references = kept
        self._pairs[: len(pairs)], self._references[: len(references)] = pairs[: len(self._pairs)], references

    def took(self, r):
        """Takes the state that a call handed back. Where the pairs did not fit there is more room now, by an eighth more than they need: True, call again."""
        self.cutoff, self.skin, self._state = r.state.cutoff, r.state.skin, r.state
        if r.done.number == 8:
            self._pairs = np.zeros((r.done.place + r.done.place // 8, 2), np.uint32)
        return r.done.number == 8

    def __repr__(self):
        return "NeighborList(cutoff=%r, skin=%r): %d pairs, %d builds" % (self.cutoff, self.skin, self._state.pairs, self._state.builds)


def pair_rows(pairs):
    """The pairs that a term runs over: those of `NeighborList.pairs`, the list itself, or rows of two whole numbers."""
    if isinstance(pairs, NeighborList):
        return pairs.pairs()
    if isinstance(pairs, np.ndarray) and pairs.dtype == np.uint32 and pairs.flags.c_contiguous:
        if pairs.ndim != 2 or pairs.shape[1] != 2:
            raise TypeError("pairs are rows of 2 whole numbers; these have the shape %s" % (pairs.shape,))
        return pairs
    return rows("pairs", pairs, 2)
