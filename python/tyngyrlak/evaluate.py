"""The evaluator, which stands where the original's step takes a closure: pair list and terms in one call of the library."""
from dataclasses import dataclass
from typing import Optional, Sequence, Tuple

import numpy as np

from . import _raw, units
from ._tables import atoms, floats, numbers
from .cell import flat_cell
from .error import answered
from .neighbor import NeighborList
from .potentials import CosineAngles, Coulomb, HarmonicBonds, LennardJones
from .virial import Contribution


@dataclass
class Terms:
    """The terms of an Evaluator, each None or with what it reads of the atoms. The tables are copied when an evaluator takes the terms.

    lennard_jones  (LennardJones, the species number of each atom)
    coulomb        (Coulomb, the charge of each atom)
    bonds          (HarmonicBonds, the two atoms of each)
    angles         CosineAngles, which have their atoms"""

    lennard_jones: Optional[Tuple[LennardJones, Sequence[int]]] = None
    coulomb: Optional[Tuple[Coulomb, Sequence[float]]] = None
    bonds: Optional[Tuple[HarmonicBonds, Sequence[Tuple[int, int]]]] = None
    angles: Optional[CosineAngles] = None


class Evaluator:
    """Brings its pair list up to date and runs its terms: Lennard-Jones, Coulomb, bonds, angles, each present one merged in this order into zero.

    list   the NeighborList
    cell   a Lattice or None; where another one is set, the list is built anew (`NeighborList.outdated`)

    >>> eval = Evaluator(NeighborList(8.5, 1.5), Terms(lennard_jones=(LennardJones.argon(), [18] * n)), Lattice.cubic(36.183))
    >>> eval.evaluate(positions).energy"""

    def __init__(self, list: NeighborList, terms: Terms, cell=None):
        self.list, self.cell = list, cell
        self.set_terms(terms)

    def set_terms(self, terms: Terms):
        """Other terms from now on."""
        lj, n = terms.lennard_jones or (LennardJones(), ())
        coulomb, charges = terms.coulomb or (Coulomb(0.0), ())
        bonds, bonded = terms.bonds or (HarmonicBonds(0.0, 0.0), ())
        angles = terms.angles or CosineAngles()
        self._present = tuple(t is not None for t in (terms.lennard_jones, terms.coulomb, terms.bonds, terms.angles))
        self._terms = [
            kind(present, flat)
            for kind, present, flat in zip(
                (_raw.LjTerm, _raw.CoulombTerm, _raw.BondTerm, _raw.AngleTerm),
                self._present,
                (lj.flat(), coulomb.cutoff, bonds.flat(), angles.flat()),
            )
        ]
        self._tables = dict(
            species=numbers("species", n), charges=floats("charges", charges), **lj.tables(), **bonds.tables(bonded), **angles.tables()
        )

    def evaluate(self, positions, forces=None):
        """Energy, forces and virial at these positions. `forces` can be lent, and is then written over and is the answer's."""
        n = atoms(positions)
        self._make_ready(n)
        if forces is None:
            forces = np.zeros((n, 3))
        while True:
            r = _raw.tyn_evaluate(setting=self._setting(), s=self.list.state(), positions=positions, forces=forces, **self._tables, **self.list.lent())
            if not self.list.took(r):
                return Contribution.of(_raw.tyn_evaluate, r, forces)

    def step(self, call, potential, pace, positions, **motion):
        """One step, or the rest of one: the potential and whether the list was built anew. Where the pairs did not fit after the drift it is finished with
        more room. (`verlet_step` and `verlet_finish` call it.)"""
        self._make_ready(atoms(positions))
        while True:
            r = call(
                setting=self._setting(), pace=pace, s=self.list.state(), potential=potential, positions=positions, **motion, **self._tables, **self.list.lent()
            )
            if not self.list.took(r):
                answered(call, r)
                return r.potential, bool(r.rebuilt)
            call = _raw.tyn_finish

    def fire(self, o, positions, velocities, masses):
        """A relaxation. Where the pairs did not fit it starts again, with more room and all else as it came. (`fire` calls it.)"""
        n = atoms(positions)
        self._make_ready(n)
        kept, p, v, forces = self.list.kept(), np.array(positions), np.array(velocities), np.zeros((n, 3))
        while True:
            r = _raw.tyn_fire(
                o=o, setting=self._setting(), s=self.list.state(), positions=positions, velocities=velocities, masses=masses, forces=forces,
                **self._tables, **self.list.lent()
            )
            if not self.list.took(r):
                return answered(_raw.tyn_fire, r)
            self.list.put_back(kept)
            positions[...], velocities[...] = p, v

    def ready(self, n):
        """The tables of what belongs to atoms, for so many of them. (A Melt strikes and puts in them.)"""
        self._make_ready(n)
        return self._tables

    def _setting(self):
        """The terms with the cell of now: both may have changed since the last call."""
        lj, coulomb, bond, angle = self._terms
        return _raw.Setting(lj=lj, coulomb=coulomb, bond=bond, angle=angle, units=units.RAW, cell=flat_cell(self.cell))

    def _make_ready(self, n):
        """The library wants a species and a charge an atom also where the term that reads them is absent."""
        self.list.make_ready(n)
        lj, coulomb = self._present[:2]
        if not lj and len(self._tables["species"]) != n:
            self._tables["species"] = np.zeros(n, np.uint32)
        if not coulomb and len(self._tables["charges"]) != n:
            self._tables["charges"] = np.zeros(n)
