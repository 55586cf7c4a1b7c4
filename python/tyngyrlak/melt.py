"""A melt that atoms leave and join: everything that belongs to an atom in one place, so that it is struck and put as a whole."""
from typing import NamedTuple, Tuple

import numpy as np

from . import _raw
from ._tables import vec3
from .error import answered
from .evaluate import Evaluator
from .frame import u32
from .verlet import verlet_step


class NewAtom(NamedTuple):
    """One atom with all its numbers: Å, Å/fs, amu, e. Charge and species are kept where their term is absent, too."""

    position: Tuple[float, float, float]
    velocity: Tuple[float, float, float]
    mass: float
    charge: float = 0.0
    species: int = 0


class Left(NamedTuple):
    """How many rows of each table a strike left."""

    atoms: int
    bonds: int
    per_bond: int
    per_bond_k: int
    angles: int
    per_angle: int
    exclusions: int


class Melt:
    """The atoms of a run with the evaluator that has their species, charges, bonds, angles and exclusions. The arrays are copied, and are the melt's own.

    `strike` closes up every table together, so no number ends up on another atom; `put` adds an atom after the last one. After both the list is built anew,
    and energy and forces are those of the evaluation at the atoms that are there.

    >>> melt = Melt(eval, positions, velocities, masses)
    >>> melt.strike(melt.positions[:, 2] > 30.0)"""

    def __init__(self, evaluator: Evaluator, positions, velocities, masses):
        self.evaluator = evaluator
        self.positions, self.velocities, self.masses = (np.array(a, dtype=np.float64, order="C") for a in (positions, velocities, masses))
        self.evaluate()

    def strike(self, marks):
        """Strikes the atoms that are marked (a bool an atom), with every bond, angle and exclusion that names one and the numbers of each; how many of each
        are left. Refusals 1, 2, 4 (a bond, then an angle); nothing is moved then."""
        marks = np.asarray(marks)
        if marks.dtype != np.bool_:
            raise TypeError("marks are bools, one an atom; these are of type %s" % marks.dtype)
        lists, t = self.evaluator.list, self.evaluator.ready(len(self.positions))
        r = _raw.tyn_strike(
            marks=marks.astype(np.uint32), s=lists.state(), positions=self.positions, velocities=self.velocities, masses=self.masses,
            exclusions=lists.table(), **{k: t[k] for k in ("charges", "species", "bonds", "lengths", "ks", "angles", "per_angle")},
        )
        n = answered(_raw.tyn_strike, r).left
        self.positions, self.velocities, self.masses = (a[: n.atoms].copy() for a in (self.positions, self.velocities, self.masses))
        kept = dict(charges=n.atoms, species=n.atoms, bonds=2 * n.bonds, lengths=n.lengths, ks=n.ks, angles=3 * n.angles, per_angle=2 * n.per_angle)
        t.update({k: t[k][:many].copy() for k, many in kept.items()})
        lists.emptied(r.state, n.exclusions)
        self.evaluate()
        return Left(n.atoms, n.bonds, n.lengths, n.ks, n.angles, n.per_angle, n.exclusions)

    def put(self, atom: NewAtom):
        """Puts one atom after the last one; its number. Refusals 2 past 16,384 atoms, 3 for a number out of range; nothing is stored then."""
        n, lists = len(self.positions), self.evaluator.list
        t = self.evaluator.ready(n)
        room = dict(
            positions=_longer(self.positions), velocities=_longer(self.velocities), masses=_longer(self.masses), charges=_longer(t["charges"]),
            species=_longer(t["species"]),
        )
        new = _raw.NewAtom(vec3(atom.position), vec3(atom.velocity), atom.mass, atom.charge, u32("a species", atom.species))
        r = answered(_raw.tyn_put, _raw.tyn_put(count=n, new=new, s=lists.state(), **room))
        self.positions, self.velocities, self.masses = room["positions"], room["velocities"], room["masses"]
        t.update(charges=room["charges"], species=room["species"])
        lists.emptied(r.state, len(lists.table()) // 2)
        self.evaluate()
        return n

    def step(self, dt, thermostat=None):
        """One step of velocity Verlet; whether the list was built anew."""
        self.potential, rebuilt = verlet_step(dt, thermostat, self.positions, self.velocities, self.masses, self.forces, self.potential, self.evaluator)
        return rebuilt

    def evaluate(self):
        """Energy, forces and virial where the atoms are."""
        found = self.evaluator.evaluate(self.positions)
        self.forces, self.potential = found.forces, found.energy
        return found


def _longer(a):
    """The array with one row of zeros more."""
    return np.concatenate([a, np.zeros((1,) + a.shape[1:], a.dtype)])
