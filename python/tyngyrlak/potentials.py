"""Whole-system interatomic potentials.

`compute_pairs` runs over a pair list in its order, `compute_all` over every pair, `compute` gives energy and forces of the latter. Energies are eV, forces
eV/Å, virials eV. Positions are float64 with the shape (atoms, 3), charges float64 and species uint32, one an atom, in C order: lent, not copied. `forces` can
be lent too, and is then written over and is the answer's."""
import operator

import numpy as np

from . import _raw, units
from ._tables import atoms, floats, rows
from .cell import flat_cell
from .error import answered
from .frame import u32
from .neighbor import pair_rows
from .virial import Contribution


def _room(forces, n):
    return np.zeros((n, 3)) if forces is None else forces


class LennardJones:
    """Lennard-Jones potential with per-species parameters and a mixing rule, a spherical cutoff, and optional energy shift for continuity.

    params   {species number: (epsilon eV, sigma Å)}, e.g. by atomic number
    default  (epsilon, sigma) of a species that has no row
    cutoff   Å
    shift    whether the potential is shifted so that it is 0 at the cutoff
    house    a table that several potentials share: the rows of species that params lacks. Nothing of it is copied into params or changed
    rule     how the sigmas of two species mix: 1 by the half sum (Lorentz-Berthelot), 2 by the geometric mean, the root of the product. Epsilons mix by the
             root of their product in both. A call refuses another number with 3"""

    def __init__(self, params=None, default=(0.0, 0.0), cutoff=0.0, shift=True, house=None, rule=1):
        self.params, self.default, self.cutoff, self.shift = dict(params or {}), tuple(default), cutoff, bool(shift)
        self.house, self.rule = {} if house is None else house, rule

    @classmethod
    def monatomic(cls, epsilon, sigma, cutoff):
        """A single-species fluid, shifted."""
        return cls({}, (epsilon, sigma), cutoff, True)

    @classmethod
    def argon(cls):
        """Argon: ε = 0.0103 eV, σ = 3.4 Å, cutoff 2.5 σ."""
        return cls.monatomic(0.0103, 3.4, 2.5 * 3.4)

    def over(self, house):
        """The same potential over a shared house table: a species' row is the one of params where there is one, else the house's, else the default."""
        return type(self)(self.params, self.default, self.cutoff, self.shift, house, self.rule)

    def mixed_by(self, rule):
        """The same potential with another mixing rule."""
        return type(self)(self.params, self.default, self.cutoff, self.shift, self.house, rule)

    def row(self, species):
        """The row of a species: that of params, else the house's, else the default."""
        r = answered(_raw.tyn_species_row, _raw.tyn_species_row(species=species, **self.tables()))
        return (r.epsilon, r.sigma) if r.table else self.default

    def compute_pairs(self, numbers, positions, pairs, cell=None, forces=None):
        """Energy, forces, and virial over a neighbor list: the list itself, its pairs() or rows of two atoms. One species number an atom."""
        forces = _room(forces, atoms(positions))
        r = _raw.tyn_lj_pairs(
            lj=self.flat(), cell=flat_cell(cell), species=numbers, positions=positions, pairs=pair_rows(pairs), forces=forces, **self.tables()
        )
        return Contribution.of(_raw.tyn_lj_pairs, r, forces)

    def compute_all(self, numbers, positions, cell=None, forces=None):
        """The same over every pair."""
        forces = _room(forces, atoms(positions))
        r = _raw.tyn_lj_all(lj=self.flat(), cell=flat_cell(cell), species=numbers, positions=positions, forces=forces, **self.tables())
        return Contribution.of(_raw.tyn_lj_all, r, forces)

    def compute(self, numbers, positions, cell=None):
        """All-pairs energy and forces."""
        c = self.compute_all(numbers, positions, cell)
        return c.energy, c.forces

    def flat(self):
        """The numbers as the library takes them."""
        epsilon, sigma = self.default
        return _raw.Lj(epsilon, sigma, self.cutoff, self.shift, u32("rule", self.rule))

    def tables(self):
        """Both tables, the species ascending, and epsilon and sigma of each, by the header's names."""
        (own_ids, own_params), (ids, params) = map(_ascending, (self.params, self.house))
        return dict(own_ids=own_ids, own_params=own_params, ids=ids, params=params)


def _ascending(table):
    ids = sorted(map(operator.index, table))
    return rows("species", [[k] for k in ids], 1), floats("epsilon and sigma", [table[k] for k in ids], 2)


class HarmonicBonds:
    """Harmonic bond stretching: E = 0.5 k (r - r0)² per bond.

    k, r0       force constant (eV/Å²) and equilibrium length (Å)
    per_bond    equilibrium lengths of the first bonds, in the order of the bond list
    per_bond_k  their force constants"""

    def __init__(self, k, r0, per_bond=(), per_bond_k=()):
        self.k, self.r0, self.per_bond, self.per_bond_k = k, r0, per_bond, per_bond_k

    @classmethod
    def uniform(cls, k, r0):
        """Uniform harmonic bonds."""
        return cls(k, r0)

    def compute_all(self, bonds, positions, cell=None, forces=None):
        """Energy, forces, and virial for the given (i, j) bond pairs."""
        forces = _room(forces, atoms(positions))
        r = _raw.tyn_bonds_all(bond=self.flat(), cell=flat_cell(cell), positions=positions, forces=forces, **self.tables(bonds))
        return Contribution.of(_raw.tyn_bonds_all, r, forces)

    def compute(self, bonds, positions, cell=None):
        """Total energy and per-atom forces for the given (i, j) bond pairs."""
        c = self.compute_all(bonds, positions, cell)
        return c.energy, c.forces

    def flat(self):
        """The numbers as the library takes them."""
        return _raw.Bond(self.k, self.r0)

    def tables(self, bonds):
        """The bonds and what is their own, by the header's names."""
        return dict(bonds=rows("bonds", bonds, 2), lengths=floats("per_bond", self.per_bond), ks=floats("per_bond_k", self.per_bond_k))


class CosineAngles:
    """Cosine angle bending, the GROMOS-96 form: E = 0.5 k (cos θ - rest)² over (i, apex, k) triples. An arm shorter than 1e-9 Å adds nothing.

    triples    (i, apex, k) atom numbers
    k, rest    force constant (eV) and cosine at rest
    per_angle  (k, rest) of the first triples, in their order; each is tested, also past the last triple"""

    def __init__(self, triples=(), k=0.0, rest=0.0, per_angle=()):
        self.triples, self.k, self.rest, self.per_angle = triples, k, rest, per_angle

    @classmethod
    def uniform(cls, triples, k, rest):
        """Uniform cosine angles over the given triples."""
        return cls(triples, k, rest)

    def compute_all(self, positions, cell=None, forces=None):
        """Energy, forces, and virial over the stored triples."""
        forces = _room(forces, atoms(positions))
        r = _raw.tyn_angles_all(angle=self.flat(), cell=flat_cell(cell), positions=positions, forces=forces, **self.tables())
        return Contribution.of(_raw.tyn_angles_all, r, forces)

    def compute(self, positions, cell=None):
        """Total energy and per-atom forces over the stored triples."""
        c = self.compute_all(positions, cell)
        return c.energy, c.forces

    def flat(self):
        """The numbers as the library takes them."""
        return _raw.Angle(self.k, self.rest)

    def tables(self):
        """The triples and what is their own, by the header's names."""
        return dict(angles=rows("angles", self.triples, 3), per_angle=floats("per_angle", self.per_angle, 2))


class Coulomb:
    """Direct (cutoff) Coulomb interaction: E = KE q_i q_j / r. The plain real-space sum: right for isolated clusters, not for a periodic charged system."""

    def __init__(self, cutoff):
        self.cutoff = cutoff

    def compute_pairs(self, charges, positions, pairs, cell=None, forces=None):
        """Energy, forces, and virial over a neighbor list: the list itself, its pairs() or rows of two atoms. One charge (e) an atom."""
        forces = _room(forces, atoms(positions))
        r = _raw.tyn_coulomb_pairs(units.RAW, self.cutoff, flat_cell(cell), charges, positions, pair_rows(pairs), forces)
        return Contribution.of(_raw.tyn_coulomb_pairs, r, forces)

    def compute_all(self, charges, positions, cell=None, forces=None):
        """The same over every pair."""
        forces = _room(forces, atoms(positions))
        r = _raw.tyn_coulomb_all(units.RAW, self.cutoff, flat_cell(cell), charges, positions, forces)
        return Contribution.of(_raw.tyn_coulomb_all, r, forces)

    def compute(self, charges, positions, cell=None):
        """Total energy and per-atom forces for the given per-atom charges (e)."""
        c = self.compute_all(charges, positions, cell)
        return c.energy, c.forces
