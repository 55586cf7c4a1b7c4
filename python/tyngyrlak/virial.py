"""Energy, forces and virial of a term, and the pressures they feed.

The convention is W_ab = Σ_pairs d_a f_b with d = r_i - r_j and f the force on i, so that P = (2 K + Tr W) / (3 V). (ASE's stress is -W / V.)"""
import numpy as np

from . import _raw, units
from ._tables import flat_rows, square, vec3
from .error import answered


class Contribution:
    """The energy (eV), the forces (eV/Å, three floats an atom) and the virial (eV, 3 by 3) that one interaction term makes."""

    def __init__(self, energy, forces, virial):
        self.energy, self.forces, self.virial = energy, forces, virial

    @classmethod
    def zeros(cls, n):
        """A zeroed contribution for n atoms."""
        return cls(0.0, np.zeros((n, 3)), np.zeros((3, 3)))

    @classmethod
    def of(cls, call, answer, forces):
        """What a call that was lent `forces` answered."""
        s = answered(call, answer).sum
        return cls(s.energy, forces, _virial(s))

    def merge(self, other):
        """Accumulates the other one, in place; a shorter one is made as long first by zeros."""
        mine, more = self.forces, len(other.forces) - len(self.forces)
        if more > 0:
            mine = np.concatenate([mine, np.zeros((more, 3))])
        r = _raw.tyn_merge(self._sum(), mine, other._sum(), other.forces)
        self._take(_raw.tyn_merge, r)
        self.forces = mine

    def add_pair_force(self, i, j, d, f):
        """Applies a pairwise force f on atom i (and -f on j) separated by d = r_i - r_j, accumulating the forces, in place, and the pair's virial."""
        self._take(_raw.tyn_add_pair_force, _raw.tyn_add_pair_force(self._sum(), self.forces, i, j, vec3(d), vec3(f)))

    def virial_from_pair(self, d, f):
        """Accumulates only the virial of a pair with displacement d and force f on the first atom."""
        self.virial = square(answered(_raw.tyn_virial_from_pair, _raw.tyn_virial_from_pair(flat_rows(self.virial), vec3(d), vec3(f))).rows)

    def scalar_virial(self):
        """Tr W, the scalar virial."""
        return answered(_raw.tyn_scalar_virial, _raw.tyn_scalar_virial(flat_rows(self.virial))).value

    def _sum(self):
        return _raw.Sum(self.energy, *np.asarray(self.virial, dtype=np.float64).ravel().tolist())

    def _take(self, call, r):
        s = answered(call, r).sum
        self.energy, self.virial = s.energy, _virial(s)

    def __repr__(self):
        return "Contribution(energy=%r, %d atoms)" % (self.energy, len(self.forces))


def _virial(s):
    return np.array(((s.xx, s.xy, s.xz), (s.yx, s.yy, s.yz), (s.zx, s.zy, s.zz)))


def pressure(kinetic_energy, scalar_virial, volume):
    """Instantaneous pressure in eV/Å³ from the kinetic energy (eV), scalar virial (eV), and cell volume (Å³); 0 where the volume is not above 0."""
    return answered(_raw.tyn_pressure, _raw.tyn_pressure(kinetic_energy, scalar_virial, volume)).value


def pressure_tensor(velocities, masses, virial, volume):
    """Full pressure tensor in eV/Å³: P_ab = (Σ_i m_i v_ia v_ib / FORCE_TO_ACCEL + W_ab) / V. One velocity a mass."""
    r = _raw.tyn_pressure_tensor(units.RAW, volume, flat_rows(virial), velocities, masses)
    return square(answered(_raw.tyn_pressure_tensor, r).rows)


def to_gpa(p_ev_per_a3):
    """A pressure in eV/Å³ in GPa."""
    return answered(_raw.tyn_to_gpa, _raw.tyn_to_gpa(units.RAW, p_ev_per_a3)).value
