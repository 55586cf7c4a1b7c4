"""Velocity-Verlet time integration with Berendsen's thermostat.

Positions are in Å, velocities in Å/fs, forces in eV/Å, masses in amu, times in fs; arrays of float64 with the shape (atoms, 3), masses one an atom. What a
step moves is moved in place: an array that does not fit is a TypeError, never copied."""
from dataclasses import dataclass
from typing import NamedTuple

from . import _raw, units
from .error import Error, answered


@dataclass(frozen=True)
class Berendsen:
    """Berendsen thermostat for constant-temperature (NVT) runs: target temperature in K, coupling time constant in fs (larger = weaker coupling). It suppresses
    temperature fluctuations rather than reproducing them."""

    target_k: float
    tau_fs: float


class Stepped(NamedTuple):
    """What a step hands back: the potential energy at the new positions (eV), and whether the pair list was built anew."""

    potential: float
    rebuilt: bool


def kinetic_energy(velocities, masses):
    """Kinetic energy in eV for the given velocities (Å/fs) and masses (amu), one velocity a mass."""
    return answered(_raw.tyn_kinetic_energy, _raw.tyn_kinetic_energy(units.RAW, velocities, masses)).value


def temperature(velocities, masses, dof):
    """Instantaneous temperature in K from the kinetic energy and the number of degrees of freedom; 0 where that is not above 0."""
    return answered(_raw.tyn_temperature, _raw.tyn_temperature(units.RAW, dof, velocities, masses)).value


def verlet_step(dt, thermostat, positions, velocities, masses, forces, potential, eval):
    """Advances one velocity-Verlet step in place; gives `Stepped(potential, rebuilt)`.

    forces and potential carry the force cache across steps: on entry they must hold the forces and energy at the current positions (Evaluator.evaluate gives
    them); on return forces holds those at the new positions, and the potential is handed back, since a float of Python cannot be written.

    The library runs the Evaluator `eval` itself after the drift. Where the pairs do not fit, its list makes more room and the step goes on.

    A refusal leaves everything as it came, with one exception: a grid of too many cells (7) is found after the drift. Positions and velocities are then
    drifted, forces and potential old, and Error.stopped is set; verlet_finish goes on there, over a list or a cell that needs fewer cells.

    >>> start = eval.evaluate(positions)
    >>> forces, potential = start.forces, start.energy
    >>> for _ in range(1000):
    ...     potential, rebuilt = verlet_step(5.0, Berendsen(94.4, 200.0), positions, velocities, masses, forces, potential, eval)"""
    motion = dict(positions=positions, velocities=velocities, masses=masses, forces=forces)
    return Stepped(*eval.step(_raw.tyn_step, potential, _pace(dt, thermostat), **motion))


def verlet_finish(dt, thermostat, positions, velocities, masses, forces, potential, eval):
    """The rest of a step that stopped after its drift: the evaluation, the second half kick and the thermostat. Positions are not moved."""
    motion = dict(positions=positions, velocities=velocities, masses=masses, forces=forces)
    return Stepped(*eval.step(_raw.tyn_finish, potential, _pace(dt, thermostat), **motion))


def _pace(dt, thermostat):
    coupling = _raw.Thermostat() if thermostat is None else _raw.Thermostat(1, thermostat.target_k, thermostat.tau_fs)
    return _raw.Pace(dt, coupling)


def apply_berendsen(dt, t, velocities, masses):
    """Berendsen velocity rescaling toward the target temperature, in place. Does nothing with no atoms or a temperature at most 1e-12 K."""
    done = _raw.tyn_berendsen(units.RAW, dt, t.target_k, t.tau_fs, masses, velocities)
    if done.number:
        raise Error("tyn_berendsen", done.number, done.place)
