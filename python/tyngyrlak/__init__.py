"""Pair lists, Lennard-Jones, Coulomb, harmonic bonds, cosine angles and velocity Verlet with Berendsen's thermostat, answered by a library of which every
function is proved to meet its contract. Names are those of the crate for Rust (rust/): a call that the library refuses raises `Error`, with number, place and
words. Arrays are lent, not copied; one whose type or order does not fit is a TypeError.

>>> import numpy as np, tyngyrlak as t
>>> cell = t.Lattice.cubic(36.183)
>>> positions = np.random.default_rng(1).uniform(0, 36.183, (1000, 3))
>>> list = t.NeighborList(8.5, 1.5)
>>> list.build(positions, cell)
>>> t.LennardJones.argon().compute_pairs(np.full(1000, 18, np.uint32), positions, list, cell).energy

`tyngyrlak.ase` has a calculator and a neighbor list for ASE, `python -m tyngyrlak.plot` draws logs of runs. The ranges are those of the crate for Rust: to
16,384 atoms, coordinates and cells to 2^20. Two lists can run in two threads; arrays that are lent must be left alone while a call runs."""
from . import sheet, units
from ._library import NotProved, library, made
from .cell import Lattice, min_image, min_image_counted
from .clumps import Clumps, clumps, label, sheet_clumps
from .error import Error
from .evaluate import Evaluator, Terms
from .fire import FireOptions, FireResult, fire
from .frame import Frame, FramePairs, Sheet, Snapshot
from .melt import Left, Melt, NewAtom
from .neighbor import NeighborList
from .potentials import CosineAngles, Coulomb, HarmonicBonds, LennardJones
from .shells import Shells
from .verlet import Berendsen, Stepped, apply_berendsen, kinetic_energy, temperature, verlet_finish, verlet_step
from .virial import Contribution, pressure, pressure_tensor, to_gpa

__version__ = "0.1.0"
__all__ = [
    "Berendsen", "Clumps", "Contribution", "CosineAngles", "Coulomb", "Error", "Evaluator", "FireOptions", "FireResult", "Frame", "FramePairs", "HarmonicBonds", "Lattice",
    "Left", "LennardJones", "Melt", "NeighborList", "NewAtom", "NotProved", "Sheet", "Shells", "Snapshot", "Stepped", "Terms", "apply_berendsen", "clumps", "fire", "kinetic_energy", "label",
    "library", "made", "min_image", "min_image_counted", "pressure", "pressure_tensor", "sheet", "sheet_clumps", "temperature", "to_gpa", "units",
    "verlet_finish", "verlet_step",
]
