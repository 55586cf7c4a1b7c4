"""Energy minimization by FIRE: damped velocity Verlet down to a local minimum, for a freshly packed box."""
from dataclasses import dataclass
from typing import NamedTuple

from . import _raw
from .frame import u32


@dataclass(frozen=True)
class FireOptions:
    """Options of a relaxation: the most iterations (at most 100,000), the tolerance on the largest force component (eV/Å), the first time step and the largest
    (fs)."""

    max_iters: int = 2000
    force_tol: float = 1e-4
    dt: float = 1.0
    dt_max: float = 10.0

    def flat(self):
        """The options as the library takes them."""
        return _raw.FireOptions(u32("max_iters", self.max_iters), self.force_tol, self.dt, self.dt_max)


class FireResult(NamedTuple):
    """What a relaxation hands back: whether the tolerance was reached (no force component at the positions that were left is then past it), the iterations
    performed, the potential energy (eV) and the largest force component (eV/Å) at these positions."""

    converged: bool
    iters: int
    energy: float
    max_force: float


def fire(positions, velocities, masses, opts, eval):
    """Relaxes the positions in place to a local energy minimum by FIRE.

    `velocities` is the method's own state: their old values are tested, then zeroed after the first evaluation, and left near zero on return. Where the pairs
    do not fit on the way, the list of the Evaluator `eval` makes more room and the relaxation starts again from what it was given.

    A refusal at the tests or at the first evaluation leaves positions and velocities as they came. Later ones tell their iteration (Error.iteration): a drift
    out of range (3) leaves them as that iteration found them; a grid of too many cells (7) is found after the drift, leaves them drifted and sets
    Error.stopped. Another call goes on from there, from rest.

    >>> fire(positions, np.zeros_like(positions), masses, FireOptions(), eval)"""
    r = eval.fire(opts.flat(), positions, velocities, masses)
    return FireResult(bool(r.converged), r.iteration, r.energy, r.max_force)
