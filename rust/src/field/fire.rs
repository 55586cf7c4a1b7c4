//! Energy minimization by FIRE: damped velocity Verlet down to a local minimum, for a freshly packed box.
use super::evaluate::Evaluator;
use crate::raw::{self, atom};
use crate::Error;

/// Options controlling a FIRE relaxation.
#[derive(Debug, Clone, Copy, PartialEq)]
pub struct FireOptions {
    /// Maximum iterations, at most 100,000.
    pub max_iters: usize,
    /// Force convergence tolerance (eV/Å) on the max component.
    pub force_tol: f64,
    /// Initial timestep (fs).
    pub dt: f64,
    /// Maximum timestep (fs).
    pub dt_max: f64,
}

impl Default for FireOptions {
    fn default() -> Self {
        Self { max_iters: 2000, force_tol: 1e-4, dt: 1.0, dt_max: 10.0 }
    }
}

/// Outcome of a minimization.
#[derive(Debug, Clone, PartialEq)]
pub struct FireResult {
    /// Whether the force tolerance was reached: no component of the forces at the positions that were left is then past it.
    pub converged: bool,
    /// Iterations performed, at most [`FireOptions::max_iters`].
    pub iters: usize,
    /// Final potential energy (eV): that of the evaluation at the positions that were left.
    pub energy: f64,
    /// Final max force component (eV/Å).
    pub max_force: f64,
}

/// Relaxes the positions in place to a local energy minimum using FIRE.
///
/// `velocities` is the method's own state: their old values are tested, then zeroed after the first evaluation, and left near zero on return.
///
/// The original's last argument is a closure from positions to energy and forces; here it is an [`Evaluator`]. Where the pairs do not fit on the way, its
/// list makes more room and the relaxation starts again from what it was given, so that its answer is the one that enough room gives.
///
/// # Errors
/// A refusal at the tests or at the first evaluation leaves positions and velocities as they came. Later ones tell their iteration ([`Error::iteration`]):
/// a drift out of range (3) leaves them as that iteration found them; a grid of too many cells (7) is found after the drift, leaves them drifted and sets
/// [`Error::stopped`]. Another call goes on from there, from rest.
pub fn fire(positions: &mut [[f64; 3]], velocities: &mut [[f64; 3]], masses: &[f64], opts: &FireOptions, eval: &mut Evaluator) -> Result<FireResult, Error> {
    eval.fire(positions, velocities, masses, opts)
}

impl From<&FireOptions> for raw::FireOptions {
    fn from(o: &FireOptions) -> Self {
        // a limit that no u32 holds is past 100,000, and so is the largest u32
        Self { max_iters: atom(o.max_iters), force_tol: o.force_tol, dt: o.dt, dt_max: o.dt_max }
    }
}

pub(super) fn fired(r: raw::Fired) -> Result<FireResult, Error> {
    r.done.of("tyn_fire").map_err(|e| Error { stopped: r.stopped != 0, iteration: r.iteration, ..e })?;
    Ok(FireResult { converged: r.converged != 0, iters: r.iteration as usize, energy: r.energy, max_force: r.max_force })
}
