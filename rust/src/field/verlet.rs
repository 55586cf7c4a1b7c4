//! Velocity-Verlet time integration with Berendsen's thermostat.
//!
//! Positions are in Å, velocities in Å/fs, forces in eV/Å, masses in amu, times in fs.
use super::evaluate::{Evaluator, Motion};
use super::units;
use super::virial::number;
use crate::{raw, Error};

/// Berendsen thermostat configuration for constant-temperature (NVT) runs. It suppresses temperature fluctuations rather than reproducing them.
#[derive(Debug, Clone, Copy)]
pub struct Berendsen {
    /// Target temperature in K.
    pub target_k: f64,
    /// Coupling time constant in fs (larger = weaker coupling).
    pub tau_fs: f64,
}

/// Kinetic energy in eV for the given velocities (Å/fs) and masses (amu), one velocity a mass.
pub fn kinetic_energy(velocities: &[[f64; 3]], masses: &[f64]) -> Result<f64, Error> {
    number("tyn_kinetic_energy", raw::tyn_kinetic_energy(units::RAW, velocities.as_flattened(), masses))
}

/// Instantaneous temperature in K from the kinetic energy and the number of degrees of freedom; 0 where that is not above 0.
pub fn temperature(velocities: &[[f64; 3]], masses: &[f64], dof: f64) -> Result<f64, Error> {
    number("tyn_temperature", raw::tyn_temperature(units::RAW, dof, velocities.as_flattened(), masses))
}

/// Advances one velocity-Verlet step; gives whether the pair list was built anew.
///
/// `forces` and `potential` carry the force cache across steps: on entry they must hold the forces and energy at the current positions
/// ([`Evaluator::evaluate`] gives them), and on return they hold the values at the new positions.
///
/// The original's last argument is a closure from positions to energy and forces; here it is an [`Evaluator`], which the library runs itself after the
/// drift: the list is brought up to date, then the terms. Where the pairs do not fit, the evaluator's list makes more room and the step goes on.
///
/// # Errors
/// A refusal leaves everything as it came, with one exception: a grid of too many cells (7) is found after the drift. Positions and velocities are then
/// drifted, forces and potential old, and [`Error::stopped`] is set; [`verlet_finish`] goes on there, over a list or a cell that needs fewer cells.
#[allow(clippy::too_many_arguments)]
pub fn verlet_step(
    dt: f64,
    thermostat: Option<Berendsen>,
    positions: &mut [[f64; 3]],
    velocities: &mut [[f64; 3]],
    masses: &[f64],
    forces: &mut Vec<[f64; 3]>,
    potential: &mut f64,
    eval: &mut Evaluator,
) -> Result<bool, Error> {
    eval.step(Motion { dt, thermostat, positions, velocities, masses, forces, potential })
}

/// The rest of a step that stopped after its drift: the evaluation, the second half kick and the thermostat. Positions are not moved.
#[allow(clippy::too_many_arguments)]
pub fn verlet_finish(
    dt: f64,
    thermostat: Option<Berendsen>,
    positions: &mut [[f64; 3]],
    velocities: &mut [[f64; 3]],
    masses: &[f64],
    forces: &mut Vec<[f64; 3]>,
    potential: &mut f64,
    eval: &mut Evaluator,
) -> Result<bool, Error> {
    eval.finish(Motion { dt, thermostat, positions, velocities, masses, forces, potential })
}

/// Berendsen velocity rescaling toward the target temperature. Does nothing with no atoms or a temperature at most 1e-12 K.
pub fn apply_berendsen(dt: f64, t: Berendsen, velocities: &mut [[f64; 3]], masses: &[f64]) -> Result<(), Error> {
    raw::tyn_berendsen(units::RAW, dt, t.target_k, t.tau_fs, masses, velocities.as_flattened_mut()).of("tyn_berendsen")
}
