//! The original's `field` module: its files as modules, [`evaluate`], which stands in for the closure of a step, and [`clumps`](mod@clumps) and [`melt`], which it has not.
pub mod cell;
pub mod clumps;
pub mod evaluate;
pub mod fire;
pub mod melt;
pub mod neighbor;
pub mod potentials;
pub mod units;
pub mod verlet;
pub mod virial;

pub use cell::{min_image, min_image_counted, Boxes, Lattice};
pub use clumps::{clumps, sheet_clumps, Clumps};
pub use evaluate::{Evaluator, Terms};
pub use fire::{fire, FireOptions, FireResult};
pub use melt::{Left, Melt, NewAtom};
pub use neighbor::{NeighborList, PairRows};
pub use potentials::{CosineAngles, Coulomb, HarmonicBonds, LennardJones, Mixing};
pub use verlet::{apply_berendsen, kinetic_energy, temperature, verlet_finish, verlet_step, Berendsen};
pub use virial::{pressure, pressure_tensor, to_gpa, Contribution};
