//! Pair lists, Lennard-Jones, Coulomb, harmonic bonds and velocity Verlet with Berendsen's thermostat, and FIRE: the `field` module of the Rust repository
//! ecto/phyz, answered by a static library (libfield.a) of which every function is proved to meet its contract.
//!
//! Names, argument order and types are the original's. A program changes over by one line of its Cargo.toml; what then does not compile is a result that
//! is not taken and the closure of a step:
//!
//! ```toml
//! phyz-md = { package = "tyngyrlak", path = "../tyngyrlak/rust" }
//! ```
//!
//! What differs:
//!
//! - A call that computes gives a `Result`: the library tests its arguments, and a refusal is an [`Error`] with number, place and words. Nothing panics
//!   on a bad index. Plain data ([`Lattice::cubic`], [`NeighborList::new`], ..) is made untested and tested where it is used.
//! - [`verlet_step`] and [`fire`](fire()) take an [`Evaluator`] in place of a closure.
//! - A pair list can be handed to `compute_pairs` itself (`&list` for `list.pairs()`), which spares a copy.
//! - [`sheet`] is added: job sheets of a whole-number frame, of either form, read, written, rewritten and moved.
//! - Not carried over: `reciprocal`, the tail terms, angles (but [`CosineAngles`], which the original lacks), torsions, Nosé-Hoover, the barostat.
//! - The original's `units` are constants of its own; [`field::units`] has CODATA's unless the crate is built with TYNGYRLAK_UNITS.
//!
//! Beside the original's calls: whole-number frames and their job sheets ([`frame`]), and how many of their pairs sit at each distance ([`shells`]).
//!
//! Answers equal the original's, float for float, in these ranges; outside of them a call refuses. Every float is finite.
//!
//! | | |
//! |---|---|
//! | atoms | 0 to 16,384 |
//! | cells of a grid | to 32,768 |
//! | coordinates, cell entries, velocities, bond numbers, force constants of angles, skin | magnitude to 2^20 |
//! | cutoffs | 0 to 2^20 |
//! | masses | 2^-10 to 2^20 |
//! | rest cosines | -1 to 1 |
//! | epsilon, sigma | 0 to 2^10 |
//! | charges, time steps | magnitude to 2^10 |
//! | iterations of a relaxation | to 100,000 |
//! | target temperature; coupling time | 0 to 2^20; 2^-10 to 2^20 |
//! | other floats: forces, energies, virials, volumes, .. | magnitude to 2^500 |
//!
//! A call takes up to some 800 kB of stack. The library keeps nothing between calls: what it is lent is in [`NeighborList`] and [`Evaluator`], so two of
//! them can run in two threads.
#![deny(missing_docs)]
#![deny(unsafe_code)]

mod error;
pub mod field;
pub mod frame;
#[allow(unsafe_code, missing_docs)]
mod raw;
pub mod sheet;
pub mod shells;

pub use error::Error;
pub use field::*;
pub use frame::{Frame, Snapshot};
pub use shells::Shells;
