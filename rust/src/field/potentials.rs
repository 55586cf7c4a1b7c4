//! Whole-system interatomic potentials.
//!
//! `compute_pairs` runs over a pair list in its order, `compute_all` over every pair, `compute` gives energy and forces of the latter. Energies are eV,
//! forces eV/Å, virials eV.
use super::cell::Lattice;
use super::neighbor::PairRows;
use super::units;
use super::virial::Contribution;
use crate::{raw, Error};
use std::collections::HashMap;
use std::sync::Arc;

type EnergyAndForces = (f64, Vec<[f64; 3]>);

/// How the sigmas of two species mix. Epsilons mix by the root of their product in both.
#[derive(Debug, Clone, Copy, PartialEq, Eq, Default)]
pub enum Mixing {
    /// Rule 1, Lorentz-Berthelot: the half sum, as the original has it.
    #[default]
    HalfSum,
    /// Rule 2: the geometric mean, root of the product.
    Geometric,
}

impl Mixing {
    /// The rule's number, 1 or 2, as a job names it.
    pub fn rule(self) -> u32 {
        match self {
            Mixing::HalfSum => 1,
            Mixing::Geometric => 2,
        }
    }
}

/// Lennard-Jones potential with per-species parameters and a mixing rule, a spherical cutoff, and optional energy shift for continuity.
#[derive(Debug, Clone)]
pub struct LennardJones {
    /// Per-species `(epsilon eV, sigma Å)` keyed by species id (e.g. atomic number).
    pub params: HashMap<u32, (f64, f64)>,
    /// A house table that several potentials share: the rows of species that `params` lacks. Nothing of it is copied into `params` or changed.
    pub house: Arc<HashMap<u32, (f64, f64)>>,
    /// Fallback parameters for species with no entry in either.
    pub default: (f64, f64),
    /// Cutoff radius in Å.
    pub cutoff: f64,
    /// Shift the potential so that it is 0 at the cutoff.
    pub shift: bool,
    /// How two species mix.
    pub mixing: Mixing,
}

impl LennardJones {
    /// A single-species LJ fluid, shifted.
    pub fn monatomic(epsilon: f64, sigma: f64, cutoff: f64) -> Self {
        Self { params: HashMap::new(), house: Arc::default(), default: (epsilon, sigma), cutoff, shift: true, mixing: Mixing::HalfSum }
    }

    /// Argon: ε = 0.0103 eV, σ = 3.4 Å, cutoff 2.5σ.
    pub fn argon() -> Self {
        Self::monatomic(0.0103, 3.4, 2.5 * 3.4)
    }

    /// The same potential with another mixing rule.
    pub fn mixed_by(self, mixing: Mixing) -> Self {
        Self { mixing, ..self }
    }

    /// The same potential over a shared house table: a species' row is the one of `params` where there is one, else the house's, else the default.
    pub fn over(self, house: &Arc<HashMap<u32, (f64, f64)>>) -> Self {
        Self { house: Arc::clone(house), ..self }
    }

    /// The row of a species: that of `params`, else the house's, else the default.
    pub fn row(&self, species: u32) -> Result<(f64, f64), Error> {
        let [(own_ids, own_params), (ids, params)] = self.tables();
        let r = raw::tyn_species_row(&own_ids, &own_params, &ids, &params, species);
        r.done.of("tyn_species_row")?;
        Ok(if r.table == 0 { self.default } else { (r.epsilon, r.sigma) })
    }

    /// Energy, forces, and virial over a precomputed neighbor list: `list.pairs()` or `&list`. One species number an atom.
    pub fn compute_pairs<P: PairRows + ?Sized>(
        &self,
        numbers: &[u32],
        positions: &[[f64; 3]],
        pairs: &P,
        cell: Option<&Lattice>,
    ) -> Result<Contribution, Error> {
        let [(own_ids, own_params), (ids, params)] = self.tables();
        let mut forces = vec![[0.0; 3]; positions.len()];
        let at = positions.as_flattened();
        let r = raw::tyn_lj_pairs(self.numbers(), cell.into(), &own_ids, &own_params, &ids, &params, numbers, at, &pairs.rows(), forces.as_flattened_mut());
        Contribution::of("tyn_lj_pairs", r, forces)
    }

    /// All-pairs energy and forces.
    pub fn compute(&self, numbers: &[u32], positions: &[[f64; 3]], cell: Option<&Lattice>) -> Result<EnergyAndForces, Error> {
        let c = self.compute_all(numbers, positions, cell)?;
        Ok((c.energy, c.forces))
    }

    /// All-pairs form returning the full contribution including the virial.
    pub fn compute_all(&self, numbers: &[u32], positions: &[[f64; 3]], cell: Option<&Lattice>) -> Result<Contribution, Error> {
        let [(own_ids, own_params), (ids, params)] = self.tables();
        let mut forces = vec![[0.0; 3]; positions.len()];
        let at = positions.as_flattened();
        let r = raw::tyn_lj_all(self.numbers(), cell.into(), &own_ids, &own_params, &ids, &params, numbers, at, forces.as_flattened_mut());
        Contribution::of("tyn_lj_all", r, forces)
    }

    pub(super) fn numbers(&self) -> raw::Lj {
        raw::Lj { epsilon: self.default.0, sigma: self.default.1, cutoff: self.cutoff, shift: self.shift.into(), rule: self.mixing.rule() }
    }

    /// Both tables, the own one first: the species ascending, and epsilon and sigma of each.
    pub(super) fn tables(&self) -> [(Vec<u32>, Vec<f64>); 2] {
        [&self.params, &*self.house].map(|rows| {
            let mut ids: Vec<u32> = rows.keys().copied().collect();
            ids.sort_unstable();
            let params = ids.iter().flat_map(|id| <[f64; 2]>::from(rows[id])).collect();
            (ids, params)
        })
    }
}

/// Harmonic bond stretching: `E = 0.5 k (r - r0)²` per bond.
#[derive(Debug, Clone)]
pub struct HarmonicBonds {
    /// Force constant in eV/Å².
    pub k: f64,
    /// Equilibrium length in Å (uniform if `per_bond` is empty).
    pub r0: f64,
    /// Optional per-bond equilibrium lengths, matching the bond-list order.
    pub per_bond: Vec<f64>,
    /// Optional per-bond force constants, matching the bond-list order.
    pub per_bond_k: Vec<f64>,
}

impl HarmonicBonds {
    /// Uniform harmonic bonds.
    pub fn uniform(k: f64, r0: f64) -> Self {
        Self { k, r0, per_bond: Vec::new(), per_bond_k: Vec::new() }
    }

    /// Energy, forces, and virial for the given `(i, j)` bond pairs.
    pub fn compute_all(&self, bonds: &[(usize, usize)], positions: &[[f64; 3]], cell: Option<&Lattice>) -> Result<Contribution, Error> {
        let mut forces = vec![[0.0; 3]; positions.len()];
        let (rows, at) = (raw::rows(bonds), positions.as_flattened());
        let r = raw::tyn_bonds_all(self.numbers(), cell.into(), &rows, &self.per_bond, &self.per_bond_k, at, forces.as_flattened_mut());
        Contribution::of("tyn_bonds_all", r, forces)
    }

    /// Total energy and per-atom forces for the given `(i, j)` bond pairs.
    pub fn compute(&self, bonds: &[(usize, usize)], positions: &[[f64; 3]], cell: Option<&Lattice>) -> Result<EnergyAndForces, Error> {
        let c = self.compute_all(bonds, positions, cell)?;
        Ok((c.energy, c.forces))
    }

    pub(super) fn numbers(&self) -> raw::Bond {
        raw::Bond { k: self.k, r0: self.r0 }
    }
}

/// Cosine angle bending, the GROMOS-96 form: `E = 0.5 k (cos θ - rest)²` over `(i, apex, k)` triples. It is shaped as the original's `HarmonicAngles`,
/// with a rest cosine in place of the angle, and needs no arc cosine. An arm shorter than 1e-9 Å adds nothing.
#[derive(Debug, Clone, Default)]
pub struct CosineAngles {
    /// `(i, apex, k)` atom-index triples.
    pub triples: Vec<(usize, usize, usize)>,
    /// Force constant in eV, of magnitude to 2^20.
    pub k: f64,
    /// Cosine at rest, -1 to 1.
    pub rest: f64,
    /// Optional per-triple `(k, rest)` overrides, matching `triples` order. Each is tested, also past the last triple.
    pub per_angle: Vec<(f64, f64)>,
}

impl CosineAngles {
    /// Uniform cosine angles over the given triples.
    pub fn uniform(triples: Vec<(usize, usize, usize)>, k: f64, rest: f64) -> Self {
        Self { triples, k, rest, per_angle: Vec::new() }
    }

    /// Energy, forces, and virial over the stored triples.
    pub fn compute_all(&self, positions: &[[f64; 3]], cell: Option<&Lattice>) -> Result<Contribution, Error> {
        let mut forces = vec![[0.0; 3]; positions.len()];
        let (rows, at) = (raw::triple_rows(&self.triples), positions.as_flattened());
        let r = raw::tyn_angles_all(self.numbers(), cell.into(), &rows, &self.table(), at, forces.as_flattened_mut());
        Contribution::of("tyn_angles_all", r, forces)
    }

    /// Total energy and per-atom forces over the stored triples.
    pub fn compute(&self, positions: &[[f64; 3]], cell: Option<&Lattice>) -> Result<EnergyAndForces, Error> {
        let c = self.compute_all(positions, cell)?;
        Ok((c.energy, c.forces))
    }

    pub(super) fn numbers(&self) -> raw::Angle {
        raw::Angle { k: self.k, rest: self.rest }
    }

    /// k and rest of each row of `per_angle`.
    pub(super) fn table(&self) -> Vec<f64> {
        self.per_angle.iter().flat_map(|&row| <[f64; 2]>::from(row)).collect()
    }
}

/// Direct (cutoff) Coulomb interaction: `E = KE q_i q_j / r`. The plain real-space sum: right for isolated clusters, not for a periodic charged system.
#[derive(Debug, Clone)]
pub struct Coulomb {
    /// Cutoff radius in Å.
    pub cutoff: f64,
}

impl Coulomb {
    /// Energy, forces, and virial over a precomputed neighbor list: `list.pairs()` or `&list`. One charge (e) an atom.
    pub fn compute_pairs<P: PairRows + ?Sized>(
        &self,
        charges: &[f64],
        positions: &[[f64; 3]],
        pairs: &P,
        cell: Option<&Lattice>,
    ) -> Result<Contribution, Error> {
        let mut forces = vec![[0.0; 3]; positions.len()];
        let at = positions.as_flattened();
        let r = raw::tyn_coulomb_pairs(units::RAW, self.cutoff, cell.into(), charges, at, &pairs.rows(), forces.as_flattened_mut());
        Contribution::of("tyn_coulomb_pairs", r, forces)
    }

    /// All-pairs form returning the full contribution.
    pub fn compute_all(&self, charges: &[f64], positions: &[[f64; 3]], cell: Option<&Lattice>) -> Result<Contribution, Error> {
        let mut forces = vec![[0.0; 3]; positions.len()];
        let r = raw::tyn_coulomb_all(units::RAW, self.cutoff, cell.into(), charges, positions.as_flattened(), forces.as_flattened_mut());
        Contribution::of("tyn_coulomb_all", r, forces)
    }

    /// Total energy and per-atom forces for the given per-atom charges (e).
    pub fn compute(&self, charges: &[f64], positions: &[[f64; 3]], cell: Option<&Lattice>) -> Result<EnergyAndForces, Error> {
        let c = self.compute_all(charges, positions, cell)?;
        Ok((c.energy, c.forces))
    }
}
