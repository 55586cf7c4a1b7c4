//! Energy, forces and virial of a term, and the pressures they feed.
//!
//! The convention is `W_ab = Σ_pairs d_a f_b` with `d = r_i - r_j` and `f` the force on `i`, so that `P = (2 K + Tr W) / (3 V)`.
use super::units;
use crate::{raw, Error};

/// The energy, forces, and virial produced by one interaction term.
#[derive(Debug, Clone, Default, PartialEq)]
pub struct Contribution {
    /// Potential energy in eV.
    pub energy: f64,
    /// Force on each atom in eV/Å.
    pub forces: Vec<[f64; 3]>,
    /// Virial tensor in eV.
    pub virial: [[f64; 3]; 3],
}

impl Contribution {
    /// A zeroed contribution sized for `n` atoms.
    pub fn zeros(n: usize) -> Self {
        Self { energy: 0.0, forces: vec![[0.0; 3]; n], virial: [[0.0; 3]; 3] }
    }

    /// Accumulates `other` into `self`, which is made as long first by zeros.
    pub fn merge(&mut self, other: &Self) -> Result<(), Error> {
        let old = self.forces.len();
        self.forces.resize(old.max(other.forces.len()), [0.0; 3]);
        let r = raw::tyn_merge(self.sum(), self.forces.as_flattened_mut(), other.sum(), other.forces.as_flattened());
        if r.done.number != 0 {
            self.forces.truncate(old);
        }
        self.take("tyn_merge", r)
    }

    /// Applies a pairwise force `f` on atom `i` (and `-f` on `j`) separated by `d = r_i - r_j`, accumulating the forces and the pair's virial.
    pub fn add_pair_force(&mut self, i: usize, j: usize, d: [f64; 3], f: [f64; 3]) -> Result<(), Error> {
        let (i, j) = (raw::atom(i), raw::atom(j));
        let r = raw::tyn_add_pair_force(self.sum(), self.forces.as_flattened_mut(), i, j, d.into(), f.into());
        self.take("tyn_add_pair_force", r)
    }

    /// Accumulates only the virial of a pair with displacement `d` and force `f` on the first atom.
    pub fn virial_from_pair(&mut self, d: [f64; 3], f: [f64; 3]) -> Result<(), Error> {
        let r = raw::tyn_virial_from_pair(self.virial.into(), d.into(), f.into());
        r.done.of("tyn_virial_from_pair")?;
        self.virial = r.rows.into();
        Ok(())
    }

    /// `Tr W`, the scalar virial.
    pub fn scalar_virial(&self) -> Result<f64, Error> {
        number("tyn_scalar_virial", raw::tyn_scalar_virial(self.virial.into()))
    }

    fn sum(&self) -> raw::Sum {
        let [[xx, xy, xz], [yx, yy, yz], [zx, zy, zz]] = self.virial;
        raw::Sum { energy: self.energy, virial: [xx, xy, xz, yx, yy, yz, zx, zy, zz] }
    }

    fn take(&mut self, call: &'static str, r: raw::Summed) -> Result<(), Error> {
        r.done.of(call)?;
        (self.energy, self.virial) = (r.sum.energy, square(r.sum.virial));
        Ok(())
    }

    /// What a call that was lent `forces` answered.
    pub(crate) fn of(call: &'static str, r: raw::Summed, forces: Vec<[f64; 3]>) -> Result<Self, Error> {
        r.done.of(call)?;
        Ok(Self { energy: r.sum.energy, forces, virial: square(r.sum.virial) })
    }
}

fn square([xx, xy, xz, yx, yy, yz, zx, zy, zz]: [f64; 9]) -> [[f64; 3]; 3] {
    [[xx, xy, xz], [yx, yy, yz], [zx, zy, zz]]
}

pub(super) fn number(call: &'static str, r: raw::Number) -> Result<f64, Error> {
    r.done.of(call)?;
    Ok(r.value)
}

/// Instantaneous pressure in eV/Å³ from the kinetic energy (eV), scalar virial (eV), and cell volume (Å³); 0 where the volume is not above 0.
pub fn pressure(kinetic_energy: f64, scalar_virial: f64, volume: f64) -> Result<f64, Error> {
    number("tyn_pressure", raw::tyn_pressure(kinetic_energy, scalar_virial, volume))
}

/// Full pressure tensor in eV/Å³: `P_ab = (Σ_i m_i v_ia v_ib / FORCE_TO_ACCEL + W_ab) / V`. One velocity a mass.
pub fn pressure_tensor(velocities: &[[f64; 3]], masses: &[f64], virial: &[[f64; 3]; 3], volume: f64) -> Result<[[f64; 3]; 3], Error> {
    let r = raw::tyn_pressure_tensor(units::RAW, volume, (*virial).into(), velocities.as_flattened(), masses);
    r.done.of("tyn_pressure_tensor")?;
    Ok(r.rows.into())
}

/// A pressure in eV/Å³ in GPa.
pub fn to_gpa(p_ev_per_a3: f64) -> Result<f64, Error> {
    number("tyn_to_gpa", raw::tyn_to_gpa(units::RAW, p_ev_per_a3))
}
