//! A melt that atoms leave and join: everything that belongs to an atom in one place, so that it is struck and put as a whole.
use super::cell::Lattice;
use super::evaluate::{Evaluator, Motion};
use super::verlet::Berendsen;
use super::virial::Contribution;
use crate::{raw, Error};

pub use crate::raw::Left;

/// One atom with all its numbers.
#[derive(Debug, Clone, Copy, Default, PartialEq)]
pub struct NewAtom {
    /// Where it is, in Å.
    pub position: [f64; 3],
    /// Its velocity, in Å/fs.
    pub velocity: [f64; 3],
    /// Its mass, in amu.
    pub mass: f64,
    /// Its charge, in e. It is kept where there is no Coulomb term, too.
    pub charge: f64,
    /// Its species number. It is kept where there is no Lennard-Jones term, too.
    pub species: u32,
}

/// The atoms of a run with the evaluator that has their species, charges, bonds, angles and exclusions.
///
/// [`Melt::strike`] closes up every table together, so no number ends up on another atom; [`Melt::put`] adds an atom after the last one. After both the
/// list is built anew, and energy and forces are those of the evaluation at the atoms that are there.
#[derive(Debug, Clone)]
pub struct Melt {
    evaluator: Evaluator,
    positions: Vec<[f64; 3]>,
    velocities: Vec<[f64; 3]>,
    masses: Vec<f64>,
    forces: Vec<[f64; 3]>,
    potential: f64,
}

impl Melt {
    /// A melt of these atoms, evaluated once. The evaluator's terms have a species and a charge for each.
    pub fn new(evaluator: Evaluator, positions: Vec<[f64; 3]>, velocities: Vec<[f64; 3]>, masses: Vec<f64>) -> Result<Self, Error> {
        let mut melt = Self { evaluator, positions, velocities, masses, forces: vec![], potential: 0.0 };
        melt.evaluate()?;
        Ok(melt)
    }

    /// Strikes the atoms that are marked, with every bond, angle and exclusion that names one and the numbers of each; how many of each are left. Survivors
    /// keep their order and all their numbers. An exclusion that names no atom and rows past the last bond or angle go too.
    ///
    /// Refused: 1 where there is not one mark an atom, 2, 4 for a bond, then an angle; nothing is moved then.
    pub fn strike(&mut self, marks: &[bool]) -> Result<Left, Error> {
        self.evaluator.make_ready(self.positions.len());
        let marks: Vec<u32> = marks.iter().map(|&m| u32::from(m)).collect();
        let s = self.evaluator.list.state();
        let (list, t) = (&mut self.evaluator.list, &mut self.evaluator.tables);
        #[rustfmt::skip]
        let r = raw::tyn_strike(&marks, s, self.positions.as_flattened_mut(), self.velocities.as_flattened_mut(), &mut self.masses, &mut t.charges,
            &mut t.species, &mut t.bonds, &mut t.lengths, &mut t.ks, &mut t.angles, &mut t.per_angle, list.table_mut());
        r.done.of("tyn_strike")?;
        let n = r.left;
        self.positions.truncate(n.atoms);
        self.velocities.truncate(n.atoms);
        self.masses.truncate(n.atoms);
        t.charges.truncate(n.atoms);
        t.species.truncate(n.atoms);
        t.bonds.truncate(2 * n.bonds);
        t.lengths.truncate(n.lengths);
        t.ks.truncate(n.ks);
        t.angles.truncate(3 * n.angles);
        t.per_angle.truncate(2 * n.per_angle);
        list.emptied(r.state, n.exclusions as u32);
        self.evaluate()?;
        Ok(n)
    }

    /// Puts one atom after the last one; its number.
    ///
    /// Refused: 2 past 16,384 atoms, 3 for a number out of range; nothing is stored then.
    pub fn put(&mut self, atom: NewAtom) -> Result<usize, Error> {
        let at = self.positions.len();
        self.evaluator.make_ready(at);
        let s = self.evaluator.list.state();
        let (list, t) = (&mut self.evaluator.list, &mut self.evaluator.tables);
        let new = raw::NewAtom { position: atom.position.into(), velocity: atom.velocity.into(), mass: atom.mass, charge: atom.charge, species: atom.species };
        self.positions.push([0.0; 3]);
        self.velocities.push([0.0; 3]);
        self.masses.push(0.0);
        t.charges.push(0.0);
        t.species.push(0);
        #[rustfmt::skip]
        let r = raw::tyn_put(raw::atom(at), new, s, self.positions.as_flattened_mut(), self.velocities.as_flattened_mut(), &mut self.masses, &mut t.charges,
            &mut t.species);
        let done = r.done.of("tyn_put");
        if done.is_err() {
            self.positions.truncate(at);
            self.velocities.truncate(at);
            self.masses.truncate(at);
            t.charges.truncate(at);
            t.species.truncate(at);
        }
        done?;
        list.emptied(r.state, list.excluded_rows());
        self.evaluate()?;
        Ok(at)
    }

    /// One step of velocity Verlet; whether the list was built anew.
    pub fn step(&mut self, dt: f64, thermostat: Option<Berendsen>) -> Result<bool, Error> {
        self.evaluator.step(Motion {
            dt,
            thermostat,
            positions: &mut self.positions,
            velocities: &mut self.velocities,
            masses: &self.masses,
            forces: &mut self.forces,
            potential: &mut self.potential,
        })
    }

    /// Energy, forces and virial where the atoms are.
    pub fn evaluate(&mut self) -> Result<Contribution, Error> {
        let c = self.evaluator.evaluate(&self.positions)?;
        (self.forces, self.potential) = (c.forces.clone(), c.energy);
        Ok(c)
    }

    /// Where the atoms are.
    pub fn positions(&self) -> &[[f64; 3]] {
        &self.positions
    }

    /// Their velocities.
    pub fn velocities(&self) -> &[[f64; 3]] {
        &self.velocities
    }

    /// Their masses.
    pub fn masses(&self) -> &[f64] {
        &self.masses
    }

    /// The forces on them.
    pub fn forces(&self) -> &[[f64; 3]] {
        &self.forces
    }

    /// The potential energy.
    pub fn potential(&self) -> f64 {
        self.potential
    }

    /// Another cell from now on; the list is then built anew.
    pub fn set_cell(&mut self, cell: Option<Lattice>) {
        self.evaluator.cell = cell;
    }

    /// The pair list, the cell and the terms.
    pub fn evaluator(&self) -> &Evaluator {
        &self.evaluator
    }
}
