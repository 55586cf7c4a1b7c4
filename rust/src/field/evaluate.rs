//! The evaluator, which stands where the original's step takes a closure: pair list and terms in one call of the library.
use super::cell::Lattice;
use super::fire::{fired, FireOptions, FireResult};
use super::neighbor::NeighborList;
use super::potentials::{CosineAngles, Coulomb, HarmonicBonds, LennardJones};
use super::units;
use super::verlet::Berendsen;
use super::virial::Contribution;
use crate::raw::{self, AngleTerm, BondTerm, CoulombTerm, LjTerm, Pace, Setting};
use crate::Error;

/// The terms of an [`Evaluator`], each absent or present with what it reads of the atoms.
#[derive(Debug, Clone, Default)]
pub struct Terms {
    /// Lennard-Jones, and the species number of each atom.
    pub lennard_jones: Option<(LennardJones, Vec<u32>)>,
    /// Coulomb, and the charge of each atom.
    pub coulomb: Option<(Coulomb, Vec<f64>)>,
    /// Bonds, and the two atoms of each.
    pub bonds: Option<(HarmonicBonds, Vec<(usize, usize)>)>,
    /// Angles, which have their atoms.
    pub angles: Option<CosineAngles>,
}

/// Brings its pair list up to date and runs its terms: Lennard-Jones, Coulomb, bonds, angles, each present one merged in this order into zero.
///
/// In the original's words: `list.maybe_build(positions, cell)`, or `list.build(positions, cell)` where the cell is not the one that the list was built in
/// ([`NeighborList::outdated`]), then `compute_pairs`, `compute_pairs`, `compute_all`, `compute_all`, each merged into
/// `Contribution::zeros(n)`.
#[derive(Debug, Clone)]
pub struct Evaluator {
    /// The pair list.
    pub list: NeighborList,
    /// The cell, if there is one.
    pub cell: Option<Lattice>,
    pub(super) tables: Tables,
}

/// The terms as the library takes them.
#[derive(Debug, Clone, Default)]
pub(super) struct Tables {
    /// With no cell: the evaluator's own stands in it while a call runs.
    setting: Setting,
    own_ids: Vec<u32>,
    own_params: Vec<f64>,
    ids: Vec<u32>,
    params: Vec<f64>,
    pub(super) species: Vec<u32>,
    pub(super) charges: Vec<f64>,
    pub(super) bonds: Vec<u32>,
    pub(super) lengths: Vec<f64>,
    pub(super) ks: Vec<f64>,
    pub(super) angles: Vec<u32>,
    pub(super) per_angle: Vec<f64>,
}

/// What a step reads and writes beside the evaluator.
pub(super) struct Motion<'a> {
    pub dt: f64,
    pub thermostat: Option<Berendsen>,
    pub positions: &'a mut [[f64; 3]],
    pub velocities: &'a mut [[f64; 3]],
    pub masses: &'a [f64],
    pub forces: &'a mut [[f64; 3]],
    pub potential: &'a mut f64,
}

impl Evaluator {
    /// An evaluator of the given terms over the given list and cell.
    pub fn new(list: NeighborList, terms: &Terms, cell: Option<Lattice>) -> Self {
        Self { list, cell, tables: Tables::of(terms) }
    }

    /// Other terms from now on.
    pub fn set_terms(&mut self, terms: &Terms) {
        self.tables = Tables::of(terms);
    }

    /// Energy, forces and virial at these positions.
    pub fn evaluate(&mut self, positions: &[[f64; 3]]) -> Result<Contribution, Error> {
        self.make_ready(positions.len());
        let mut forces = vec![[0.0; 3]; positions.len()];
        loop {
            let (setting, s) = (self.setting(), self.list.state());
            let (exclusions, room) = self.list.lent();
            let t = &self.tables;
            #[rustfmt::skip]
            let r = raw::tyn_evaluate(setting, s, &t.own_ids, &t.own_params, &t.ids, &t.params, &t.species, &t.charges, &t.bonds, &t.lengths, &t.ks, &t.angles, &t.per_angle, positions.as_flattened(),
                exclusions, &mut room.pairs, &mut room.references, &mut room.starts, &mut room.items, forces.as_flattened_mut());
            if !self.list.took(r.done, r.state) {
                return Contribution::of("tyn_evaluate", raw::Summed { done: r.done, sum: r.sum }, forces);
            }
        }
    }

    /// One step. Where the pairs did not fit after the drift it is finished with more room.
    pub(super) fn step(&mut self, m: Motion) -> Result<bool, Error> {
        self.make_ready(m.positions.len());
        let (setting, s) = (self.setting(), self.list.state());
        let (exclusions, room) = self.list.lent();
        let t = &self.tables;
        #[rustfmt::skip]
        let r = raw::tyn_step(setting, m.pace(), s, *m.potential, &t.own_ids, &t.own_params, &t.ids, &t.params, &t.species, &t.charges, &t.bonds, &t.lengths, &t.ks, &t.angles, &t.per_angle, m.masses,
            exclusions, m.positions.as_flattened_mut(), m.velocities.as_flattened_mut(), &mut room.pairs, &mut room.references, &mut room.starts,
            &mut room.items, m.forces.as_flattened_mut());
        if self.list.took(r.done, r.state) {
            return self.finish(m);
        }
        *m.potential = r.potential;
        stepped("tyn_step", r)
    }

    /// The rest of a step that stopped after its drift.
    pub(super) fn finish(&mut self, m: Motion) -> Result<bool, Error> {
        self.make_ready(m.positions.len());
        loop {
            let (setting, s) = (self.setting(), self.list.state());
            let (exclusions, room) = self.list.lent();
            let t = &self.tables;
            #[rustfmt::skip]
            let r = raw::tyn_finish(setting, m.pace(), s, *m.potential, &t.own_ids, &t.own_params, &t.ids, &t.params, &t.species, &t.charges, &t.bonds, &t.lengths, &t.ks, &t.angles, &t.per_angle, m.masses,
                exclusions, m.positions.as_flattened(), m.velocities.as_flattened_mut(), &mut room.pairs, &mut room.references, &mut room.starts,
                &mut room.items, m.forces.as_flattened_mut());
            if !self.list.took(r.done, r.state) {
                *m.potential = r.potential;
                return stepped("tyn_finish", r);
            }
        }
    }

    /// A relaxation. Where the pairs did not fit it starts again, with more room and all else as it came.
    pub(super) fn fire(&mut self, positions: &mut [[f64; 3]], velocities: &mut [[f64; 3]], masses: &[f64], opts: &FireOptions) -> Result<FireResult, Error> {
        self.make_ready(positions.len());
        let (list, p, v) = (self.list.clone(), positions.to_vec(), velocities.to_vec());
        let mut forces = vec![[0.0; 3]; positions.len()];
        loop {
            let (setting, s) = (self.setting(), self.list.state());
            let (exclusions, room) = self.list.lent();
            let t = &self.tables;
            #[rustfmt::skip]
            let r = raw::tyn_fire(opts.into(), setting, s, &t.own_ids, &t.own_params, &t.ids, &t.params, &t.species, &t.charges, &t.bonds, &t.lengths, &t.ks, &t.angles, &t.per_angle, masses,
                exclusions, positions.as_flattened_mut(), velocities.as_flattened_mut(), &mut room.pairs, &mut room.references, &mut room.starts,
                &mut room.items, forces.as_flattened_mut());
            if !self.list.took(r.done, r.state) {
                return fired(r);
            }
            let more = self.list.lent().1.pairs.len();
            self.list.clone_from(&list);
            self.list.lent().1.pairs.resize(more, 0);
            positions.copy_from_slice(&p);
            velocities.copy_from_slice(&v);
        }
    }

    /// The terms with the cell of now: both may have changed since the last call.
    fn setting(&self) -> Setting {
        Setting { cell: self.cell.as_ref().into(), ..self.tables.setting }
    }

    /// The library wants a species and a charge an atom also where the term that reads them is absent.
    pub(super) fn make_ready(&mut self, atoms: usize) {
        self.list.make_ready(atoms);
        let t = &mut self.tables;
        if t.setting.lj.present == 0 {
            t.species.resize(atoms, 0);
        }
        if t.setting.coulomb.present == 0 {
            t.charges.resize(atoms, 0.0);
        }
    }
}

impl Tables {
    fn of(terms: &Terms) -> Self {
        let mut t = Self { setting: Setting { units: units::RAW, ..Setting::default() }, ..Self::default() };
        if let Some((lj, numbers)) = &terms.lennard_jones {
            t.setting.lj = LjTerm { present: 1, lj: lj.numbers() };
            [(t.own_ids, t.own_params), (t.ids, t.params)] = lj.tables();
            t.species = numbers.clone();
        }
        if let Some((coulomb, charges)) = &terms.coulomb {
            t.setting.coulomb = CoulombTerm { present: 1, cutoff: coulomb.cutoff };
            t.charges = charges.clone();
        }
        if let Some((bonds, pairs)) = &terms.bonds {
            t.setting.bond = BondTerm { present: 1, bond: bonds.numbers() };
            (t.bonds, t.lengths, t.ks) = (raw::rows(pairs), bonds.per_bond.clone(), bonds.per_bond_k.clone());
        }
        if let Some(angles) = &terms.angles {
            t.setting.angle = AngleTerm { present: 1, angle: angles.numbers() };
            (t.angles, t.per_angle) = (raw::triple_rows(&angles.triples), angles.table());
        }
        t
    }
}

impl Motion<'_> {
    fn pace(&self) -> Pace {
        let thermostat = self.thermostat.map_or(raw::Thermostat::default(), |t| raw::Thermostat { present: 1, target_k: t.target_k, tau_fs: t.tau_fs });
        Pace { dt: self.dt, thermostat }
    }
}

fn stepped(call: &'static str, r: raw::Stepped) -> Result<bool, Error> {
    r.done.of(call).map_err(|e| Error { stopped: r.stopped != 0, ..e })?;
    Ok(r.rebuilt != 0)
}
