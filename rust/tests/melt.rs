//! A melt that atoms leave and join, held to the bit against a model that keeps whole records and builds everything anew from them.
#[macro_use]
mod common;
use common::{liquid, Rng};
use std::collections::HashMap;
use tyngyrlak::*;

const EDGE: f64 = 24.0;

/// An atom under a name that it keeps, whatever its number is now.
#[derive(Clone)]
struct Record {
    name: usize,
    atom: NewAtom,
}

/// Bonds and angles carry their own numbers, if they have any; exclusions are pairs of names.
#[derive(Clone, Default)]
struct Model {
    atoms: Vec<Record>,
    bonds: Vec<(usize, usize, Option<f64>, Option<f64>)>,
    angles: Vec<(usize, usize, usize, Option<(f64, f64)>)>,
    excluded: Vec<(usize, usize)>,
}

impl Model {
    /// Everything anew: numbers by the order of the records.
    fn evaluator(&self) -> Evaluator {
        let number: HashMap<usize, usize> = self.atoms.iter().enumerate().map(|(i, r)| (r.name, i)).collect();
        let bonds = HarmonicBonds {
            per_bond: self.bonds.iter().map_while(|b| b.2).collect(),
            per_bond_k: self.bonds.iter().map_while(|b| b.3).collect(),
            ..HarmonicBonds::uniform(0.4, 2.5)
        };
        let angles = CosineAngles {
            per_angle: self.angles.iter().map_while(|a| a.3).collect(),
            ..CosineAngles::uniform(self.angles.iter().map(|a| (number[&a.0], number[&a.1], number[&a.2])).collect(), 0.1, -0.4)
        };
        let terms = Terms {
            lennard_jones: Some((
                LennardJones { params: HashMap::from([(7, (0.004, 3.1))]), ..LennardJones::monatomic(0.01, 3.4, 7.0) },
                self.of(|a| a.species),
            )),
            coulomb: Some((Coulomb { cutoff: 7.0 }, self.of(|a| a.charge))),
            bonds: Some((bonds, self.bonds.iter().map(|b| (number[&b.0], number[&b.1])).collect())),
            angles: Some(angles),
        };
        let mut list = NeighborList::new(7.0, 1.0);
        list.set_exclusions(self.excluded.iter().map(|p| (number[&p.0], number[&p.1])));
        Evaluator::new(list, &terms, Some(Lattice::cubic(EDGE)))
    }

    fn of<T>(&self, f: impl Fn(&NewAtom) -> T) -> Vec<T> {
        self.atoms.iter().map(|r| f(&r.atom)).collect()
    }

    fn strike(&mut self, gone: &[usize]) {
        let stays = |n: &usize| !gone.contains(n);
        self.atoms.retain(|r| stays(&r.name));
        self.bonds.retain(|b| stays(&b.0) && stays(&b.1));
        self.angles.retain(|a| stays(&a.0) && stays(&a.1) && stays(&a.2));
        self.excluded.retain(|p| stays(&p.0) && stays(&p.1));
    }
}

fn melt(n: usize, r: &mut Rng) -> Model {
    let mut m = Model::default();
    for (name, position) in liquid(r, n, EDGE).into_iter().enumerate() {
        let atom =
            NewAtom { position, velocity: r.three(-0.002, 0.002), mass: r.range(12.0, 40.0), charge: r.range(-0.1, 0.1), species: 7 * (name as u32 % 2) };
        m.atoms.push(Record { name, atom });
    }
    for i in (0..n - 2).step_by(3) {
        // the first ones have numbers of their own
        let own = i < n / 2;
        m.bonds.push((i, i + 1, own.then(|| r.range(2.0, 3.0)), own.then(|| r.range(0.2, 0.6))));
        m.bonds.push((i + 1, i + 2, own.then(|| r.range(2.0, 3.0)), own.then(|| r.range(0.2, 0.6))));
        m.angles.push((i, i + 1, i + 2, own.then(|| (r.range(0.05, 0.2), r.range(-0.9, 0.2)))));
        m.excluded.extend([(i, i + 1), (i + 1, i + 2), (i, i + 2)]);
    }
    m
}

/// The freest of some random places, so that an atom that is put there overlaps with none.
fn free(r: &mut Rng, there: &[[f64; 3]]) -> [f64; 3] {
    let across = |d: f64| d - EDGE * (d / EDGE).round();
    let gap = |at: &[f64; 3]| there.iter().map(|p| (0..3).map(|k| across(p[k] - at[k]).powi(2)).sum::<f64>()).fold(f64::INFINITY, f64::min);
    let places: Vec<[f64; 3]> = (0..500).map(|_| r.three(0.0, EDGE)).collect();
    places.into_iter().max_by(|a, b| gap(a).total_cmp(&gap(b))).unwrap()
}

fn bits(xs: &[[f64; 3]]) -> Vec<u64> {
    xs.as_flattened().iter().map(|x| x.to_bits()).collect()
}

tests! {
    fn two_hundred_steps_with_strikes_and_new_atoms() {
        let mut r = Rng(11);
        let mut model = melt(150, &mut r);
        let mut melt = Melt::new(model.evaluator(), model.of(|a| a.position), model.of(|a| a.velocity), model.of(|a| a.mass)).unwrap();
        let mut eval = model.evaluator();
        let mut p = model.of(|a| a.position);
        let c = eval.evaluate(&p).unwrap();
        let (mut forces, mut potential) = (c.forces, c.energy);
        let mut names = 150;
        for step in 1..=200 {
            let (mut v, masses) = (model.of(|a| a.velocity), model.of(|a| a.mass));
            verlet_step(0.5, None, &mut p, &mut v, &masses, &mut forces, &mut potential, &mut eval).unwrap();
            for (rec, (p, v)) in model.atoms.iter_mut().zip(p.iter().zip(&v)) {
                (rec.atom.position, rec.atom.velocity) = (*p, *v);
            }
            melt.step(0.5, None).unwrap();
            assert_eq!(melt.potential().to_bits(), potential.to_bits(), "step {step}");
            assert_eq!((bits(melt.positions()), bits(melt.velocities())), (bits(&p), bits(&v)), "step {step}");
            if step % 20 == 0 {
                let marks: Vec<bool> = model.atoms.iter().map(|_| r.below(12) == 0).collect();
                let gone: Vec<usize> = model.atoms.iter().zip(&marks).filter(|x| *x.1).map(|x| x.0.name).collect();
                model.strike(&gone);
                let left = melt.strike(&marks).unwrap();
                assert_eq!((left.atoms, left.bonds, left.angles, left.exclusions), (model.atoms.len(), model.bonds.len(), model.angles.len(), model.excluded.len()));
                let place = free(&mut r, melt.positions());
                let atom = NewAtom { position: place, velocity: r.three(-0.002, 0.002), mass: 18.0, charge: 0.05, species: 7 };
                assert_eq!(melt.put(atom).unwrap(), model.atoms.len());
                model.atoms.push(Record { name: names, atom });
                names += 1;
                (eval, p) = (model.evaluator(), model.of(|a| a.position));
                let c = eval.evaluate(&p).unwrap();
                (forces, potential) = (c.forces, c.energy);
                assert_eq!(melt.masses(), &model.of(|a| a.mass)[..]);
                assert_eq!((melt.potential().to_bits(), bits(melt.forces())), (potential.to_bits(), bits(&forces)), "step {step}");
                assert_eq!(melt.evaluator().list.pairs(), eval.list.pairs());
                assert_eq!(melt.evaluator().list.exclusions(), eval.list.exclusions());
            }
        }
        assert!(melt.positions().len() < 150);
    }

    fn refusals_move_nothing() {
        let model = melt(30, &mut Rng(3));
        let mut melt = Melt::new(model.evaluator(), model.of(|a| a.position), model.of(|a| a.velocity), model.of(|a| a.mass)).unwrap();
        let before = melt.clone();
        assert_eq!(melt.strike(&[true; 29]).unwrap_err().number, 1);
        assert_eq!(melt.put(NewAtom { mass: 0.0, ..model.atoms[0].atom }).unwrap_err().number, 3);
        assert_eq!((bits(melt.positions()), bits(melt.velocities())), (bits(before.positions()), bits(before.velocities())));
        assert_eq!(melt.evaluator().list.exclusions(), before.evaluator().list.exclusions());
        melt.step(0.5, None).unwrap();
    }

    fn no_mark_strikes_nothing() {
        let model = melt(30, &mut Rng(5));
        let mut melt = Melt::new(model.evaluator(), model.of(|a| a.position), model.of(|a| a.velocity), model.of(|a| a.mass)).unwrap();
        let before = melt.clone();
        assert_eq!(melt.strike(&[false; 30]).unwrap().atoms, 30);
        assert_eq!((bits(melt.positions()), melt.masses()), (bits(before.positions()), before.masses()));
        assert_eq!(melt.potential().to_bits(), before.potential().to_bits());
        assert_eq!(melt.strike(&[true; 30]).unwrap(), Left::default());
    }
}
