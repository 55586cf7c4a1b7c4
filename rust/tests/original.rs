//! The library beside the Rust original: every float to the bit, every pair in its order.
#[macro_use]
mod common;

#[cfg(original)]
include!(concat!(env!("OUT_DIR"), "/original.rs"));

#[cfg(original)]
mod compare {
    pub use super::common::{liquid, Rng};
    pub use super::original::{cell as ocell, fire as ofire, neighbor as oneighbor, potentials as opotentials, verlet as overlet, virial as ovirial};
    pub use std::collections::HashMap;
    pub use tyngyrlak::*;

    pub fn theirs(l: &Lattice) -> ocell::Lattice {
        ocell::Lattice { a: l.a, b: l.b, c: l.c, periodic: l.periodic }
    }

    /// Bits, a not-a-number as one value.
    pub fn bits<'a>(xs: impl IntoIterator<Item = &'a f64>) -> Vec<u64> {
        xs.into_iter().map(|x| if x.is_nan() { f64::NAN.to_bits() } else { x.to_bits() }).collect()
    }

    pub fn same(what: &str, ours: &[f64], theirs: &[f64]) {
        assert_eq!(bits(ours), bits(theirs), "{what}");
    }

    pub fn same_term(what: &str, ours: &Contribution, theirs: &ovirial::Contribution) {
        same(what, &[ours.energy], &[theirs.energy]);
        same(what, ours.forces.as_flattened(), theirs.forces.as_flattened());
        same(what, ours.virial.as_flattened(), theirs.virial.as_flattened());
    }

    /// No cell, boxes, tilted cells, open axes, one that is mirrored and one that is flat.
    pub fn cells(edge: f64) -> Vec<Option<Lattice>> {
        let cube = Lattice::cubic(edge);
        let tilt = Lattice { b: [0.2 * edge, edge, 0.0], c: [-0.1 * edge, 0.15 * edge, 1.1 * edge], ..cube };
        vec![
            None,
            Some(cube),
            Some(Lattice::orthorhombic(edge, 1.25 * edge, 0.75 * edge)),
            Some(Lattice { periodic: [true, false, true], ..cube }),
            Some(tilt),
            Some(Lattice { periodic: [false, true, true], ..tilt }),
            Some(Lattice { a: [-edge, 0.0, 0.0], ..cube }),
            Some(Lattice { c: [edge, 0.0, 0.0], ..cube }),
        ]
    }

    pub fn same_list(what: &str, ours: &NeighborList, theirs: &oneighbor::NeighborList) {
        assert_eq!(ours.pairs(), theirs.pairs(), "{what}");
        assert_eq!(ours.checks(), theirs.checks(), "{what}");
        assert_eq!(ours.used_fallback(), theirs.used_fallback(), "{what}");
        assert_eq!(ours.builds(), theirs.builds(), "{what}");
    }

    /// Everything that the terms read, for n atoms.
    pub struct System {
        pub numbers: Vec<u32>,
        pub charges: Vec<f64>,
        pub bonds: Vec<(usize, usize)>,
        pub masses: Vec<f64>,
        pub lj: LennardJones,
        pub coulomb: Coulomb,
        pub hb: HarmonicBonds,
    }

    impl System {
        pub fn new(r: &mut Rng, n: usize) -> Self {
            let bonds = (0..n / 2).map(|i| (2 * i, 2 * i + 1)).collect();
            Self {
                numbers: (0..n).map(|_| r.below(4) as u32).collect(),
                charges: (0..n).map(|i| [0.05, -0.05, 0.0][i % 3]).collect(),
                bonds,
                masses: (0..n).map(|_| r.range(10.0, 40.0)).collect(),
                lj: LennardJones { params: HashMap::from([(2, (0.0141, 3.6)), (0, (0.0103, 3.4))]), ..LennardJones::monatomic(0.0099, 3.3, 8.5) },
                coulomb: Coulomb { cutoff: 9.0 },
                hb: HarmonicBonds { per_bond: vec![3.4; n / 4], per_bond_k: vec![0.25; n / 3], ..HarmonicBonds::uniform(0.5, 3.6) },
            }
        }

        pub fn terms(&self) -> Terms {
            Terms {
                lennard_jones: Some((self.lj.clone(), self.numbers.clone())),
                coulomb: Some((self.coulomb.clone(), self.charges.clone())),
                bonds: Some((self.hb.clone(), self.bonds.clone())),
                angles: None,
            }
        }

        pub fn their_lj(&self) -> opotentials::LennardJones {
            opotentials::LennardJones { params: self.lj.params.clone(), default: self.lj.default, cutoff: self.lj.cutoff, shift: self.lj.shift }
        }

        pub fn their_bonds(&self) -> opotentials::HarmonicBonds {
            let hb = &self.hb;
            opotentials::HarmonicBonds { k: hb.k, r0: hb.r0, per_bond: hb.per_bond.clone(), per_bond_k: hb.per_bond_k.clone() }
        }

        pub fn theirs(&self, p: &[[f64; 3]], list: &mut oneighbor::NeighborList, cell: Option<&ocell::Lattice>) -> ovirial::Contribution {
            list.maybe_build(p, cell);
            let mut sum = ovirial::Contribution::zeros(p.len());
            sum.merge(&self.their_lj().compute_pairs(&self.numbers, p, list.pairs(), cell));
            sum.merge(&opotentials::Coulomb { cutoff: self.coulomb.cutoff }.compute_pairs(&self.charges, p, list.pairs(), cell));
            sum.merge(&self.their_bonds().compute_all(&self.bonds, p, cell));
            sum
        }
    }
}
#[cfg(original)]
use compare::*;

compared! {
    // the folder's own units.rs, where it has one: TYNGYRLAK_UNITS gives the crate the same bits
    fn unit_constants() {
        use original::units::*;
        let ours = [units::FORCE_TO_ACCEL, units::KB_EV_PER_K, units::KE_COULOMB, units::EV_PER_A3_TO_GPA];
        same("units", &ours, &[FORCE_TO_ACCEL, KB_EV_PER_K, KE_COULOMB, EV_PER_A3_TO_GPA]);
    }

    fn cells_and_images() {
        let mut r = Rng(1);
        for cell in cells(20.0) {
            let of = cell.map(|c| theirs(&c));
            for _ in 0..200 {
                let d = r.three(-70.0, 70.0);
                same("min_image", &min_image(d, cell.as_ref()).unwrap(), &ocell::min_image(d, of.as_ref()));
                let (Some(c), Some(o)) = (cell, of) else { continue };
                same("wrap", &c.wrap(d).unwrap(), &o.wrap(d));
                same("to_fractional", &c.to_fractional(d).unwrap(), &o.to_fractional(d));
                same("to_cartesian", &c.to_cartesian(d).unwrap(), &o.to_cartesian(d));
            }
            let (Some(c), Some(o)) = (cell, of) else { continue };
            same("volume", &[c.volume().unwrap()], &[o.volume()]);
            same("perp_widths", &c.perp_widths().unwrap(), &o.perp_widths());
            same("matrix", c.matrix().as_flattened(), o.matrix().as_flattened());
            assert_eq!(c.is_orthorhombic().unwrap(), o.is_orthorhombic());
            let (ours, its) = (c.inverse().unwrap(), o.inverse());
            assert_eq!(ours.is_some(), its.is_some());
            if let (Some(x), Some(y)) = (ours, its) {
                same("inverse", x.as_flattened(), y.as_flattened());
            }
        }
    }

    fn lists() {
        let mut r = Rng(2);
        for n in [0, 1, 2, 60, 700] {
            let edge = 33.0;
            let mut p = liquid(&mut r, n, edge);
            for cell in cells(edge) {
                let of = cell.map(|c| theirs(&c));
                let (mut ours, mut its) = (NeighborList::new(7.0, 1.0), oneighbor::NeighborList::new(7.0, 1.0));
                for round in 0..2 {
                    let what = format!("{n} atoms, {cell:?}, round {round}");
                    ours.build(&p, cell.as_ref()).unwrap();
                    its.build(&p, of.as_ref());
                    same_list(&what, &ours, &its);
                    for moved in [0.1, 0.3, 0.9] {
                        p.iter_mut().flatten().for_each(|x| *x += r.range(-moved, moved));
                        assert_eq!(ours.needs_rebuild(&p, cell.as_ref()).unwrap(), its.needs_rebuild(&p, of.as_ref()), "{what}");
                        assert_eq!(ours.maybe_build(&p, cell.as_ref()).unwrap(), its.maybe_build(&p, of.as_ref()), "{what}");
                        same_list(&what, &ours, &its);
                    }
                    for _ in 0..n {
                        let (i, j) = (r.below(n + 3), r.below(n + 3));
                        ours.exclude(i, j);
                        its.exclude(i, j);
                    }
                    assert_eq!(&ours.exclusions(), its.exclusions());
                }
                same("radius", &[ours.search_radius().unwrap()], &[its.search_radius()]);
                let raw: Vec<(usize, usize)> = (0..n).map(|i| (i + 1, i)).chain([(3, 3), (0, 1)]).collect();
                ours.set_exclusions(raw.iter().copied());
                its.set_exclusions(raw.iter().copied());
                assert_eq!(&ours.exclusions(), its.exclusions());
                ours.build(&p, cell.as_ref()).unwrap();
                its.build(&p, of.as_ref());
                same_list("with other exclusions", &ours, &its);
            }
        }
    }

    fn terms() {
        let mut r = Rng(3);
        for n in [0, 1, 5, 400] {
            let edge = 27.0;
            let p = liquid(&mut r, n, edge);
            let mut s = System::new(&mut r, n);
            for (at, cell) in cells(edge).into_iter().enumerate() {
                s.lj.shift = at % 2 == 0;
                let (c, of) = (cell.as_ref(), cell.map(|c| theirs(&c)));
                let o = of.as_ref();
                let (mut ours, mut its) = (NeighborList::new(8.0, 1.0), oneighbor::NeighborList::new(8.0, 1.0));
                ours.build(&p, c).unwrap();
                its.build(&p, o);
                let (lj, q, hb) = (s.their_lj(), opotentials::Coulomb { cutoff: s.coulomb.cutoff }, s.their_bonds());
                let want = lj.compute_pairs(&s.numbers, &p, its.pairs(), o);
                same_term("lj", &s.lj.compute_pairs(&s.numbers, &p, &ours, c).unwrap(), &want);
                same_term("lj over pairs", &s.lj.compute_pairs(&s.numbers, &p, ours.pairs(), c).unwrap(), &want);
                same_term("lj_all", &s.lj.compute_all(&s.numbers, &p, c).unwrap(), &lj.compute_all(&s.numbers, &p, o));
                same("lj compute", &[s.lj.compute(&s.numbers, &p, c).unwrap().0], &[lj.compute(&s.numbers, &p, o).0]);
                let want = q.compute_pairs(&s.charges, &p, its.pairs(), o);
                same_term("coulomb", &s.coulomb.compute_pairs(&s.charges, &p, &ours, c).unwrap(), &want);
                same_term("coulomb over pairs", &s.coulomb.compute_pairs(&s.charges, &p, ours.pairs(), c).unwrap(), &want);
                same_term("coulomb_all", &s.coulomb.compute_all(&s.charges, &p, c).unwrap(), &q.compute_all(&s.charges, &p, o));
                same_term("bonds", &s.hb.compute_all(&s.bonds, &p, c).unwrap(), &hb.compute_all(&s.bonds, &p, o));
                let mut eval = Evaluator::new(ours, &s.terms(), cell);
                same_term("evaluate", &eval.evaluate(&p).unwrap(), &s.theirs(&p, &mut its, o));
            }
        }
    }

    fn sums_and_pressures() {
        let mut r = Rng(4);
        let (mut ours, mut its) = (Contribution::zeros(3), ovirial::Contribution::zeros(3));
        for n in [3, 2, 5, 4] {
            let other = Contribution { energy: r.range(-1.0, 1.0), forces: (0..n).map(|_| r.three(-1.0, 1.0)).collect(), virial: [(); 3].map(|()| r.three(-9.0, 9.0)) };
            ours.merge(&other).unwrap();
            its.merge(&ovirial::Contribution { energy: other.energy, forces: other.forces.clone(), virial: other.virial });
            same_term("merge", &ours, &its);
        }
        let (d, f) = (r.three(-5.0, 5.0), r.three(-5.0, 5.0));
        ours.add_pair_force(4, 1, d, f).unwrap();
        its.add_pair_force(4, 1, d, f);
        ours.virial_from_pair(f, d).unwrap();
        its.virial_from_pair(f, d);
        same_term("add_pair_force", &ours, &its);
        same("scalar_virial", &[ours.scalar_virial().unwrap()], &[its.scalar_virial()]);
        for volume in [1000.0, 0.0, -1.0] {
            same("pressure", &[pressure(2.0, 3.0, volume).unwrap()], &[ovirial::pressure(2.0, 3.0, volume)]);
            let (v, m) = (&ours.forces, [1.0, 2.0, 3.0, 4.0, 5.0]);
            let (x, y) = (pressure_tensor(v, &m, &ours.virial, volume).unwrap(), ovirial::pressure_tensor(v, &m, &its.virial, volume));
            same("pressure_tensor", x.as_flattened(), y.as_flattened());
        }
        same("to_gpa", &[to_gpa(0.0123).unwrap()], &[ovirial::to_gpa(0.0123)]);
        same("kinetic_energy", &[kinetic_energy(&ours.forces, &[2.5; 5]).unwrap()], &[overlet::kinetic_energy(&its.forces, &[2.5; 5])]);
        for dof in [15.0, 0.0] {
            same("temperature", &[temperature(&ours.forces, &[2.5; 5], dof).unwrap()], &[overlet::temperature(&its.forces, &[2.5; 5], dof)]);
        }
        apply_berendsen(2.0, Berendsen { target_k: 100.0, tau_fs: 50.0 }, &mut ours.forces, &[2.5; 5]).unwrap();
        overlet::apply_berendsen(2.0, overlet::Berendsen { target_k: 100.0, tau_fs: 50.0 }, &mut its.forces, &[2.5; 5]);
        same("berendsen", ours.forces.as_flattened(), its.forces.as_flattened());
    }

    fn steps() {
        let mut r = Rng(5);
        let (n, edge) = (300, 34.0);
        let s = System::new(&mut r, n);
        for cell in cells(edge).into_iter().take(6) {
            let of = cell.map(|c| theirs(&c));
            let mut p = liquid(&mut r, n, 1.0);
            let cart = Lattice::cubic(edge);
            p.iter_mut().for_each(|x| *x = cell.unwrap_or(cart).to_cartesian(*x).unwrap());
            let mut v: Vec<[f64; 3]> = (0..n).map(|_| r.three(-4e-3, 4e-3)).collect();
            let (mut op, mut ov) = (p.clone(), v.clone());
            let (mut ours, mut its) = (NeighborList::new(6.0, 0.3), oneighbor::NeighborList::new(6.0, 0.3));
            ours.set_exclusions(s.bonds.iter().copied());
            its.set_exclusions(s.bonds.iter().copied());
            let mut eval = Evaluator::new(ours, &s.terms(), cell);
            let start = eval.evaluate(&p).unwrap();
            let (mut f, mut pot) = (start.forces, start.energy);
            let want = s.theirs(&op, &mut its, of.as_ref());
            let (mut of_forces, mut opot) = (want.forces, want.energy);
            for step in 0..120 {
                let t = (step % 3 != 0).then_some((90.0, 40.0));
                let before = its.builds();
                let rebuilt = verlet_step(2.0, t.map(|(target_k, tau_fs)| Berendsen { target_k, tau_fs }), &mut p, &mut v, &s.masses, &mut f, &mut pot, &mut eval).unwrap();
                let thermostat = t.map(|(target_k, tau_fs)| overlet::Berendsen { target_k, tau_fs });
                overlet::verlet_step(2.0, thermostat, &mut op, &mut ov, &s.masses, &mut of_forces, &mut opot, |x| {
                    let c = s.theirs(x, &mut its, of.as_ref());
                    (c.energy, c.forces)
                });
                assert_eq!(rebuilt, its.builds() != before, "step {step}");
                same("potential", &[pot], &[opot]);
                same("positions", p.as_flattened(), op.as_flattened());
                same("velocities", v.as_flattened(), ov.as_flattened());
                same("forces", f.as_flattened(), of_forces.as_flattened());
            }
            same_list("after the steps", &eval.list, &its);
            assert!(its.builds() > 2, "the list is built anew on the way");
        }
    }

    // a packed box: every iteration, by as many limits, and to its end
    fn settlings() {
        let mut r = Rng(6);
        let (n, edge) = (120, 22.0);
        let s = System::new(&mut r, n);
        let defaults = ofire::FireOptions::default();
        let ours = FireOptions::default();
        assert_eq!((ours.max_iters, ours.force_tol, ours.dt, ours.dt_max), (defaults.max_iters, defaults.force_tol, defaults.dt, defaults.dt_max));
        for cell in cells(edge).into_iter().take(6) {
            let of = cell.map(|c| theirs(&c));
            let mut p = liquid(&mut r, n, 1.0);
            let cart = Lattice::cubic(edge);
            p.iter_mut().for_each(|x| *x = cell.unwrap_or(cart).to_cartesian(*x).unwrap());
            let v: Vec<[f64; 3]> = (0..n).map(|_| r.three(-1e-2, 1e-2)).collect();
            // where an axis is open atoms may fly off, and a grid that spans them all has too many cells (7)
            let closed = cell.is_some_and(|c| c.periodic == [true; 3]);
            for (max_iters, force_tol) in (0..24).map(|k| (k, 1e-4)).chain([(5, 100.0), (60, 1e-4), (1000, 0.02)]).filter(|o| o.0 < 24 || closed) {
                let (mut op, mut ov, mut p, mut v) = (p.clone(), v.clone(), p.clone(), v.clone());
                let (mut ours, mut its) = (NeighborList::new(6.0, 0.3), oneighbor::NeighborList::new(6.0, 0.3));
                ours.set_exclusions(s.bonds.iter().copied());
                its.set_exclusions(s.bonds.iter().copied());
                let mut eval = Evaluator::new(ours, &s.terms(), cell);
                let got = fire(&mut p, &mut v, &s.masses, &FireOptions { max_iters, force_tol, ..FireOptions::default() }, &mut eval).unwrap();
                let want = ofire::fire(&mut op, &mut ov, &s.masses, &ofire::FireOptions { max_iters, force_tol, ..defaults }, |x| {
                    let c = s.theirs(x, &mut its, of.as_ref());
                    (c.energy, c.forces)
                });
                let what = format!("{cell:?}, {max_iters} iterations to {force_tol}");
                assert_eq!((got.converged, got.iters), (want.converged, want.iters), "{what}");
                same(&what, &[got.energy, got.max_force], &[want.energy, want.max_force]);
                same(&what, p.as_flattened(), op.as_flattened());
                same(&what, v.as_flattened(), ov.as_flattened());
                same_list(&what, &eval.list, &its);
            }
        }
    }

    // 500 atoms to convergence, held against each iteration of the original: all of the first ones, then every STRIDE-th and the last
    fn a_packed_box_settles() {
        const STRIDE: usize = 10;
        let mut r = Rng(7);
        let (n, edge) = (500, 28.0);
        let (s, cell) = (System::new(&mut r, n), Lattice::cubic(edge));
        let of = theirs(&cell);
        let p = liquid(&mut r, n, edge);
        let mut its = oneighbor::NeighborList::new(8.5, 0.5);
        its.set_exclusions(s.bonds.iter().copied());
        let (mut op, mut ov) = (p.clone(), vec![[0.0; 3]; n]);
        // what the original's closure sees: positions, energy and forces of each iteration
        let mut seen = Vec::new();
        let opts = ofire::FireOptions { force_tol: 0.02, ..ofire::FireOptions::default() };
        let want = ofire::fire(&mut op, &mut ov, &s.masses, &opts, |x| {
            let c = s.theirs(x, &mut its, Some(&of));
            seen.push((x.to_vec(), c.energy, c.forces.iter().flatten().fold(0.0, |m: f64, f| m.max(f.abs())), its.builds()));
            (c.energy, c.forces)
        });
        assert!(want.converged && want.iters + 1 == seen.len() && its.builds() > 2, "{want:?}, {} builds", its.builds());
        for max_iters in (0..=want.iters).filter(|&k| k < 30 || k % STRIDE == 0 || k == want.iters) {
            let mut list = NeighborList::new(8.5, 0.5);
            list.set_exclusions(s.bonds.iter().copied());
            let mut eval = Evaluator::new(list, &s.terms(), Some(cell));
            let (mut q, mut v) = (p.clone(), vec![[0.5; 3]; n]);
            let got = fire(&mut q, &mut v, &s.masses, &FireOptions { max_iters, force_tol: 0.02, ..FireOptions::default() }, &mut eval).unwrap();
            let (x, energy, largest, builds) = &seen[max_iters];
            assert_eq!((got.iters, got.converged, eval.list.builds()), (max_iters, max_iters == want.iters, *builds));
            same("energy and force", &[got.energy, got.max_force], &[*energy, *largest]);
            same("positions", q.as_flattened(), x.as_flattened());
            if got.converged {
                same("velocities", v.as_flattened(), ov.as_flattened());
                same_list("after settling", &eval.list, &its);
            }
        }
    }
}
