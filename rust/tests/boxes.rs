//! The box belongs to the list: a cell that changed has the list built anew.
#[macro_use]
mod common;
use common::{liquid, Rng};
use tyngyrlak::*;

#[cfg(original)]
include!(concat!(env!("OUT_DIR"), "/original.rs"));

const EDGE: f64 = 30.0;

tests! {
    fn the_second_question() {
        let p = liquid(&mut Rng(1), 300, EDGE);
        let cube = Lattice::cubic(EDGE);
        let mut list = NeighborList::new(6.0, 1.0);
        assert!(list.outdated(&p, Some(&cube)).unwrap() && list.built_in().is_none());
        list.build(&p, Some(&cube)).unwrap();
        assert_eq!(list.built_in(), Some(cube));
        assert!(!list.outdated(&p, Some(&cube)).unwrap());
        let mut near = cube;
        near.b[1] = f64::from_bits(near.b[1].to_bits() + 1);
        let (minus, open) = (Lattice { a: [EDGE, -0.0, 0.0], ..cube }, Lattice { periodic: [true, true, false], ..cube });
        for other in [Some(&near), Some(&minus), Some(&open), None] {
            assert!(list.outdated(&p, other).unwrap() && !list.needs_rebuild(&p, other).unwrap());
        }
        assert!(!list.maybe_build(&p, Some(&near)).unwrap());
        assert_eq!(list.built_in(), Some(cube));
        list.build(&p, None).unwrap();
        assert!(list.built_in().is_none() && !list.outdated(&p, None).unwrap() && list.outdated(&p, Some(&cube)).unwrap());
    }

    fn an_evaluation_asks_it() {
        let p = liquid(&mut Rng(2), 300, EDGE);
        let terms = Terms { lennard_jones: Some((LennardJones::argon(), vec![18; 300])), ..Default::default() };
        let mut eval = Evaluator::new(NeighborList::new(6.0, 1.0), &terms, Some(Lattice::cubic(EDGE)));
        for builds in [1, 1] {
            eval.evaluate(&p).unwrap();
            assert_eq!(eval.list.builds(), builds);
        }
        for (edge, builds) in [(1.001 * EDGE, 2), (1.001 * EDGE, 2), (EDGE, 3)] {
            eval.cell = Some(Lattice::cubic(edge));
            eval.evaluate(&p).unwrap();
            assert_eq!((eval.list.builds(), eval.list.built_in()), (builds, eval.cell));
        }
    }
}

compared! {
    // 300 steps, the cell and the atoms scaled every 50, beside the original with a closure that builds where the cell differs
    fn steps_in_a_scaled_cell() {
        use original::{cell as ocell, neighbor as oneighbor, potentials as opotentials, verlet as overlet};
        let bits = |x: &[[f64; 3]]| x.as_flattened().iter().map(|x| x.to_bits()).collect::<Vec<_>>();
        let (mut r, n) = (Rng(3), 400);
        let mut p = liquid(&mut r, n, EDGE);
        let mut v: Vec<[f64; 3]> = (0..n).map(|_| r.three(-2e-3, 2e-3)).collect();
        let (mut op, mut ov) = (p.clone(), v.clone());
        let (masses, species, lj) = (vec![39.948; n], vec![18; n], LennardJones::monatomic(0.0104, 3.4, 6.0));
        let olj = opotentials::LennardJones::monatomic(0.0104, 3.4, 6.0);
        let terms = Terms { lennard_jones: Some((lj, species.clone())), ..Default::default() };
        let mut cell = Lattice::cubic(EDGE);
        let mut eval = Evaluator::new(NeighborList::new(6.0, 1.0), &terms, Some(cell));
        let mut list = oneighbor::NeighborList::new(6.0, 1.0);
        let mut built_in: Option<Lattice> = None;
        let (mut kept, mut forced) = (0, 0);
        let mut theirs = |x: &[[f64; 3]], cell: Lattice, list: &mut oneighbor::NeighborList| {
            let o = ocell::Lattice { a: cell.a, b: cell.b, c: cell.c, periodic: cell.periodic };
            let needs = list.needs_rebuild(x, Some(&o));
            let differs = built_in.map(|b| b != cell).unwrap_or(true);
            if needs || differs {
                list.build(x, Some(&o));
                built_in = Some(cell);
                forced += (!needs) as usize;
            } else {
                kept += 1;
            }
            let c = olj.compute_pairs(&species, x, list.pairs(), Some(&o));
            (c.energy, c.forces)
        };
        let start = eval.evaluate(&p).unwrap();
        let (mut f, mut potential) = (start.forces, start.energy);
        let (mut opotential, mut of) = theirs(&op, cell, &mut list);
        for step in 0..300 {
            if step % 50 == 25 {
                let by = if step % 100 == 25 { 1.0001 } else { 0.9997 };
                cell = Lattice { a: cell.a.map(|x| x * by), b: cell.b.map(|x| x * by), c: cell.c.map(|x| x * by), ..cell };
                [&mut p, &mut op].into_iter().for_each(|q| q.iter_mut().flatten().for_each(|x| *x *= by));
                eval.cell = Some(cell);
            }
            let before = list.builds();
            let rebuilt = verlet_step(2.0, None, &mut p, &mut v, &masses, &mut f, &mut potential, &mut eval).unwrap();
            overlet::verlet_step(2.0, None, &mut op, &mut ov, &masses, &mut of, &mut opotential, |x| theirs(x, cell, &mut list));
            assert_eq!(rebuilt, list.builds() != before, "step {step}");
            assert_eq!((bits(&p), bits(&v), bits(&f)), (bits(&op), bits(&ov), bits(&of)), "step {step}");
            assert_eq!(potential.to_bits(), opotential.to_bits(), "step {step}");
            assert_eq!((eval.list.pairs(), eval.list.checks()), (list.pairs(), list.checks()), "step {step}");
            assert_eq!(eval.list.built_in(), Some(cell));
        }
        assert!(forced > 3 && kept > 200, "{forced} forced, {kept} kept");
    }
}
