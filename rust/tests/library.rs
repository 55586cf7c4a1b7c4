//! What the wrapper adds: rooms that grow, steps that are finished, refusals as errors.
#[macro_use]
mod common;
use common::{liquid, Rng};
use tyngyrlak::*;

fn refused<T: std::fmt::Debug>(r: Result<T, Error>) -> (u32, u64) {
    let e = r.expect_err("refused");
    assert!(e.to_string().contains(&format!("refusal {}, place {}: {}", e.number, e.place, e.words())), "{e}");
    (e.number, e.place)
}

/// 200 atoms that are all in reach of each other: 19,900 pairs, more than the first room has.
fn dense() -> Vec<[f64; 3]> {
    liquid(&mut Rng(7), 200, 12.0)
}

fn argon(n: usize) -> Terms {
    Terms { lennard_jones: Some((LennardJones::argon(), vec![18; n])), ..Default::default() }
}

tests! {
    fn the_room_for_pairs_grows() {
        let p = dense();
        let mut list = NeighborList::new(20.0, 1.0);
        assert!(list.needs_rebuild(&p, None).unwrap());
        list.build(&p, None).unwrap();
        assert_eq!((list.pairs().len(), list.checks(), list.builds()), (19_900, 19_900, 1));
        assert_eq!(list.pairs()[..3], [(0, 1), (0, 2), (0, 3)]);
        assert!(!list.needs_rebuild(&p, None).unwrap());
        assert!(!list.maybe_build(&p, None).unwrap());
        assert_eq!(list.pairs().len(), 19_900);
        let mut other = NeighborList::new(20.0, 1.0);
        assert!(other.maybe_build(&p, None).unwrap());
        assert_eq!((other.pairs(), other.builds_since(usize::MAX)), (list.pairs(), 2));
        other.build(&p[..1], None).unwrap();
        assert_eq!((other.pairs().len(), other.builds()), (0, 2));
    }

    fn a_step_is_finished_with_more_room() {
        let n = dense().len();
        let step = |eval: &mut Evaluator| {
            let (mut p, mut v, mut f) = (dense(), vec![[1e-3, 0.0, -1e-3]; n], vec![[0.01, 0.02, 0.03]; n]);
            let mut potential = 5.0;
            let thermostat = Some(Berendsen { target_k: 90.0, tau_fs: 100.0 });
            let rebuilt = verlet_step(1.0, thermostat, &mut p, &mut v, &vec![39.948; n], &mut f, &mut potential, eval).unwrap();
            (p, v, f, potential, rebuilt, eval.list.pairs().to_vec())
        };
        let narrow = step(&mut Evaluator::new(NeighborList::new(20.0, 0.0), &argon(n), None));
        let mut wide = Evaluator::new(NeighborList::new(20.0, 0.0), &argon(n), None);
        wide.evaluate(&dense()).unwrap();
        assert_eq!(narrow, step(&mut wide));
        assert!(narrow.4 && narrow.5.len() == 19_900);
    }

    fn a_step_that_stopped_goes_on() {
        let (mut p, mut v, masses) = (vec![[0.0; 3], [4.0, 0.0, 0.0], [900.0, 900.0, 900.0]], vec![[0.0; 3], [0.0; 3], [600.0; 3]], vec![40.0; 3]);
        let (mut f, mut potential) = (vec![[0.0; 3]; 3], 0.25);
        let mut eval = Evaluator::new(NeighborList::new(10.0, 30.0), &argon(3), None);
        let e = verlet_step(1.0, None, &mut p, &mut v, &masses, &mut f, &mut potential, &mut eval).unwrap_err();
        assert_eq!((e.number, e.place, e.stopped), (7, 0, true));
        assert_eq!((p[2], f[0], potential), ([1500.0; 3], [0.0; 3], 0.25));
        eval.list = NeighborList::new(10.0, 500.0);
        assert!(verlet_finish(1.0, None, &mut p, &mut v, &masses, &mut f, &mut potential, &mut eval).unwrap());
        assert!(p[2] == [1500.0; 3] && f[0][0] != 0.0 && f[0][0] == -f[1][0] && potential < 0.0);
    }

    fn refusals_are_errors() {
        let p = liquid(&mut Rng(8), 30, 12.0);
        let cell = Lattice::cubic(12.0);
        let mut list = NeighborList::new(3.0, 0.5);
        list.build(&p, Some(&cell)).unwrap();
        let kept = list.pairs().to_vec();
        assert_eq!(refused(list.build(&vec![[0.0; 3]; 16_385], None)), (2, 16_385));
        assert_eq!(refused(list.build(&[[f64::NAN, 0.0, 0.0]], None)), (3, 0));
        assert_eq!(refused(list.build(&p, Some(&Lattice::cubic(f64::INFINITY)))), (3, 0));
        assert_eq!(refused(NeighborList::new(1e-3, 0.0).build(&[[0.0; 3], [90.0; 3]], None)), (7, 0));
        assert_eq!(refused(NeighborList::new(-1.0, 0.0).build(&p, None)), (3, 0));
        assert_eq!(refused(NeighborList::new(1.0, f64::NAN).needs_rebuild(&p, None)), (3, 0));
        assert_eq!((list.pairs(), list.builds()), (&kept[..], 1));
        let lj = LennardJones::argon();
        assert_eq!(refused(lj.compute_pairs(&[0; 30], &p, &[(0, 1), (3, 30)], None)), (4, 1));
        assert_eq!(refused(lj.compute_pairs(&[0; 30], &p, &[(usize::MAX, 1)], None)), (4, 0));
        assert_eq!(refused(lj.compute_pairs(&[0; 29], &p, &list, None)), (1, 0));
        assert_eq!(refused(HarmonicBonds::uniform(f64::NAN, 1.0).compute(&[], &p, None)), (3, 0));
        assert_eq!(refused(min_image([f64::NAN; 3], None)), (3, 0));
        assert_eq!(refused(kinetic_energy(&p, &[1.0; 29])), (1, 0));
        assert_eq!(refused(kinetic_energy(&p, &[0.0; 30])), (3, 0));
        let mut sum = Contribution::zeros(1);
        assert_eq!(refused(sum.add_pair_force(0, 1, [0.0; 3], [0.0; 3])), (4, 0));
        assert_eq!(refused(sum.merge(&Contribution { energy: f64::NAN, ..Contribution::zeros(3) })), (3, 0));
        assert_eq!(sum, Contribution::zeros(1));
        let (mut v, mut f, mut potential) = (vec![[1e6; 3]; 30], vec![[0.0; 3]; 30], 0.0);
        let mut eval = Evaluator::new(list, &argon(30), Some(cell));
        let mut q = p.clone();
        assert_eq!(refused(verlet_step(2.0, None, &mut q, &mut v, &[1.0; 30], &mut f, &mut potential, &mut eval)), (3, 1));
        assert_eq!(q, p);
    }

    fn exclusions_are_a_set() {
        let mut list = NeighborList::new(3.0, -1.0);
        assert_eq!((list.skin, list.search_radius()), (0.0, Ok(3.0)));
        for (i, j) in [(5, 1), (1, 5), (2, 2), (0, 9), (usize::MAX, 1)] {
            list.exclude(i, j);
        }
        assert_eq!(list.exclusions(), [(1, 5), (0, 9)].into());
        list.set_exclusions([(4, 3), (3, 4), (7, 7), (0, 1)]);
        assert_eq!(list.exclusions(), [(3, 4), (0, 1)].into());
        list.exclude(1, 2);
        let p: Vec<[f64; 3]> = (0..4).map(|i| [i as f64, 0.0, 0.0]).collect();
        list.build(&p, None).unwrap();
        assert_eq!((list.pairs(), list.checks()), (&[(0, 2), (0, 3), (1, 3), (2, 3)][..], 4));
    }

    fn settling_starts_again_with_more_room() {
        // 200 atoms too far apart: they come closer, until more than the first room's 12,800 pairs are within the radius
        let apart = liquid(&mut Rng(9), 200, 26.0);
        let within = |radius: f64| {
            let mut list = NeighborList::new(radius, 0.0);
            list.build(&apart, None).unwrap();
            list.pairs().len()
        };
        let radius = (0..).map(|k| 17.0 + 0.01 * f64::from(k)).take_while(|&r| within(r) <= 12_800).last().unwrap();
        let settle = |eval: &mut Evaluator| {
            let (mut p, mut v) = (apart.clone(), vec![[1e-3, 0.0, -1e-3]; 200]);
            let r = fire(&mut p, &mut v, &[39.948; 200], &FireOptions { max_iters: 60, ..FireOptions::default() }, eval).unwrap();
            (p, v, r, eval.list.pairs().to_vec())
        };
        let narrow = settle(&mut Evaluator::new(NeighborList::new(radius, 0.0), &argon(200), None));
        let mut wide = Evaluator::new(NeighborList::new(radius, 0.0), &argon(200), None);
        wide.evaluate(&dense()).unwrap();
        assert_eq!(narrow, settle(&mut wide));
        assert!(narrow.2.iters == 60 && narrow.3.len() > 12_800);
    }

    fn settling_tells_its_iteration() {
        let (mut p, mut v, masses) = (vec![[0.0; 3], [4.0, 0.0, 0.0]], vec![[0.5; 3]; 2], vec![40.0; 2]);
        let mut eval = Evaluator::new(NeighborList::new(1e-3, 0.0), &argon(2), None);
        let far = [[0.0; 3], [90.0; 3]];
        let e = fire(&mut far.clone(), &mut v, &masses, &FireOptions::default(), &mut eval).unwrap_err();
        assert_eq!((e.number, e.iteration, e.stopped), (7, 0, false));
        assert_eq!(v, vec![[0.5; 3]; 2]);
        let mut eval = Evaluator::new(NeighborList::new(10.0, 1.0), &argon(2), None);
        let many = FireOptions { max_iters: 100_001, ..FireOptions::default() };
        assert_eq!(refused(fire(&mut p, &mut v, &masses, &many, &mut eval)), (3, 0));
        let far = FireOptions { dt: 1024.0, dt_max: 1024.0, ..FireOptions::default() };
        let mut near = vec![[0.0; 3], [0.5, 0.0, 0.0]];
        let e = fire(&mut near, &mut v, &masses, &far, &mut eval).unwrap_err();
        assert_eq!((e.number, e.place, e.iteration, e.stopped), (3, 1, 1, false));
        assert!(e.to_string().contains("in iteration 1"), "{e}");
        assert_eq!((near[1], v[1]), ([0.5, 0.0, 0.0], [0.0; 3]));
        let r = fire(&mut p, &mut v, &masses, &FireOptions::default(), &mut eval).unwrap();
        assert!(r.converged && r.iters <= 2000 && r.max_force <= 1e-4 && r.energy < 0.0);
        let at = eval.evaluate(&p).unwrap();
        assert_eq!(at.energy, r.energy);
        assert!(at.forces.iter().flatten().all(|c| c.abs() <= 1e-4));
    }
}
