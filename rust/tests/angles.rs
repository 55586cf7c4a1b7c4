//! Cosine angles. The original has none: its expressions stand here with an angle's energy and factor left open. With its own formula they are its
//! `HarmonicAngles` to the bit, and with the cosine's they are what the library answers.
#[macro_use]
mod common;
use tyngyrlak::*;

#[cfg(original)]
include!(concat!(env!("OUT_DIR"), "/original.rs"));

#[cfg(original)]
mod compare {
    pub use super::common::{liquid, Rng};
    use super::original::cell::{min_image, vec3, Lattice};
    pub use super::original::potentials::HarmonicAngles;
    pub use super::original::virial::Contribution;

    include!("../original_angles.rs");

    pub fn over(h: &HarmonicAngles, p: &[[f64; 3]], cell: Option<&Lattice>, of: impl Fn(f64, f64, f64) -> (f64, f64)) -> Contribution {
        over_angles(&h.triples, &h.per_angle, (h.k, h.theta0), p, cell, f64::sqrt, of)
    }

    pub fn bits(energy: f64, forces: &[[f64; 3]], virial: &[[f64; 3]; 3]) -> Vec<u64> {
        let all = [&[energy], forces.as_flattened(), virial.as_flattened()].concat();
        all.iter().map(|x| if x.is_nan() { f64::NAN.to_bits() } else { x.to_bits() }).collect()
    }

    /// Chains of three, with a straight one, a folded one and one whose first arm has no length.
    pub fn chains(r: &mut Rng) -> (Vec<[f64; 3]>, Vec<(usize, usize, usize)>) {
        let mut p = liquid(r, 60, 14.0);
        p.extend([[1.0, 1.0, 1.0], [1.7, 1.1, 0.4], [2.4, 1.2, -0.2], [1.35, 1.05, 0.7], [1.7, 1.1, 0.4]]);
        let mut triples: Vec<_> = (0..58).map(|i| (i, i + 1, i + 2)).collect();
        triples.extend([(60, 61, 62), (60, 61, 63), (64, 61, 0), (5, 9, 5)]);
        (p, triples)
    }
}

compared! {
    fn the_expressions_of_the_original() {
        use compare::*;
        let mut r = Rng(11);
        for round in 0..40 {
            let (p, triples) = chains(&mut r);
            let tilt = Lattice { b: [2.8, 14.0, 0.0], c: [-1.4, 2.1, 15.4], ..Lattice::cubic(14.0) };
            let cell = [None, Some(Lattice::cubic(14.0)), Some(tilt), Some(Lattice { periodic: [true, false, true], ..tilt })][round % 4];
            let per_angle: Vec<_> = (0..[0, 20, 62, 70][round / 4 % 4]).map(|_| (r.range(-5.0, 50.0), r.range(-1.0, 1.0))).collect();
            let ours = CosineAngles { per_angle: per_angle.clone(), ..CosineAngles::uniform(triples.clone(), 4.1, r.range(-1.0, 1.0)) };
            let h = HarmonicAngles { triples, k: ours.k, theta0: ours.rest, per_angle };
            let theirs = cell.map(|l| original::cell::Lattice { a: l.a, b: l.b, c: l.c, periodic: l.periodic });
            let harmonic = over(&h, &p, theirs.as_ref(), |k, theta0, c| {
                let d = c.acos() - theta0;
                (0.5 * k * d * d, k * d / (1.0 - c * c).sqrt().max(1e-9))
            });
            let said = h.compute_all(&p, theirs.as_ref());
            assert_eq!(bits(harmonic.energy, &harmonic.forces, &harmonic.virial), bits(said.energy, &said.forces, &said.virial), "round {round}");
            let want = over(&h, &p, theirs.as_ref(), cosine);
            let got = ours.compute_all(&p, cell.as_ref()).unwrap();
            assert_eq!(bits(got.energy, &got.forces, &got.virial), bits(want.energy, &want.forces, &want.virial), "round {round}");
            assert_eq!(ours.compute(&p, cell.as_ref()).unwrap(), (got.energy, got.forces));
        }
    }
}

tests! {
    fn angles_by_hand() {
        let right = [[1.0, 0.0, 0.0], [0.0; 3], [0.0, 2.0, 0.0]];
        let a = CosineAngles::uniform(vec![(0, 1, 2)], 8.0, -0.5);
        let c = a.compute_all(&right, None).unwrap();
        // the cosine is 0, so d = 0.5: the energy is 0.5 * 8 * 0.25, and the factor -4
        assert_eq!(c.energy, 1.0);
        assert_eq!(c.forces, [[0.0, -4.0, 0.0], [2.0, 4.0, 0.0], [-2.0, 0.0, 0.0]]);
        assert_eq!(a.compute(&right, None).unwrap(), (c.energy, c.forces));
        // a row of its own, at rest
        let rested = CosineAngles { per_angle: vec![(8.0, 0.0)], ..a.clone() };
        assert_eq!(rested.compute(&right, None).unwrap().0, 0.0);
        // across a face the arm is the nearest image
        let far = [[1.0, 0.0, 0.0], [0.0; 3], [0.0, 12.0, 0.0]];
        assert_eq!(a.compute(&far, Some(&Lattice::cubic(10.0))).unwrap().0, 1.0);
    }

    fn refusals_of_angles() {
        let p = [[1.0, 0.0, 0.0], [0.0; 3], [0.0, 2.0, 0.0]];
        let refused = |a: &CosineAngles| a.compute_all(&p, None).map_err(|e| (e.call, e.number, e.place)).unwrap_err();
        let good = CosineAngles::uniform(vec![(0, 1, 2), (2, 1, 0)], 8.0, -0.5);
        assert!(good.compute_all(&p, None).is_ok());
        let call = "tyn_angles_all";
        assert_eq!(refused(&CosineAngles { rest: 1.5, ..good.clone() }), (call, 3, 0));
        assert_eq!(refused(&CosineAngles { k: f64::NAN, ..good.clone() }), (call, 3, 0));
        assert_eq!(refused(&CosineAngles { per_angle: vec![(1.0, 0.0), (1.0, 0.0), (1.0, -1.1)], ..good.clone() }), (call, 3, 0));
        assert_eq!(refused(&CosineAngles { triples: vec![(0, 1, 2), (0, 1, 3)], ..good.clone() }), (call, 4, 1));
        assert_eq!(refused(&CosineAngles { triples: vec![(0, usize::MAX, 2)], ..good }), (call, 4, 0));
        let e = CosineAngles::uniform(vec![], 1.0, 0.0).compute_all(&vec![[0.0; 3]; 16_385], None).unwrap_err();
        assert_eq!((e.number, e.place), (2, 16_385));
    }
}
