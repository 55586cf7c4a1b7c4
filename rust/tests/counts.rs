//! The boxes that a minimum image took off.
#[macro_use]
mod common;
use common::Rng;
use tyngyrlak::*;

fn skewed() -> Lattice {
    Lattice { a: [20.0, 0.0, 0.0], b: [6.0, 18.0, 0.0], c: [-4.0, 3.0, 22.0], periodic: [true; 3] }
}

tests! {
    fn each_word() {
        let cell = Lattice::cubic(10.0);
        let counted = |d, cell: &Lattice| min_image_counted(d, Some(cell)).unwrap();
        assert_eq!(counted([-9.5, 25.0, 0.5], &cell), ([0.5, -5.0, 0.5], Boxes::Counted([-1, 3, 0])));
        assert_eq!(min_image_counted([70.0, -70.0, 0.0], None), Ok(([70.0, -70.0, 0.0], Boxes::Counted([0; 3]))));
        let open = Lattice { periodic: [false, true, true], ..cell };
        assert_eq!(counted([70.0, 70.0, -0.0], &open), ([70.0, 0.0, 0.0], Boxes::Counted([0, 7, 0])));
        // 2^31 - 1 fits, 2^31 does not, -2^31 does
        let edge = 2f64.powi(31);
        let unit = Lattice::cubic(1.0);
        assert_eq!(counted([edge - 1.0, -edge, 0.0], &unit).1, Boxes::Counted([i32::MAX, i32::MIN, 0]));
        assert_eq!(counted([0.0, 0.0, edge], &unit).1, Boxes::NoFit);
        assert_eq!(counted([1e100, 0.0, 0.0], &Lattice { periodic: [false, true, true], ..unit }).1, Boxes::Counted([0; 3]));
        let flat = Lattice { a: [1.0, 0.0, 0.0], b: [2.0, 0.0, 0.0], c: [0.0, 0.0, 1.0], periodic: [false; 3] };
        assert_eq!(counted([3.0, 4.0, 5.0], &flat), ([3.0, 4.0, 5.0], Boxes::NoInverse));
        assert_eq!(min_image_counted([f64::NAN; 3], None).map_err(|e| (e.number, e.place)), Err((3, 0)));
    }

    // the difference is that of min_image, and with the counts it is what the original computes of them
    fn the_counts_give_the_difference() {
        let mut r = Rng(2);
        for cell in [Lattice::orthorhombic(11.0, 13.5, 7.25), skewed()] {
            for _ in 0..500 {
                let d = r.three(-90.0, 90.0);
                let (diff, boxes) = min_image_counted(d, Some(&cell)).unwrap();
                assert_eq!(diff, min_image(d, Some(&cell)).unwrap());
                let Boxes::Counted(n) = boxes else { panic!("{boxes:?}") };
                let by = if cell.is_orthorhombic().unwrap() {
                    let l = [cell.a[0], cell.b[1], cell.c[2]];
                    [0, 1, 2].map(|k| d[k] - l[k] * f64::from(n[k]))
                } else {
                    let s = cell.to_fractional(d).unwrap();
                    cell.to_cartesian([0, 1, 2].map(|k| s[k] - f64::from(n[k]))).unwrap()
                };
                assert_eq!(diff, by);
            }
        }
    }

    // a path that leaves the box again and again, folded at each step and unfolded by the counts
    fn a_path_is_unfolded() {
        let mut r = Rng(3);
        for cell in [Lattice::cubic(10.0), skewed()] {
            let (mut at, mut boxes) = ([1.0, 2.0, 3.0], [0i64; 3]);
            let mut folded = cell.wrap(at).unwrap();
            for _ in 0..300 {
                let step = r.three(-3.0, 3.0);
                at = [0, 1, 2].map(|k| at[k] + step[k]);
                let now = cell.wrap(at).unwrap();
                let Boxes::Counted(n) = min_image_counted([0, 1, 2].map(|k| now[k] - folded[k]), Some(&cell)).unwrap().1 else { panic!() };
                boxes = [0, 1, 2].map(|k| boxes[k] - i64::from(n[k]));
                folded = now;
            }
            let whole = cell.to_cartesian(boxes.map(|b| b as f64)).unwrap();
            for k in 0..3 {
                assert!((folded[k] + whole[k] - at[k]).abs() < 1e-9);
            }
            assert!(boxes != [0; 3]);
        }
    }
}
