//! The mixing rules: rule 1 is the original's, rule 2 takes the root of the product of the sigmas (02, No. 10).
#[macro_use]
mod common;
use std::collections::HashMap;
use tyngyrlak::*;

const AT: [[f64; 3]; 3] = [[0.0; 3], [3.1, 1.2, -0.7], [-2.0, 2.5, 3.0]];

fn potential(mixing: Mixing) -> LennardJones {
    let params = HashMap::from([(1, (0.01, 2.0)), (2, (0.04, 4.5))]);
    LennardJones { params, ..LennardJones::monatomic(0.02, 3.0, 9.0) }.mixed_by(mixing)
}

tests! {
    fn each_rule_by_its_mixed_numbers() {
        let epsilon = (0.01f64 * 0.04).sqrt();
        for (mixing, sigma) in [(Mixing::HalfSum, 0.5 * (2.0 + 4.5)), (Mixing::Geometric, (2.0f64 * 4.5).sqrt())] {
            let two = potential(mixing).compute_all(&[1, 2], &AT[..2], None).unwrap();
            // one species with the mixed numbers, which mix to themselves
            let one = LennardJones::monatomic(epsilon, sigma, 9.0).compute_all(&[0, 0], &AT[..2], None).unwrap();
            assert_eq!((two.energy.to_bits(), two.forces), (one.energy.to_bits(), one.forces));
        }
    }
}

tests! {
    fn rule_one_is_the_default_and_equal_sigmas_agree() {
        assert_eq!((LennardJones::argon().mixing, Mixing::default()), (Mixing::HalfSum, Mixing::HalfSum));
        let same = |m| LennardJones::monatomic(0.02, 4.0, 9.0).mixed_by(m).compute_all(&[1, 2, 1], &AT, None).unwrap();
        assert_eq!(same(Mixing::HalfSum).energy.to_bits(), same(Mixing::Geometric).energy.to_bits());
        let other = |m| potential(m).compute_all(&[1, 2, 1], &AT, None).unwrap().energy;
        assert_ne!(other(Mixing::HalfSum).to_bits(), other(Mixing::Geometric).to_bits());
    }
}

tests! {
    fn a_list_and_an_evaluator_mix_alike() {
        for mixing in [Mixing::HalfSum, Mixing::Geometric] {
            let lj = potential(mixing);
            let all = lj.compute_all(&[1, 2, 1], &AT, None).unwrap();
            let listed = lj.compute_pairs(&[1, 2, 1], &AT, &[(0, 1), (0, 2), (1, 2)], None).unwrap();
            let terms = Terms { lennard_jones: Some((lj, vec![1, 2, 1])), ..Default::default() };
            let seen = Evaluator::new(NeighborList::new(9.0, 1.0), &terms, None).evaluate(&AT).unwrap();
            assert_eq!([listed.energy.to_bits(), seen.energy.to_bits()], [all.energy.to_bits(); 2]);
            assert_eq!((&listed.forces, &seen.forces), (&all.forces, &all.forces));
        }
    }
}
