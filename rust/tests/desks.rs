//! A desk's own species rows over a shared house table.
#[macro_use]
mod common;
use std::collections::HashMap;
use std::sync::Arc;
use tyngyrlak::*;

fn placed() -> (Vec<u32>, Vec<[f64; 3]>) {
    ((0..5).collect(), (0..5).map(|k| [3.7 * k as f64, 0.3 * k as f64, 0.0]).collect())
}

fn house() -> Arc<HashMap<u32, (f64, f64)>> {
    Arc::new(HashMap::from([(0, (0.0103, 3.4)), (2, (0.0141, 3.6))]))
}

tests! {
    fn a_row_of_the_desk_comes_before_the_house() {
        let (numbers, at) = placed();
        let desk = LennardJones { params: HashMap::from([(2, (0.02, 3.1)), (3, (0.01, 3.0))]), ..LennardJones::monatomic(0.0099, 3.3, 8.5) }.over(&house());
        let joined = HashMap::from([(0, (0.0103, 3.4)), (2, (0.02, 3.1)), (3, (0.01, 3.0))]);
        let one = LennardJones { params: joined, ..LennardJones::monatomic(0.0099, 3.3, 8.5) };
        let (a, b) = (desk.compute_all(&numbers, &at, None).unwrap(), one.compute_all(&numbers, &at, None).unwrap());
        assert_eq!((a.energy.to_bits(), a.forces), (b.energy.to_bits(), b.forces));
        assert_eq!([2, 0, 9].map(|z| desk.row(z).unwrap()), [(0.02, 3.1), (0.0103, 3.4), (0.0099, 3.3)]);
    }
}

tests! {
    fn taken_out_the_house_row_is_back() {
        let (numbers, at) = placed();
        let plain = LennardJones::monatomic(0.0099, 3.3, 8.5).over(&house());
        let mut desk = plain.clone();
        desk.params.insert(2, (0.02, 3.1));
        desk.params.remove(&2);
        let (a, b) = (desk.compute_all(&numbers, &at, None).unwrap(), plain.compute_all(&numbers, &at, None).unwrap());
        assert_eq!((a.energy.to_bits(), a.forces), (b.energy.to_bits(), b.forces));
    }
}

tests! {
    fn only_pairs_with_the_species_change() {
        let (numbers, at) = placed();
        let plain = LennardJones::monatomic(0.0099, 3.3, 8.5).over(&house());
        let mut desk = plain.clone();
        desk.params.insert(3, (0.02, 3.1));
        let energy = |lj: &LennardJones, pairs: &[(usize, usize)]| lj.compute_pairs(&numbers, &at, pairs, None).unwrap().energy;
        let (without, with) = ([(0, 1), (1, 2), (0, 2), (2, 4)], [(2, 3), (3, 4)]);
        assert_eq!(energy(&desk, &without).to_bits(), energy(&plain, &without).to_bits());
        for pair in with {
            assert_ne!(energy(&desk, &[pair]), energy(&plain, &[pair]));
        }
    }
}

tests! {
    fn an_evaluation_reads_both_tables() {
        let (numbers, at) = placed();
        let desk = LennardJones { params: HashMap::from([(2, (0.02, 3.1))]), ..LennardJones::monatomic(0.0099, 3.3, 8.5) }.over(&house());
        let one = LennardJones { params: HashMap::from([(0, (0.0103, 3.4)), (2, (0.02, 3.1))]), ..LennardJones::monatomic(0.0099, 3.3, 8.5) };
        let [a, b] = [desk, one].map(|lj| {
            let terms = Terms { lennard_jones: Some((lj, numbers.clone())), ..Default::default() };
            Evaluator::new(NeighborList::new(8.5, 1.0), &terms, None).evaluate(&at).unwrap()
        });
        assert_eq!((a.energy.to_bits(), a.forces), (b.energy.to_bits(), b.forces));
    }
}
