//! The liquid of crates/run_melts over the Rust: what tools/evaluations.rs and tools/steps.rs share.
use crate::cell::Lattice;
use crate::neighbor::NeighborList;
use crate::potentials::{Coulomb, HarmonicBonds, LennardJones};
use crate::virial::Contribution;

pub type Vec3 = [f64; 3];

fn fraction(k: usize) -> f64 {
    let a = k % 65521;
    let h = a * 48271 % 65521;
    ((h * h + a) % 65521) as f64 / 65521.0
}

fn scattered(low: f64, width: f64, k: usize) -> f64 {
    low + width * fraction(k)
}

pub fn spread(low: f64, width: f64, n: usize) -> Vec<f64> {
    (0..n).map(|k| scattered(low, width, k)).collect()
}

pub fn velocities(low: f64, width: f64, n: usize) -> Vec<Vec3> {
    (0..n).map(|i| [0, 1, 2].map(|c| scattered(low, width, 3 * i + c))).collect()
}

pub fn places(side: usize, spacing: f64, n: usize) -> Vec<Vec3> {
    (0..n)
        .map(|i| {
            let site = [i % side, i / side % side, i / side / side % side];
            [0, 1, 2].map(|c| (site[c] as f64 - 2.0 + 0.25 * fraction(3 * i + c)) * spacing)
        })
        .collect()
}

pub fn moved(low: f64, width: f64, xs: &mut [Vec3]) {
    for (k, x) in xs.iter_mut().flatten().enumerate() {
        *x += scattered(low, width, k);
    }
}

pub fn thirds(t: [f64; 3], n: usize) -> Vec<f64> {
    (0..n).map(|k| t[k % 3]).collect()
}

pub fn links(n: usize) -> Vec<(usize, usize)> {
    (0..n / 3).flat_map(|m| [(3 * m, 3 * m + 1), (3 * m + 1, 3 * m + 2)]).collect()
}

pub fn tilted(edge: f64) -> Lattice {
    Lattice {
        a: [edge, 0.0, 0.0],
        b: [edge / 8.0, edge, 0.0],
        c: [edge / -16.0, edge / 8.0, edge],
        periodic: [true; 3],
    }
}

fn step(h: u64, x: u64) -> u64 {
    (h % 4294967291 * 1000003 + x) % 4294967291
}

pub fn digest(xs: &[Vec3]) -> u64 {
    xs.iter().flatten().fold(7, |h, x| step(step(h, x.to_bits() >> 32), x.to_bits() & 0xffffffff))
}

/// The terms and tables of one liquid, and its list.
pub struct Liquid {
    lj: LennardJones,
    bonds: HarmonicBonds,
    species: Vec<u32>,
    charges: Vec<f64>,
    links: Vec<(usize, usize)>,
    pub cell: Lattice,
    pub list: NeighborList,
}

impl Liquid {
    pub fn new(n: usize, shift: bool, cell: Lattice) -> Self {
        let mut list = NeighborList::new(6.0, 1.0);
        list.set_exclusions(links(n));
        Self {
            lj: LennardJones {
                params: [(1, (0.01, 3.0)), (3, (0.004, 3.3))].into(),
                default: (0.006, 3.1),
                cutoff: 6.0,
                shift,
            },
            bonds: HarmonicBonds { k: 1.5, r0: 3.5, per_bond: spread(3.0, 1.0, 300), per_bond_k: spread(1.0, 0.5, 200) },
            species: (0..n).map(|k| (k % 3 + 1) as u32).collect(),
            charges: thirds([-0.5, 0.25, 0.25], n),
            links: links(n),
            cell,
            list,
        }
    }

    /// The list brought up to date, then the three terms, each merged into zero; whether the list was built.
    pub fn evaluate(&mut self, xs: &[Vec3]) -> (bool, Contribution) {
        let cell = Some(&self.cell);
        let rebuilt = self.list.maybe_build(xs, cell);
        let pairs = self.list.pairs();
        let mut t = Contribution::zeros(xs.len());
        t.merge(&self.lj.compute_pairs(&self.species, xs, pairs, cell));
        t.merge(&Coulomb { cutoff: 5.5 }.compute_pairs(&self.charges, xs, pairs, cell));
        t.merge(&self.bonds.compute_all(&self.links, xs, cell));
        (rebuilt, t)
    }
}
