//! The inputs, the same for both sides: a liquid of 0.021 atoms an Å³ on a shaken grid, two species, charges of both signs, a bond for every two atoms,
//! an angle for every three, one exclusion an atom (each atom and the next).
use tyngyrlak::{Berendsen, CosineAngles, Coulomb, HarmonicBonds, Lattice, LennardJones, Terms};

pub struct Data {
    pub n: usize,
    pub positions: Vec<[f64; 3]>,
    pub velocities: Vec<[f64; 3]>,
    pub masses: Vec<f64>,
    pub charges: Vec<f64>,
    pub numbers: Vec<u32>,
    pub bonds: Vec<(usize, usize)>,
    pub exclusions: Vec<(usize, usize)>,
    pub cube: Lattice,
    pub tilted: Lattice,
    pub lj: LennardJones,
    pub coulomb: Coulomb,
    pub hb: HarmonicBonds,
    pub angles: CosineAngles,
}

pub const CUTOFF: f64 = 8.5;
pub const SKIN: f64 = 2.0;
pub const DT: f64 = 0.5;
pub const THERMOSTAT: Option<Berendsen> = None;

struct Rng(u64);

impl Rng {
    fn next(&mut self) -> u64 {
        self.0 = self.0.wrapping_add(0x9e3779b97f4a7c15);
        let mut z = self.0;
        z = (z ^ (z >> 30)).wrapping_mul(0xbf58476d1ce4e5b9);
        z = (z ^ (z >> 27)).wrapping_mul(0x94d049bb133111eb);
        z ^ (z >> 31)
    }

    fn range(&mut self, lo: f64, hi: f64) -> f64 {
        lo + (hi - lo) * ((self.next() >> 11) as f64 / (1u64 << 53) as f64)
    }
}

/// `shuffle`: the atoms in any order, else by their places.
pub fn data(n: usize, shuffle: bool) -> Data {
    let mut r = Rng(42 + n as u64);
    let edge = (n as f64 / 0.021).cbrt();
    let k = (n as f64).cbrt().ceil() as usize;
    let mut places: Vec<[usize; 3]> = (0..k * k * k).map(|i| [i / (k * k), i / k % k, i % k]).collect();
    while places.len() > n {
        places.remove((r.next() % places.len() as u64) as usize);
    }
    if shuffle {
        for i in (1..n).rev() {
            places.swap(i, (r.next() % (i as u64 + 1)) as usize);
        }
    }
    let a = edge / k as f64;
    let cube = Lattice::cubic(edge);
    Data {
        n,
        positions: places.iter().map(|p| p.map(|c| a * (c as f64 + 0.5 + r.range(-0.2, 0.2)))).collect(),
        velocities: (0..n).map(|_| [(); 3].map(|()| r.range(-2e-3, 2e-3))).collect(),
        masses: vec![39.948; n],
        charges: (0..n).map(|i| if i % 2 == 0 { 0.05 } else { -0.05 }).collect(),
        numbers: (0..n).map(|i| (i % 2) as u32).collect(),
        bonds: (0..n / 2).map(|i| (2 * i, 2 * i + 1)).collect(),
        exclusions: (0..n - 1).map(|i| (i, i + 1)).collect(),
        cube,
        tilted: Lattice { b: [0.02 * edge, edge, 0.0], c: [0.01 * edge, 0.015 * edge, edge], ..cube },
        lj: LennardJones { params: [(0, (0.0103, 3.4)), (1, (0.0141, 3.6))].into(), ..LennardJones::monatomic(0.0103, 3.4, CUTOFF) },
        coulomb: Coulomb { cutoff: CUTOFF },
        hb: HarmonicBonds::uniform(0.5, 3.6),
        angles: CosineAngles::uniform((0..n / 3).map(|i| (3 * i, 3 * i + 1, 3 * i + 2)).collect(), 4.1, -0.35),
    }
}

impl Data {
    pub fn terms(&self, every: bool) -> Terms {
        Terms {
            lennard_jones: Some((self.lj.clone(), self.numbers.clone())),
            coulomb: every.then(|| (self.coulomb.clone(), self.charges.clone())),
            bonds: every.then(|| (self.hb.clone(), self.bonds.clone())),
            angles: None,
        }
    }
}

/// A digest of everything that an answer holds.
pub struct Digest(pub u64);

impl Digest {
    pub fn word(self, w: u64) -> Self {
        Self((self.0 ^ w).wrapping_mul(0x100000001b3).rotate_left(17))
    }

    pub fn floats<'a>(self, xs: impl IntoIterator<Item = &'a f64>) -> Self {
        xs.into_iter().fold(self, |d, x| d.word(x.to_bits()))
    }

    pub fn pairs(self, pairs: &[(usize, usize)]) -> Self {
        pairs.iter().fold(self, |d, &(i, j)| d.word((i as u64) << 32 | j as u64))
    }
}
