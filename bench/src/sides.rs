//! The two sides, the original and the library, as a user calls them.
use crate::data::{Data, Digest, CUTOFF, DT, SKIN, THERMOSTAT};
use crate::original::{cell as ocell, fire as ofire, neighbor as oneighbor, potentials as opotentials, verlet as overlet, virial as ovirial};
use std::hint::black_box;
use tyngyrlak::{fire, verlet_step, Contribution, Evaluator, FireOptions, Lattice, NeighborList};

/// What is timed: a repetition, and the digest of its answer. `reset` is called before each run of repetitions.
pub trait Side {
    fn reset(&mut self) {}
    fn rep(&mut self);
    fn digest(&self) -> u64;
}

pub type Sides<'a> = (Box<dyn Side + 'a>, Box<dyn Side + 'a>);

struct Plain<S, R, D>(S, R, D);

impl<S, R: FnMut(&mut S), D: Fn(&S) -> u64> Side for Plain<S, R, D> {
    fn rep(&mut self) {
        (self.1)(&mut self.0)
    }
    fn digest(&self) -> u64 {
        (self.2)(&self.0)
    }
}

pub fn plain<'a, S: 'a>(state: S, rep: impl FnMut(&mut S) + 'a, digest: impl Fn(&S) -> u64 + 'a) -> Box<dyn Side + 'a> {
    Box::new(Plain(state, rep, digest))
}

pub fn theirs(l: &Lattice) -> ocell::Lattice {
    ocell::Lattice { a: l.a, b: l.b, c: l.c, periodic: l.periodic }
}

/// A list of each side, not built.
fn lists(d: &Data, excluding: bool) -> (oneighbor::NeighborList, NeighborList) {
    let mut both = (oneighbor::NeighborList::new(CUTOFF, SKIN), NeighborList::new(CUTOFF, SKIN));
    if excluding {
        both.0.set_exclusions(d.exclusions.iter().copied());
        both.1.set_exclusions(d.exclusions.iter().copied());
    }
    both
}

fn built(d: &Data, excluding: bool) -> (oneighbor::NeighborList, NeighborList) {
    let mut both = lists(d, excluding);
    both.0.build(&d.positions, Some(&theirs(&d.cube)));
    both.1.build(&d.positions, Some(&d.cube)).expect("answered");
    both
}

pub fn of_list(pairs: &[(usize, usize)], checks: usize) -> u64 {
    Digest(checks as u64).word(pairs.len() as u64).pairs(pairs).0
}

fn of_their_term(c: &ovirial::Contribution) -> u64 {
    Digest(1).floats([&c.energy]).floats(c.forces.as_flattened()).floats(c.virial.as_flattened()).0
}

fn of_term(c: &Contribution) -> u64 {
    Digest(1).floats([&c.energy]).floats(c.forces.as_flattened()).floats(c.virial.as_flattened()).0
}

/// How many pairs the list has, and how many checks a build takes.
pub fn sizes(d: &Data, cell: &Lattice, excluding: bool) -> (usize, usize) {
    let mut l = lists(d, excluding).0;
    l.build(&d.positions, Some(&theirs(cell)));
    (l.pairs().len(), l.checks())
}

/// `pairs`: the list is also asked for its pairs, which the library copies then.
pub fn build<'a>(d: &'a Data, cell: &'a Lattice, excluding: bool, pairs: bool) -> Sides<'a> {
    let (a, b) = lists(d, excluding);
    let of = theirs(cell);
    let first = plain(
        a,
        move |l| {
            l.build(black_box(&d.positions), Some(&of));
            black_box(pairs.then(|| l.pairs().len()));
        },
        |l| of_list(l.pairs(), l.checks()),
    );
    let second = plain(
        b,
        move |l| {
            l.build(black_box(&d.positions), Some(cell)).expect("answered");
            black_box(pairs.then(|| l.pairs().len()));
        },
        |l| of_list(l.pairs(), l.checks()),
    );
    (first, second)
}

/// The positions, moved by so many of the velocities.
pub fn moved(d: &Data, by: f64) -> Vec<[f64; 3]> {
    d.positions.iter().zip(&d.velocities).map(|(p, v)| [0, 1, 2].map(|k| p[k] + by * v[k])).collect()
}

/// Positions a little off those of the list: no. The digest has the answer for positions far off, too.
pub fn rebuild_question(d: &Data) -> Sides<'_> {
    let (a, b) = built(d, false);
    let of = theirs(&d.cube);
    let (near, far) = ((moved(d, 100.0), moved(d, 100.0)), (moved(d, 1000.0), moved(d, 1000.0)));
    let first = plain(
        (a, true),
        move |(l, yes)| *yes = black_box(l).needs_rebuild(black_box(&near.0), Some(&of)),
        move |(l, yes)| Digest(1).word(*yes as u64).word(l.needs_rebuild(&far.0, Some(&of)) as u64).0,
    );
    let second = plain(
        (b, true),
        move |(l, yes)| *yes = black_box(l).needs_rebuild(black_box(&near.1), Some(&d.cube)).expect("answered"),
        move |(l, yes)| Digest(1).word(*yes as u64).word(l.needs_rebuild(&far.1, Some(&d.cube)).expect("answered") as u64).0,
    );
    (first, second)
}

/// `copied`: the library is handed `list.pairs()`, as the original is, in place of the list itself.
pub fn lennard_jones(d: &Data, copied: bool) -> Sides<'_> {
    let (a, b) = built(d, false);
    let (lj, of) = (their_lj(d), theirs(&d.cube));
    let first = plain(Default::default(), move |c| *c = lj.compute_pairs(&d.numbers, black_box(&d.positions), a.pairs(), Some(&of)), of_their_term);
    let run = move |c: &mut Contribution| {
        let (at, cell) = (black_box(&d.positions), Some(&d.cube));
        let r = if copied { d.lj.compute_pairs(&d.numbers, at, b.pairs(), cell) } else { d.lj.compute_pairs(&d.numbers, at, &b, cell) };
        *c = r.expect("answered");
    };
    (first, plain(Default::default(), run, of_term))
}

pub fn coulomb(d: &Data) -> Sides<'_> {
    let (a, b) = built(d, false);
    let (q, of) = (opotentials::Coulomb { cutoff: d.coulomb.cutoff }, theirs(&d.cube));
    let first = plain(Default::default(), move |c| *c = q.compute_pairs(&d.charges, black_box(&d.positions), a.pairs(), Some(&of)), of_their_term);
    let run = move |c: &mut Contribution| *c = d.coulomb.compute_pairs(&d.charges, black_box(&d.positions), &b, Some(&d.cube)).expect("answered");
    (first, plain(Default::default(), run, of_term))
}

pub fn bonds(d: &Data) -> Sides<'_> {
    let (hb, of) = (their_bonds(d), theirs(&d.cube));
    let first = plain(Default::default(), move |c| *c = hb.compute_all(&d.bonds, black_box(&d.positions), Some(&of)), of_their_term);
    let run = move |c: &mut Contribution| *c = d.hb.compute_all(&d.bonds, black_box(&d.positions), Some(&d.cube)).expect("answered");
    (first, plain(Default::default(), run, of_term))
}

/// `float::quick_root` in Rust, of a normal number above zero: an estimate by Newton's steps, confirmed in whole numbers; the machine's where it is not.
pub fn root(x: f64) -> f64 {
    const LEAD: u64 = 1 << 52;
    let (half, bits) = (0.5 * x, x.to_bits());
    let mut y = f64::from_bits(6910469410427058089 - bits / 2);
    for _ in 0..3 {
        y *= 1.5 - half * y * y;
    }
    let s = x * y;
    let s = (s + 0.5 * y * (x - s * s)).to_bits() % LEAD + LEAD;
    let odd = (bits / LEAD + 1) % 2;
    let v = (bits % LEAD + LEAD) << odd;
    let (a, b) = (s >> 26, s % (1 << 26));
    let p = a * a + (a * b >> 25);
    let q = ((a * b % (1 << 25)) << 27) + b * b;
    let d = v + (1 << 56) + 8 - p;
    let left = d % 16 * LEAD + (1 << 57) - (1 << 55) - q;
    let (up, down) = (((1 << 57) + s < left) as u64, (left + s <= 1 << 57) as u64);
    let near = (d / 16 == LEAD) & (left <= (1 << 57) + 2 + 3 * s) & ((1 << 57) + 2 < left + 3 * s);
    if near {
        f64::from_bits((bits / LEAD + 1023 - odd) / 2 * LEAD + s + up - down - LEAD)
    } else {
        x.sqrt()
    }
}

mod beside {
    use crate::original::cell::{min_image, vec3, Lattice};
    use crate::original::virial::Contribution;
    include!("../../rust/original_angles.rs");
}

fn their_angles(d: &Data, cell: &ocell::Lattice, root: impl Fn(f64) -> f64) -> ovirial::Contribution {
    let a = &d.angles;
    beside::over_angles(&a.triples, &a.per_angle, (a.k, a.rest), black_box(&d.positions), Some(cell), root, beside::cosine)
}

pub fn angles<'a>(d: &'a Data, root: impl Fn(f64) -> f64 + Copy + 'a) -> Sides<'a> {
    let of = theirs(&d.cube);
    let first = plain(Default::default(), move |c| *c = their_angles(d, &of, root), of_their_term);
    let run = move |c: &mut Contribution| *c = d.angles.compute_all(black_box(&d.positions), Some(&d.cube)).expect("answered");
    (first, plain(Default::default(), run, of_term))
}

pub fn their_lj(d: &Data) -> opotentials::LennardJones {
    opotentials::LennardJones { params: d.lj.params.clone(), default: d.lj.default, cutoff: d.lj.cutoff, shift: d.lj.shift }
}

fn their_bonds(d: &Data) -> opotentials::HarmonicBonds {
    opotentials::HarmonicBonds::uniform(d.hb.k, d.hb.r0)
}

/// The original's terms, merged in the evaluator's order.
struct TheirTerms<'a> {
    d: &'a Data,
    every: bool,
    lj: opotentials::LennardJones,
    q: opotentials::Coulomb,
    hb: opotentials::HarmonicBonds,
    cell: ocell::Lattice,
}

impl<'a> TheirTerms<'a> {
    fn new(d: &'a Data, every: bool) -> Self {
        Self { d, every, lj: their_lj(d), q: opotentials::Coulomb { cutoff: d.coulomb.cutoff }, hb: their_bonds(d), cell: theirs(&d.cube) }
    }

    fn run(&self, list: &mut oneighbor::NeighborList, at: &[[f64; 3]]) -> ovirial::Contribution {
        let (d, cell) = (self.d, Some(&self.cell));
        list.maybe_build(at, cell);
        let mut sum = ovirial::Contribution::zeros(d.n);
        sum.merge(&self.lj.compute_pairs(&d.numbers, at, list.pairs(), cell));
        if self.every {
            sum.merge(&self.q.compute_pairs(&d.charges, at, list.pairs(), cell));
            sum.merge(&self.hb.compute_all(&d.bonds, at, cell));
        }
        sum
    }
}

pub fn evaluator(d: &Data) -> Sides<'_> {
    let (a, b) = built(d, true);
    let terms = TheirTerms::new(d, true);
    let first = plain((a, Default::default()), move |(l, c)| *c = terms.run(l, black_box(&d.positions)), |s| of_their_term(&s.1));
    let eval = Evaluator::new(b, &d.terms(true), Some(d.cube));
    let run = move |(e, c): &mut (Evaluator, Contribution)| *c = e.evaluate(black_box(&d.positions)).expect("answered");
    (first, plain((eval, Default::default()), run, |s| of_term(&s.1)))
}

pub struct Motion<'a> {
    pub d: &'a Data,
    pub positions: Vec<[f64; 3]>,
    pub velocities: Vec<[f64; 3]>,
    forces: Vec<[f64; 3]>,
    potential: f64,
    pub start: (f64, Vec<[f64; 3]>),
}

impl<'a> Motion<'a> {
    pub fn new(d: &'a Data, start: (f64, Vec<[f64; 3]>)) -> Self {
        let (positions, velocities) = (d.positions.clone(), d.velocities.clone());
        Self { d, positions, velocities, forces: start.1.clone(), potential: start.0, start }
    }

    pub fn reset(&mut self) {
        self.positions.copy_from_slice(&self.d.positions);
        self.velocities.copy_from_slice(&self.d.velocities);
        (self.potential, self.forces) = self.start.clone();
    }

    fn digest(&self) -> u64 {
        let all = [&self.positions, &self.velocities, &self.forces].into_iter().flat_map(|x| x.as_flattened());
        Digest(1).floats([&self.potential]).floats(all).0
    }
}

/// Energy and forces at the start, by the original.
pub fn start(d: &Data, every: bool) -> (f64, Vec<[f64; 3]>) {
    let sum = TheirTerms::new(d, every).run(&mut lists(d, every).0, &d.positions);
    (sum.energy, sum.forces)
}

struct TheirStep<'a>(Motion<'a>, TheirTerms<'a>, oneighbor::NeighborList);
struct OurStep<'a>(Motion<'a>, Evaluator);

impl Side for TheirStep<'_> {
    fn reset(&mut self) {
        self.0.reset();
    }
    fn rep(&mut self) {
        let Self(m, terms, list) = self;
        let thermostat = THERMOSTAT.map(|t| overlet::Berendsen { target_k: t.target_k, tau_fs: t.tau_fs });
        overlet::verlet_step(DT, thermostat, &mut m.positions, &mut m.velocities, &m.d.masses, &mut m.forces, &mut m.potential, |at| {
            let sum = terms.run(list, at);
            (sum.energy, sum.forces)
        });
    }
    fn digest(&self) -> u64 {
        self.0.digest()
    }
}

impl Side for OurStep<'_> {
    fn reset(&mut self) {
        self.0.reset();
    }
    fn rep(&mut self) {
        let m = &mut self.0;
        verlet_step(DT, THERMOSTAT, &mut m.positions, &mut m.velocities, &m.d.masses, &mut m.forces, &mut m.potential, &mut self.1).expect("answered");
    }
    fn digest(&self) -> u64 {
        self.0.digest()
    }
}

/// `every` term, the exclusions with them, or Lennard-Jones alone. `kept`: with the skin, so that the list is kept; else no skin and a cutoff longer by
/// as much, so that each step builds the same list anew.
pub fn step(d: &Data, every: bool, kept: bool) -> Sides<'_> {
    let (a, b) = steps(d, every, kept);
    (Box::new(a), Box::new(b))
}

fn steps(d: &Data, every: bool, kept: bool) -> (TheirStep<'_>, OurStep<'_>) {
    let (mut a, mut b) = lists(d, every);
    if !kept {
        (a.cutoff, a.skin) = (CUTOFF + SKIN, 0.0);
        (b.cutoff, b.skin) = (CUTOFF + SKIN, 0.0);
    }
    let terms = TheirTerms::new(d, every);
    let start = terms.run(&mut a, &d.positions);
    let start = (start.energy, start.forces);
    let mut eval = Evaluator::new(b, &d.terms(every), Some(d.cube));
    eval.evaluate(&d.positions).expect("answered");
    (TheirStep(Motion::new(d, start.clone()), terms, a), OurStep(Motion::new(d, start), eval))
}

/// Iterations of a relaxation that is timed; the first evaluation comes on top of them.
pub const ITERATIONS: usize = 40;
/// A time step so short that the list is kept, and no tolerance.
const SETTLING: FireOptions = FireOptions { max_iters: ITERATIONS, force_tol: 0.0, dt: 0.125, dt_max: 0.125 };

struct TheirFire<'a>(TheirStep<'a>);
struct OurFire<'a>(OurStep<'a>);

impl Side for TheirFire<'_> {
    fn rep(&mut self) {
        let TheirStep(m, terms, list) = &mut self.0;
        m.reset();
        let FireOptions { max_iters, force_tol, dt, dt_max } = SETTLING;
        let opts = ofire::FireOptions { max_iters, force_tol, dt, dt_max };
        let r = ofire::fire(&mut m.positions, &mut m.velocities, &m.d.masses, &opts, |at| {
            let sum = terms.run(list, at);
            (sum.energy, sum.forces)
        });
        m.potential = r.energy;
    }
    fn digest(&self) -> u64 {
        self.0.digest()
    }
}

impl Side for OurFire<'_> {
    fn rep(&mut self) {
        let OurStep(m, eval) = &mut self.0;
        m.reset();
        m.potential = fire(&mut m.positions, &mut m.velocities, &m.d.masses, &SETTLING, eval).expect("answered").energy;
    }
    fn digest(&self) -> u64 {
        self.0.digest()
    }
}

/// A relaxation over a list that is kept.
pub fn settling(d: &Data, every: bool) -> Sides<'_> {
    let (a, b) = steps(d, every, true);
    (Box::new(TheirFire(a)), Box::new(OurFire(b)))
}

/// The library's own steps in Rust: the original has no clumps. Every pair is tested first; an atom points at itself or at a lower one of its clump.
fn labelled(rows: &[[u32; 2]], labels: &mut [u32]) -> Option<usize> {
    let n = labels.len() as u32;
    if rows.iter().any(|r| r[0] >= n || r[1] >= n) {
        return None;
    }
    for (i, l) in labels.iter_mut().enumerate() {
        *l = i as u32;
    }
    fn root(p: &mut [u32], i: u32) -> u32 {
        let mut at = i;
        let mut up = p[at as usize];
        while up < at {
            let over = p[up as usize];
            p[at as usize] = over;
            at = over;
            up = p[at as usize];
        }
        at
    }
    for r in rows {
        if labels[r[0] as usize] == labels[r[1] as usize] {
            continue;
        }
        let (x, y) = (root(labels, r[0]), root(labels, r[1]));
        labels[x.max(y) as usize] = x.min(y);
    }
    let mut clumps = 0;
    for i in 0..labels.len() {
        let up = labels[i] as usize;
        labels[i] = labels[up];
        clumps += (up == i) as usize;
    }
    Some(clumps)
}

/// How many pairs an atom [`clumps_at_random`] has: 800,000 of 16,000 atoms.
pub const RANDOM: usize = 50;

/// The clumps of the list, by its rows.
pub fn clumps(d: &Data) -> Sides<'_> {
    clumps_of(d, built(d, false).0.pairs().iter().map(|&(i, j)| [i as u32, j as u32]).collect())
}

/// .. and of atoms taken at random.
pub fn clumps_at_random(d: &Data) -> Sides<'_> {
    let mut seed = 7u64;
    let mut atom = || {
        seed = seed.wrapping_mul(6364136223846793005).wrapping_add(1442695040888963407);
        ((seed >> 33) % d.n as u64) as u32
    };
    clumps_of(d, (0..RANDOM * d.n).map(|_| [atom(), atom()]).collect())
}

fn clumps_of(d: &Data, rows: Vec<[u32; 2]>) -> Sides<'_> {
    let flat = rows.as_flattened().to_vec();
    let of = |s: &(Vec<u32>, usize)| s.0.iter().fold(Digest(s.1 as u64), |h, &l| h.word(l as u64)).0;
    let first = plain((vec![0; d.n], 0), move |s| s.1 = labelled(black_box(&rows), &mut s.0).expect("answered"), of);
    let second = plain((vec![0; d.n], 0), move |s| s.1 = tyngyrlak::clumps::label(black_box(&flat), &mut s.0).expect("answered"), of);
    (first, second)
}
