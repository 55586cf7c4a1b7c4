//! A third side: plain Rust at the same bits, as fast as it could be written (src/limit), in its ways, the fastest first. No part of the library.
use crate::data::{Data, Digest, CUTOFF, DT, SKIN, THERMOSTAT};
use crate::limit::{build, build::Way, pairs, step};
use crate::sides::{moved, of_list, plain, start, their_lj, theirs, Motion, Side};
use std::hint::black_box;
use tyngyrlak::Lattice;

pub type Limits<'a> = Vec<(&'static str, Box<dyn Side + 'a>)>;

/// The ways of the line, none where the limit has no such line.
pub fn limits<'a>(line: &str, d: &'a Data) -> Limits<'a> {
    match line {
        "build" => builds(d, &d.cube, false),
        "build, an exclusion an atom" => builds(d, &d.cube, true),
        "build, tilted" => builds(d, &d.tilted, false),
        "rebuild question" => vec![("blocks", rebuild_question(d))],
        "Lennard-Jones" => vec![("blocks", lennard_jones(d)), ("one loop", one_loop::<false>(d)), ("one loop, low atom's force held", one_loop::<true>(d))],
        "Coulomb" => roots([coulomb::<0>(d), coulomb::<3>(d), coulomb::<2>(d), coulomb::<1>(d)]),
        "bonds" => roots([bonds::<0>(d), bonds::<3>(d), bonds::<2>(d), bonds::<1>(d)]),
        "evaluator, every term" => {
            let mut all = vec![(ROOTS[0], evaluated::<0>(d, false)), (ROOTS[1], evaluated::<3>(d, false)), (ROOTS[2], evaluated::<2>(d, false))];
            all.push(("hardware root, each term its own walk", evaluated::<0>(d, true)));
            all
        }
        "step, list kept, Lennard-Jones" => steps(d, false, true),
        "step, list kept, every term" => steps(d, true, true),
        "step, list built, Lennard-Jones" => steps(d, false, false),
        "step, list built, every term" => steps(d, true, false),
        _ => vec![],
    }
}

/// The root's ways.
const ROOTS: [&str; 4] = ["hardware root", "Newton, Dekker's residue", "Newton, whole residue, checked", "table, digit by digit"];

fn roots<'a>(all: [Box<dyn Side + 'a>; 4]) -> Limits<'a> {
    ROOTS.into_iter().zip(all).collect()
}

fn new_list(d: &Data, cutoff: f64, skin: f64, excluding: bool) -> build::List {
    let mut l = build::List::new(cutoff, skin);
    if excluding {
        l.set_exclusions(d.n, &d.exclusions);
    }
    l
}

fn list(d: &Data, excluding: bool) -> build::List {
    let mut l = new_list(d, CUTOFF, SKIN, excluding);
    l.build(&d.positions, &theirs(&d.cube), Way::I16);
    l
}

fn of_sum(c: &pairs::Sum) -> u64 {
    Digest(1).floats([&c.energy]).floats(c.forces.as_flattened()).floats(c.virial.as_flattened()).0
}

fn builds<'a>(d: &'a Data, cell: &'a Lattice, excluding: bool) -> Limits<'a> {
    let (shift, select) = if std::ptr::eq(cell, &d.tilted) { (Way::TiltedShift, Way::Tilted) } else { (Way::Shift, Way::Select) };
    let ways = [("i16 filter", Way::I16), ("f32 filter", Way::F32), ("f64, shift of two bins", shift), ("f64, image by select", select)];
    let of = theirs(cell);
    let side = |(name, way)| {
        let l = new_list(d, CUTOFF, SKIN, excluding);
        (name, plain(l, move |l| l.build(black_box(&d.positions), &of, way), |l| of_list(&l.pairs(), l.checks)))
    };
    ways.map(side).into_iter().collect()
}

fn rebuild_question(d: &Data) -> Box<dyn Side + '_> {
    let (of, near, far) = (theirs(&d.cube), moved(d, 100.0), moved(d, 1000.0));
    plain(
        (list(d, false), true),
        move |(l, yes)| *yes = black_box(l).needs_rebuild(black_box(&near), &of),
        move |(l, yes)| Digest(1).word(*yes as u64).word(l.needs_rebuild(&far, &of) as u64).0,
    )
}

fn lennard_jones(d: &Data) -> Box<dyn Side + '_> {
    let (terms, l, of) = (pairs::Lj::new(&their_lj(d), &d.numbers), list(d, false), theirs(&d.cube));
    plain(Default::default(), move |c| pairs::lennard_jones::<true>(&terms, black_box(&d.positions), &l.rows, &of, c), of_sum)
}

fn one_loop<const HOLD: bool>(d: &Data) -> Box<dyn Side + '_> {
    let (terms, l, of) = (pairs::Lj::new(&their_lj(d), &d.numbers), list(d, false), theirs(&d.cube));
    plain(Default::default(), move |c| pairs::lennard_jones_plain::<HOLD>(&terms, black_box(&d.positions), &l.rows, &of, c), of_sum)
}

fn coulomb<const ROOT: u8>(d: &Data) -> Box<dyn Side + '_> {
    let (c, l, of) = (pairs::Charges::new(d.coulomb.cutoff, &d.charges), list(d, false), theirs(&d.cube));
    plain(Default::default(), move |s| pairs::coulomb::<ROOT>(&c, black_box(&d.positions), &l.rows, &of, s), of_sum)
}

fn bonds_of(d: &Data) -> pairs::Bonds<'_> {
    pairs::Bonds { k: d.hb.k, r0: d.hb.r0, per_bond: &d.hb.per_bond, per_bond_k: &d.hb.per_bond_k, bonds: &d.bonds }
}

fn bonds<const ROOT: u8>(d: &Data) -> Box<dyn Side + '_> {
    let of = theirs(&d.cube);
    plain(Default::default(), move |s| pairs::bonds::<ROOT>(&bonds_of(d), black_box(&d.positions), &of, s), of_sum)
}

fn evaluator(d: &Data, every: bool, list: build::List, way: Way, apart: bool) -> step::Evaluator<'_> {
    step::Evaluator {
        list,
        way,
        cell: theirs(&d.cube),
        lj: pairs::Lj::new(&their_lj(d), &d.numbers),
        charges: every.then(|| pairs::Charges::new(d.coulomb.cutoff, &d.charges)),
        bonds: every.then(|| bonds_of(d)),
        apart,
        both: Default::default(),
        bond_sum: Default::default(),
        sum: Default::default(),
    }
}

fn evaluated<const ROOT: u8>(d: &Data, apart: bool) -> Box<dyn Side + '_> {
    let e = evaluator(d, true, list(d, true), Way::I16, apart);
    plain(e, |e| e.evaluate::<ROOT, true>(black_box(&d.positions)), |e| of_sum(&e.sum))
}

struct Step<'a, const ROOT: u8, const VIRIAL: bool>(Motion<'a>, step::Evaluator<'a>);

impl<const ROOT: u8, const VIRIAL: bool> Side for Step<'_, ROOT, VIRIAL> {
    fn reset(&mut self) {
        self.0.reset();
        (self.1.sum.energy, self.1.sum.forces) = self.0.start.clone();
    }
    fn rep(&mut self) {
        let m = &mut self.0;
        step::step::<ROOT, VIRIAL>(DT, &mut m.positions, &mut m.velocities, &m.d.masses, &mut self.1);
    }
    fn digest(&self) -> u64 {
        let (m, s) = (&self.0, &self.1.sum);
        let all = [&m.positions, &m.velocities, &s.forces].into_iter().flat_map(|x| x.as_flattened());
        Digest(1).floats([&s.energy]).floats(all).0
    }
}

fn steps(d: &Data, every: bool, kept: bool) -> Limits<'_> {
    assert!(THERMOSTAT.is_none());
    fn one<const ROOT: u8, const VIRIAL: bool>(d: &Data, every: bool, kept: bool, way: Way) -> Box<dyn Side + '_> {
        let mut l = if kept { new_list(d, CUTOFF, SKIN, every) } else { new_list(d, CUTOFF + SKIN, 0.0, every) };
        l.build(&d.positions, &theirs(&d.cube), way);
        Box::new(Step::<ROOT, VIRIAL>(Motion::new(d, start(d, every)), evaluator(d, every, l, way, false)))
    }
    let mut all = vec![("with virial", one::<0, true>(d, every, kept, Way::I16)), ("no virial", one::<0, false>(d, every, kept, Way::I16))];
    if !kept {
        all.push(("f64 build, shift of two bins", one::<0, true>(d, every, kept, Way::Shift)));
    }
    if every {
        all.push((ROOTS[1], one::<3, true>(d, every, kept, Way::I16)));
        all.push((ROOTS[2], one::<2, true>(d, every, kept, Way::I16)));
    }
    all
}
