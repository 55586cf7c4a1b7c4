//! Times the Rust original and the library on the same inputs in one run and prints one table; exit status 1 where two answers differ.
//!
//! ```text
//! FIELD_SRC=.. cargo run --release -- [--n 1000,4000,16000] [--only WORD,WORD] [--line NAME] [--lines] [--rounds 9] [--shuffle]
//! [--side original|library|limit] [--limit] [--ways] [--lammps]
//! ```
//!
//! A time is the best of the rounds, in which the two sides take turns, by this thread's processor time. `--only` takes the lines that have one of the
//! words in their name, `--line` the one of that name, `--lines` lists the names. `--side` times one side alone, for a profile, or for instruction counts as the
//! difference of two runs with other `--rounds` (instructions.sh); its last column is how many units a repetition has.
//! `--limit` has a third side beside them, plain Rust at the same bits as fast as it could be written (src/limit), `--ways` each of its ways; `--lammps` adds
//! a table of LAMMPS on the same atoms, where `lmp` is installed.
mod clock;
mod data;
mod lammps;
#[allow(dead_code)] // its tests, and forms that no way takes
mod limit;
mod limits;
mod sides;
include!(concat!(env!("OUT_DIR"), "/original.rs"));

use data::{data, Data};
use sides::Sides;

/// A line of the table: its name, what one unit of its time is, and the ratio that is asked for at 16,000 atoms.
type Line = (&'static str, Unit, &'static str);

#[derive(Clone, Copy)]
enum Unit {
    Check,
    Atom,
    Pair,
    Bond,
    Angle,
    Random,
    Iteration,
}

const LINES: [Line; 20] = [
    ("build", Unit::Check, "0.07"),
    ("build, an exclusion an atom", Unit::Check, "0.04"),
    ("build, tilted", Unit::Check, "0.15"),
    ("build, then pairs()", Unit::Check, ""),
    ("rebuild question", Unit::Atom, "0.15"),
    ("Lennard-Jones", Unit::Pair, "0.2"),
    ("Lennard-Jones, handed pairs()", Unit::Pair, ""),
    ("Coulomb", Unit::Pair, "0.4"),
    ("bonds", Unit::Bond, "0.65"),
    ("angles", Unit::Angle, ""),
    ("angles, the same root on both sides", Unit::Angle, "1.3"),
    ("evaluator, every term", Unit::Pair, "0.25"),
    ("step, list kept, Lennard-Jones", Unit::Atom, "0.2"),
    ("step, list kept, every term", Unit::Atom, "0.28"),
    ("step, list built, Lennard-Jones", Unit::Atom, "0.1"),
    ("step, list built, every term", Unit::Atom, "0.1"),
    ("iteration, list kept, Lennard-Jones", Unit::Iteration, ""),
    ("iteration, list kept, every term", Unit::Iteration, ""),
    ("clumps, beside the same in Rust", Unit::Pair, "1.3"),
    ("clumps of 50 random pairs an atom", Unit::Random, "1.3"),
];

fn sides<'a>(line: &str, d: &'a Data) -> Sides<'a> {
    match line {
        "build" => sides::build(d, &d.cube, false, false),
        "build, an exclusion an atom" => sides::build(d, &d.cube, true, false),
        "build, tilted" => sides::build(d, &d.tilted, false, false),
        "build, then pairs()" => sides::build(d, &d.cube, false, true),
        "rebuild question" => sides::rebuild_question(d),
        "Lennard-Jones" => sides::lennard_jones(d, false),
        "Lennard-Jones, handed pairs()" => sides::lennard_jones(d, true),
        "Coulomb" => sides::coulomb(d),
        "bonds" => sides::bonds(d),
        "angles" => sides::angles(d, f64::sqrt),
        "angles, the same root on both sides" => sides::angles(d, sides::root),
        "evaluator, every term" => sides::evaluator(d),
        "step, list kept, Lennard-Jones" => sides::step(d, false, true),
        "step, list kept, every term" => sides::step(d, true, true),
        "step, list built, Lennard-Jones" => sides::step(d, false, false),
        "step, list built, every term" => sides::step(d, true, false),
        "iteration, list kept, Lennard-Jones" => sides::settling(d, false),
        "iteration, list kept, every term" => sides::settling(d, true),
        "clumps, beside the same in Rust" => sides::clumps(d),
        "clumps of 50 random pairs an atom" => sides::clumps_at_random(d),
        _ => unreachable!("every line is above"),
    }
}

fn units(line: &Line, d: &Data) -> usize {
    let cell = if line.0.contains("tilted") { &d.tilted } else { &d.cube };
    let (pairs, checks) = sides::sizes(d, cell, line.0.contains("exclusion") || line.0.contains("every term"));
    match line.1 {
        Unit::Check => checks,
        Unit::Atom => d.n,
        Unit::Pair => pairs,
        Unit::Bond => d.bonds.len(),
        Unit::Angle => d.angles.triples.len(),
        Unit::Random => sides::RANDOM * d.n,
        Unit::Iteration => sides::ITERATIONS * d.n,
    }
}

/// Nanoseconds of one repetition, out of `count` of them.
fn time(side: &mut dyn sides::Side, count: usize) -> f64 {
    side.reset();
    let start = clock::now();
    for _ in 0..count {
        side.rep();
    }
    (clock::now() - start) / count as f64
}

struct Options {
    sizes: Vec<usize>,
    only: Vec<String>,
    line: Option<String>,
    rounds: usize,
    shuffle: bool,
    side: Option<String>,
    /// The limit beside them, and each of its ways.
    limit: bool,
    ways: bool,
    lammps: bool,
}

impl Options {
    fn takes(&self, name: &str) -> bool {
        match &self.line {
            Some(line) => line == name,
            None => self.only.is_empty() || self.only.iter().any(|w| name.contains(w.as_str())),
        }
    }
}

fn options() -> Options {
    let args: Vec<String> = std::env::args().skip(1).collect();
    let get = |key: &str| args.iter().position(|a| a == key).and_then(|i| args.get(i + 1).cloned());
    let words = |key: &str| get(key).map(|s| s.split(',').map(String::from).collect::<Vec<_>>());
    Options {
        sizes: words("--n").map_or(vec![1000, 4000, 16000], |w| w.iter().map(|n| n.parse().expect("--n wants numbers")).collect()),
        only: words("--only").unwrap_or_default(),
        line: get("--line"),
        rounds: get("--rounds").map_or(9, |r| r.parse().expect("--rounds wants a number")),
        shuffle: args.iter().any(|a| a == "--shuffle"),
        side: get("--side"),
        limit: args.iter().any(|a| a == "--limit" || a == "--ways" || a == "limit"),
        ways: args.iter().any(|a| a == "--ways"),
        lammps: args.iter().any(|a| a == "--lammps"),
    }
}

/// The line's row at this size, and whether the two answers are equal.
fn row(line: &Line, d: &Data, o: &Options) -> bool {
    let (mut original, mut library) = sides(line.0, d);
    let mut limits = if o.limit { limits::limits(line.0, d) } else { vec![] };
    if !o.ways {
        limits.truncate(1);
    }
    if limits.is_empty() && o.side.as_deref() == Some("limit") {
        return true;
    }
    let of = |name: &str| o.side.as_deref().is_none_or(|s| s == name);
    // so many repetitions that a round takes some milliseconds; both sides make equally many, so that their answers can be compared
    let first = if o.side.is_some() { 1.0 } else { time(original.as_mut(), 1) };
    let count = if o.side.is_some() { 1 } else { (4e6 / first).clamp(1.0, 20.0) as usize };
    let (mut a, mut b, mut c) = (f64::INFINITY, f64::INFINITY, vec![f64::INFINITY; limits.len()]);
    for _ in 0..o.rounds {
        if of("original") {
            a = a.min(time(original.as_mut(), count));
        }
        if of("library") {
            b = b.min(time(library.as_mut(), count));
        }
        if of("limit") {
            for (c, l) in c.iter_mut().zip(&mut limits) {
                *c = c.min(time(l.1.as_mut(), count));
            }
        }
    }
    let each = units(line, d) as f64;
    let unit = match line.1 {
        Unit::Check => "check",
        Unit::Atom | Unit::Iteration => "atom",
        Unit::Pair | Unit::Random => "pair",
        Unit::Bond => "bond",
        Unit::Angle => "angle",
    };
    if o.side.is_some() {
        println!("| {} | {} | {unit} | {:.1} | {each} |", line.0, d.n, c.iter().fold(a.min(b), |m, c| m.min(*c)) / each);
        return true;
    }
    let (da, db) = (original.digest(), library.digest());
    let asked = if d.n == 16000 { line.2 } else { "" };
    let best = match c.first() {
        Some(c) => format!(" {:.1} | {:.2} |", c / each, b / c),
        None if o.limit => "  |  |".into(),
        None => String::new(),
    };
    println!("| {} | {} | {unit} | {:.1} | {:.1} | {:.2} | {asked} |{best} {da:016x} | {db:016x} |", line.0, d.n, a / each, b / each, b / a);
    for ((name, l), c) in limits.iter().zip(&c) {
        if o.ways {
            println!(
                "| {}: {name} | {} | {unit} | {:.1} | {:.1} | {:.2} | | {:.2} | {:.2} | | {:016x} |",
                line.0,
                d.n,
                a / each,
                b / each,
                b / a,
                c / each,
                b / c,
                l.digest()
            );
        }
    }
    da == db && limits.iter().all(|l| l.1.digest() == da)
}

/// The library's list and Lennard-Jones beside those of LAMMPS, a listed pair.
fn beside_lammps(d: &Data, rounds: usize) {
    let Some((list, pull)) = lammps::times(d) else { return println!("\nLAMMPS: no `lmp` that answers") };
    let pairs = sides::sizes(d, &d.cube, false).0 as f64;
    println!("\n| LAMMPS beside the library | atoms | listed pairs | LAMMPS, ns a pair | library, ns a pair | ratio | asked |\n|---|---|---|---|---|---|---|");
    for (name, line, theirs) in [("list, built at every step", "build", list), ("pairs, with energy and virial", "Lennard-Jones", pull)] {
        let mut library = sides(line, d).1;
        // so many that they take some seconds: a shared machine has slow ones
        let ours = (0..8 * rounds).map(|_| time(library.as_mut(), 5)).fold(f64::INFINITY, f64::min);
        println!("| {name} | {} | {pairs} | {:.1} | {:.1} | {:.2} | 0.8 |", d.n, theirs / pairs, ours / pairs, ours / theirs);
    }
}

fn main() {
    if std::env::args().any(|a| a == "--lines") {
        LINES.iter().for_each(|l| println!("{}", l.0));
        return;
    }
    let o = options();
    let columns = match &o.side {
        Some(side) => format!("| | atoms | unit | {side}, ns a unit | units |"),
        None => format!(
            "| | atoms | unit | original, ns a unit | library, ns a unit | ratio | asked |{} digest, original | digest, library |",
            if o.limit { " limit, ns a unit | library / limit |" } else { "" }
        ),
    };
    println!("{columns}\n{}|", "|---".repeat(columns.matches('|').count() - 1));
    let (mut rows, mut unequal) = (0, 0);
    for &n in &o.sizes {
        let d = data(n, o.shuffle);
        for line in LINES.iter().filter(|l| o.takes(l.0)) {
            rows += 1;
            if !row(line, &d, &o) {
                unequal += 1;
            }
        }
    }
    if o.side.is_some() {
        return;
    }
    if o.lammps {
        for &n in &o.sizes {
            beside_lammps(&data(n, o.shuffle), o.rounds);
        }
    }
    println!("\n{rows} lines, best of {} rounds: {}", o.rounds, if unequal == 0 { "all answers equal".into() } else { format!("{unequal} ANSWERS DIFFER") });
    std::process::exit((unequal != 0) as i32);
}
