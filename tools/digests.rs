//! The first part of crates/run_melts/stdout: the same builds by the Rust itself. tools/evaluations.rs and tools/steps.rs write the two parts after it.
//! With cell.rs and neighbor.rs of the Rust copied beside this file: rustc -O digests.rs && ./digests
#[allow(dead_code)]
mod cell;
#[allow(dead_code)]
mod neighbor;
use cell::Lattice;
use neighbor::NeighborList;

fn next(s: u64) -> u64 {
    s % 2147483647 * 48271 % 2147483647
}

fn positions(n: usize, edge: f64) -> Vec<[f64; 3]> {
    let mut s = 1;
    let mut xs = vec![[0.0; 3]; n];
    for p in xs.iter_mut() {
        for x in p.iter_mut() {
            s = next(s);
            *x = ((s % 65536) as u32 as f64 / 65536.0 * 1.5 - 0.25) * edge;
        }
    }
    for k in (1..n).step_by(2) {
        for c in 0..3 {
            xs[k][c] = xs[k - 1][c] + 0.03125 * xs[k][c];
        }
    }
    xs
}

fn step(h: u64, x: usize) -> u64 {
    (h % 4294967291 * 1000003 + x as u64) % 4294967291
}

fn tilted(edge: f64) -> Lattice {
    Lattice {
        a: [edge, 0.0, 0.0],
        b: [edge / 8.0, edge, 0.0],
        c: [edge / -16.0, edge / 8.0, edge],
        periodic: [true; 3],
    }
}

fn build(cell: Option<&Lattice>, cutoff: f64, xs: &[[f64; 3]], excluded: bool) {
    let mut list = NeighborList::new(cutoff, 0.5);
    if excluded {
        list.set_exclusions((1..xs.len()).map(|k| (k - 1, k)));
    }
    list.build(xs, cell);
    let h = list.pairs().iter().fold(7, |h, &(i, j)| step(step(h, i), j));
    println!("0 0 {} {} {} {h}", list.pairs().len(), list.checks(), list.used_fallback() as u32);
}

fn main() {
    for (n, edge) in [(1000, 20.0), (4000, 32.0), (16000, 50.0)] {
        let xs = positions(n, edge);
        for cell in [Some(Lattice::cubic(edge)), Some(tilted(edge)), None] {
            build(cell.as_ref(), 2.5, &xs, false);
            build(cell.as_ref(), 2.5, &xs, true);
        }
        if n == 1000 {
            build(Some(&tilted(edge)), 7.0, &xs, true);
        }
    }
}
