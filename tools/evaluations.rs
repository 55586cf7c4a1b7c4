//! The second part of crates/run_melts/stdout: the same evaluations by the Rust itself. tools/digests.rs writes the part before it, tools/steps.rs the one after.
//! With cell.rs, neighbor.rs, potentials.rs and virial.rs of the Rust copied beside this file: rustc --edition 2021 -O evaluations.rs && ./evaluations
#[allow(dead_code)]
mod cell;
#[allow(dead_code)]
mod liquid;
#[allow(dead_code)]
mod neighbor;
#[allow(dead_code, unexpected_cfgs)]
mod potentials;
#[allow(dead_code)]
mod virial;
/// The Rust's text lacks them: the oracle's bits.
#[allow(dead_code)]
mod units {
    pub const FORCE_TO_ACCEL: f64 = 9.648533212331e-3;
    pub const KE_COULOMB: f64 = 14.3996454784936;
    pub const EV_PER_A3_TO_GPA: f64 = 160.2176634;
}
use cell::Lattice;
use liquid::{digest, moved, places, tilted, Liquid, Vec3};

fn evaluated(l: &mut Liquid, xs: &[Vec3]) {
    let (rebuilt, t) = l.evaluate(xs);
    print!("0 0 {} {} {} {} {:016x}", rebuilt as u32, l.list.pairs().len(), l.list.checks(), l.list.used_fallback() as u32, t.energy.to_bits());
    for w in t.virial.iter().flatten() {
        print!(" {:016x}", w.to_bits());
    }
    println!(" {}", digest(&t.forces));
}

fn main() {
    for (n, side) in [(1000, 10), (4000, 16), (16000, 26)] {
        let edge = 3.5 * side as f64;
        let mut xs = places(side, 3.5, n);
        for mut l in [Liquid::new(n, true, Lattice::cubic(edge)), Liquid::new(n, false, tilted(edge))] {
            for low in [-0.25, -0.25, 0.5] {
                evaluated(&mut l, &xs);
                moved(low, -2.0 * low, &mut xs);
            }
        }
    }
}
