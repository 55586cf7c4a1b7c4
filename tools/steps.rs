//! The third part of crates/run_melts/stdout: the same runs by the Rust itself. tools/digests.rs and tools/evaluations.rs write the two parts before it.
//! With cell.rs, neighbor.rs, potentials.rs, virial.rs and verlet.rs of the Rust copied beside this file: rustc --edition 2021 -O steps.rs && ./steps
#[allow(dead_code)]
mod cell;
#[allow(dead_code)]
mod liquid;
#[allow(dead_code)]
mod neighbor;
#[allow(dead_code, unexpected_cfgs)]
mod potentials;
#[allow(dead_code)]
mod verlet;
#[allow(dead_code)]
mod virial;
/// The Rust's text lacks them: the oracle's bits.
#[allow(dead_code)]
mod units {
    pub const FORCE_TO_ACCEL: f64 = 9.648533212331e-3;
    pub const KB_EV_PER_K: f64 = 8.617333262e-5;
    pub const KE_COULOMB: f64 = 14.3996454784936;
    pub const EV_PER_A3_TO_GPA: f64 = 160.2176634;
}
use cell::Lattice;
use liquid::{digest, places, thirds, tilted, velocities, Liquid, Vec3};
use verlet::{temperature, verlet_step, Berendsen};

struct Run {
    liquid: Liquid,
    xs: Vec<Vec3>,
    vs: Vec<Vec3>,
    masses: Vec<f64>,
    forces: Vec<Vec3>,
    potential: f64,
}

impl Run {
    fn new(n: usize, side: usize, shift: bool, cell: Lattice) -> Self {
        let mut liquid = Liquid::new(n, shift, cell);
        let xs = places(side, 3.5, n);
        let (_, t) = liquid.evaluate(&xs);
        Self { liquid, xs, vs: velocities(-0.0078125, 0.015625, n), masses: thirds([16.0, 12.0, 14.0], n), forces: t.forces, potential: t.energy }
    }

    /// A step; where the list outgrows the room, the line of a stop, which the program makes and finishes.
    fn step(&mut self, k: usize, room: usize) {
        let liquid = &mut self.liquid;
        let before = liquid.list.pairs().len();
        let heat = Some(Berendsen { target_k: 300.0, tau_fs: 100.0 });
        verlet_step(1.0, heat, &mut self.xs, &mut self.vs, &self.masses, &mut self.forces, &mut self.potential, |x| {
            let (_, t) = liquid.evaluate(x);
            if before <= room && room < liquid.list.pairs().len() {
                println!("{k} 8 {} {} {}", liquid.list.pairs().len(), liquid.list.builds() - 1, digest(x));
            }
            (t.energy, t.forces)
        });
    }

    fn show(&self, step: usize) {
        let t = temperature(&self.vs, &self.masses, 3.0 * self.masses.len() as f64);
        print!("{step} 0 0 {} {} {:016x} {:016x}", self.liquid.list.builds(), self.liquid.list.pairs().len(), self.potential.to_bits(), t.to_bits());
        println!(" {} {} {}", digest(&self.xs), digest(&self.vs), digest(&self.forces));
    }
}

fn run(mut run: Run, count: usize, room: usize) {
    for k in 0..count {
        if [0, 1, 10, 100].contains(&k) {
            run.show(k);
        }
        run.step(k + 1, room);
    }
    run.show(count);
}

fn main() {
    run(Run::new(1000, 10, true, Lattice::cubic(35.0)), 1000, 20000);
    run(Run::new(216, 6, false, tilted(21.0)), 200, 3250);
    run(Run::new(16384, 26, true, Lattice::cubic(91.0)), 1, 240000);
    // one atom more: refusal 2 of both calls, nothing stopped, the potential as it came
    for _ in 0..2 {
        println!("2 16385 0 {}", 0.5f64.to_bits());
    }
}
