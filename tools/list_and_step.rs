//! What c/list_and_step.c must print, by the Rust itself.
//! With cell.rs, neighbor.rs, potentials.rs, virial.rs and verlet.rs of the Rust copied beside this file: rustc -O list_and_step.rs && ./list_and_step
#![allow(dead_code, unexpected_cfgs)]
mod cell;
mod neighbor;
mod potentials;
mod verlet;
mod virial;
mod units {
    pub const FORCE_TO_ACCEL: f64 = 9.648533212331e-3;
    pub const KB_EV_PER_K: f64 = 8.617333262e-5;
    pub const KE_COULOMB: f64 = 14.3996454784936;
    pub const EV_PER_A3_TO_GPA: f64 = 160.2176634;
}
use cell::{min_image, Lattice};
use neighbor::NeighborList;
use potentials::LennardJones;
use verlet::{kinetic_energy, temperature, verlet_step, Berendsen};

const SIDE: usize = 6;
const ATOMS: usize = SIDE * SIDE * SIDE;

fn show(what: &str, x: f64) {
    println!("{what:<12} {:016x}", x.to_bits());
}

fn shake(seed: &mut u32) -> f64 {
    *seed = seed.wrapping_mul(1664525).wrapping_add(1013904223);
    (*seed >> 8) as f64 / 16777216.0 - 0.5
}

fn main() {
    let (spacing, edge) = (3.8, SIDE as f64 * 3.8);
    let mut seed = 1;
    let mut xs = vec![[0.0; 3]; ATOMS];
    let mut vs = vec![[0.0; 3]; ATOMS];
    let masses = vec![39.948; ATOMS];
    for i in 0..ATOMS {
        let at = [i / (SIDE * SIDE), i / SIDE % SIDE, i % SIDE];
        for k in 0..3 {
            xs[i][k] = spacing * (at[k] as f64 + 0.5) + 0.4 * shake(&mut seed);
            vs[i][k] = 0.004 * shake(&mut seed);
        }
    }
    let cell = Lattice::cubic(edge);
    let mut list = NeighborList::new(5.0, 0.6);
    list.exclude(1, 0);
    show("radius", list.search_radius());
    show("image y", min_image([edge, 0.75 * edge, 0.0], Some(&cell))[1]);
    show("flag 7: y", min_image([edge, 0.75 * edge, 0.0], Some(&cell))[1]);
    list.build(&xs, Some(&cell));
    println!("64 rows are too few for {} pairs", list.pairs().len());
    let (i, j) = list.pairs()[0];
    println!("pairs {}, checks {}, fallback {}, builds {}, first {} {}", list.pairs().len(), list.checks(), list.used_fallback() as u32, list.builds(), i.min(j), i.max(j));
    let mut lj = LennardJones::monatomic(0.0103, 3.4, 5.0);
    lj.shift = true;
    let species = vec![0; ATOMS];
    let start = lj.compute_pairs(&species, &xs, list.pairs(), Some(&cell));
    show("potential", start.energy);
    show("virial xx", start.virial[0][0]);
    let mut potential = start.energy;
    let mut forces = start.forces;
    let mut rebuilt = false;
    verlet_step(2.0, Some(Berendsen { target_k: 120.0, tau_fs: 100.0 }), &mut xs, &mut vs, &masses, &mut forces, &mut potential, |xs| {
        rebuilt = list.maybe_build(xs, Some(&cell));
        let c = lj.compute_pairs(&species, xs, list.pairs(), Some(&cell));
        (c.energy, c.forces)
    });
    println!("stopped 0, rebuilt {}", rebuilt as u32);
    show("potential", potential);
    show("kinetic", kinetic_energy(&vs, &masses));
    show("temperature", temperature(&vs, &masses, 3.0 * ATOMS as f64));
    show("x of atom 0", xs[0][0]);
    show("force on 0", forces[0][0]);
}
