//! LAMMPS on the same atoms, where `lmp` is installed: one process, the list built at every step, energy and virial summed at every step.
//! Its own times of list and pairs, for one listed pair. Its arithmetic is its own, so no digest is compared.
use crate::data::{Data, CUTOFF, SKIN};
use std::fmt::Write;
use std::process::Command;

const STEPS: usize = 40;

fn input(d: &Data, data: &str) -> String {
    let [(e0, s0), (e1, s1)] = [0, 1].map(|z| d.lj.params[&z]);
    format!(
        "units metal\natom_style atomic\nnewton on\natom_modify sort 0 0\nread_data {data}\nmass * 39.948\npair_style lj/cut {CUTOFF}\n\
         pair_modify shift yes mix arithmetic\npair_coeff 1 1 {e0} {s0}\npair_coeff 2 2 {e1} {s1}\nneighbor {SKIN} bin\n\
         neigh_modify every 1 delay 0 check no\nfix 1 all nve\ntimestep 1e-7\nthermo_style custom step temp pe press\nthermo 1\nrun {STEPS}\n"
    )
}

fn atoms(d: &Data) -> String {
    let l = d.cube.a[0];
    let mut s = format!("atoms\n\n{} atoms\n2 atom types\n0 {l} xlo xhi\n0 {l} ylo yhi\n0 {l} zlo zhi\n\nAtoms # atomic\n\n", d.n);
    for (i, (p, z)) in d.positions.iter().zip(&d.numbers).enumerate() {
        writeln!(s, "{} {} {} {} {}", i + 1, z + 1, p[0], p[1], p[2]).expect("a string takes all");
    }
    s
}

/// Nanoseconds of one build and of one sum over the pairs, or None where there is no `lmp`.
pub fn times(d: &Data) -> Option<(f64, f64)> {
    let folder = std::env::temp_dir().join(format!("tyngyrlak-lammps-{}", std::process::id()));
    std::fs::create_dir_all(&folder).ok()?;
    let (data, script) = (folder.join("atoms.data"), folder.join("in.pairs"));
    std::fs::write(&data, atoms(d)).ok()?;
    std::fs::write(&script, input(d, data.to_str()?)).ok()?;
    let run = Command::new("lmp").args(["-log", "none", "-in"]).arg(&script).env("OMP_NUM_THREADS", "1").output();
    std::fs::remove_dir_all(&folder).ok()?;
    let said = String::from_utf8(run.ok()?.stdout).ok()?;
    // "Pair    | 0.5432     | 0.5432  ..": seconds of all steps
    let of = |part: &str| said.lines().find(|l| l.starts_with(part) && l.contains('|'))?.split('|').nth(1)?.trim().parse::<f64>().ok();
    Some((of("Neigh")? * 1e9 / STEPS as f64, of("Pair")? * 1e9 / (STEPS + 1) as f64))
}
