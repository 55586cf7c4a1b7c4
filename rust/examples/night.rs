//! A night's run in small: reads a run description, steps through it with progress shown, and prints density, temperature and pressure.
//!
//! ```text
//! cargo run --release --example night -- examples/argon.run
//! ```
//!
//! Without a file it runs examples/argon.run. One thing a line, blank lines and what follows a `#` left out; Å, fs, eV, amu, K, e:
//!
//! ```text
//! cell LX LY LZ                    or nine numbers, the vectors a, b, c; without this line there is no cell
//! open x                           an axis that is not periodic
//! list CUTOFF SKIN
//! lj EPSILON SIGMA CUTOFF [RULE]   for a species that has no line of its own; shifted to 0 at the cutoff. RULE 1 mixes two sigmas by the half sum, as the
//!                                  original does and where none is given, 2 by the geometric mean
//! species NUMBER EPSILON SIGMA
//! coulomb CUTOFF
//! bonds K R0
//! bond I J                         also left out of the list
//! angles K REST                    cosine angles: force constant and rest cosine
//! angle I APEX K                   I and K are left out of the list, too
//! angle I APEX K STRENGTH REST     with numbers of its own: such angles come first
//! exclude I J
//! thermostat KELVIN TAU
//! settle COUNT TOLERANCE [SHOWN]   before the steps: at most so many iterations of FIRE, until no force component is past TOLERANCE; in rounds of SHOWN,
//!                                  each from rest and with a line of progress. The atoms' velocities stay
//! steps COUNT DT [SHOWN]           every so many steps a line of progress
//! atom MASS SPECIES CHARGE X Y Z [VX VY VZ]
//! grid NX NY NZ MASS SPECIES KELVIN      atoms spread evenly over the cell, with velocities of that temperature
//! read FILE [KELVIN]               atoms and cell of an extended XYZ file (its last frame); velocities of that temperature where it gives none
//! write FILE EVERY                 a trajectory in extended XYZ: at the start, every so many steps and at the end
//! shells COUNT [PER_ANGSTROM]      at each line of progress the pairs within the list's cutoff are counted by distance; a table at the end
//! slab LOW HIGH                    atoms whose z is outside are struck, with their bonds, angles and exclusions, whenever a line is shown
//! unfold                           at the end also the mean squared displacement, of paths that are folded at each step and unfolded by their boxes
//! ```
//!
//! A trajectory is written beside its name, as FILE.part, frame by whole frame, and gets its name when the run is done: nothing is half written. `python -m
//! tyngyrlak.plot` draws what a run prints.
#[path = "night/open.rs"]
mod open;
#[path = "night/shells.rs"]
mod shells;
#[path = "night/trajectory.rs"]
mod trajectory;
#[path = "night/xyz.rs"]
mod xyz;

use open::Open;
use shells::Counted;
use std::error::Error;
use std::process::ExitCode;
use std::time::Instant;
use trajectory::Trajectory;
use tyngyrlak::*;

/// g/cm³ in one amu/Å³.
const GRAMS: f64 = 1.66053906660;

#[derive(Default)]
struct Run {
    cell: Option<Lattice>,
    list: NeighborList,
    excluded: Vec<(usize, usize)>,
    lj: Option<LennardJones>,
    coulomb: Option<Coulomb>,
    bonds: Option<HarmonicBonds>,
    bonded: Vec<(usize, usize)>,
    angles: Option<CosineAngles>,
    thermostat: Option<Berendsen>,
    settle: Option<Settle>,
    steps: usize,
    dt: f64,
    shown: usize,
    masses: Vec<f64>,
    numbers: Vec<u32>,
    charges: Vec<f64>,
    positions: Vec<[f64; 3]>,
    velocities: Vec<[f64; 3]>,
    unfold: bool,
    /// The file that was read, and the trajectory: its file and how often.
    source: Option<String>,
    trajectory: Option<(String, usize)>,
    /// How many shells, and the whole numbers an Å.
    shells: Option<(usize, f64)>,
    slab: Option<[f64; 2]>,
}

/// How a fresh box is settled: the most iterations, the tolerance, and the iterations of a round.
struct Settle {
    most: usize,
    tolerance: f64,
    shown: usize,
}

/// An atom's path: where it began, where it was last seen in the cell, and how many boxes it has crossed since.
struct Path {
    start: [f64; 3],
    folded: [f64; 3],
    boxes: [i64; 3],
}

impl Path {
    fn new(cell: Option<&Lattice>, at: [f64; 3]) -> Result<Path, tyngyrlak::Error> {
        let folded = cell.map_or(Ok(at), |c| c.wrap(at))?;
        Ok(Path { start: folded, folded, boxes: [0; 3] })
    }

    fn seen(&mut self, cell: Option<&Lattice>, at: [f64; 3]) -> Result<(), Box<dyn Error>> {
        let now = cell.map_or(Ok(at), |c| c.wrap(at))?;
        match min_image_counted([0, 1, 2].map(|k| now[k] - self.folded[k]), cell)?.1 {
            Boxes::Counted(n) => self.boxes = [0, 1, 2].map(|k| self.boxes[k] - i64::from(n[k])),
            // where a cell has no inverse nothing is folded
            Boxes::NoInverse => {}
            Boxes::NoFit => return Err("a path crosses more boxes in a step than can be counted".into()),
        }
        self.folded = now;
        Ok(())
    }

    fn squared(&self, cell: Option<&Lattice>) -> Result<f64, tyngyrlak::Error> {
        let whole = cell.map_or(Ok([0.0; 3]), |c| c.to_cartesian(self.boxes.map(|b| b as f64)))?;
        Ok((0..3).map(|k| (self.folded[k] + whole[k] - self.start[k]).powi(2)).sum())
    }
}

/// Velocities of a temperature: each component is uniform with its variance; the seed is fixed, so that a run can be repeated.
fn shaken() -> impl FnMut(f64, f64) -> [f64; 3] {
    let mut seed = 1u32;
    move |kelvin, mass| {
        let width = (3.0 * units::KB_EV_PER_K * kelvin * units::FORCE_TO_ACCEL / mass).sqrt();
        [(); 3].map(|()| {
            seed = seed.wrapping_mul(1664525).wrapping_add(1013904223);
            width * ((seed >> 8) as f64 / 8388608.0 - 1.0)
        })
    }
}

fn main() -> ExitCode {
    match night() {
        Ok(()) => ExitCode::SUCCESS,
        Err(e) => {
            eprintln!("night: {e}");
            ExitCode::FAILURE
        }
    }
}

fn night() -> Result<(), Box<dyn Error>> {
    let path = std::env::args().nth(1).unwrap_or(concat!(env!("CARGO_MANIFEST_DIR"), "/examples/argon.run").into());
    let mut run = Run::default();
    for (at, line) in std::fs::read_to_string(&path).map_err(|e| format!("{path}: {e}"))?.lines().enumerate() {
        let words: Vec<&str> = line.split('#').next().unwrap_or("").split_whitespace().collect();
        if let Some((&what, rest)) = words.split_first() {
            run.read(what, rest).map_err(|e| format!("{path}, line {}: {e}", at + 1))?;
        }
    }
    run.go()
}

impl Run {
    fn read(&mut self, what: &str, words: &[&str]) -> Result<(), Box<dyn Error>> {
        if what == "open" {
            let axis = words.first().and_then(|w| "xyz".find(w)).ok_or("an axis is x, y or z")?;
            self.cell.as_mut().ok_or("there is no cell yet")?.periodic[axis] = false;
            return Ok(());
        }
        match (what, words) {
            ("read", &[file]) => return self.file(file, 0.0),
            ("read", &[file, kelvin]) => return self.file(file, kelvin.parse().map_err(|_| format!("`{kelvin}` is no temperature"))?),
            ("write", &[file, every]) => {
                let every = every.parse().ok().filter(|&k| k > 0).ok_or(format!("`{every}` is no number of steps"))?;
                self.trajectory = Some((file.into(), every));
                return Ok(());
            }
            _ => {}
        }
        let x = words.iter().map(|w| w.parse::<f64>().map_err(|_| format!("`{w}` is no number"))).collect::<Result<Vec<f64>, _>>()?;
        match (what, x.as_slice()) {
            ("cell", &[lx, ly, lz]) => self.cell = Some(Lattice::orthorhombic(lx, ly, lz)),
            ("cell", &[ax, ay, az, bx, by, bz, cx, cy, cz]) => {
                self.cell = Some(Lattice { a: [ax, ay, az], b: [bx, by, bz], c: [cx, cy, cz], periodic: [true; 3] })
            }
            ("list", &[cutoff, skin]) => self.list = NeighborList::new(cutoff, skin),
            ("lj", &[epsilon, sigma, cutoff]) => self.lj = Some(LennardJones::monatomic(epsilon, sigma, cutoff)),
            ("lj", &[epsilon, sigma, cutoff, rule]) => {
                let mixing = [Mixing::HalfSum, Mixing::Geometric].into_iter().find(|m| f64::from(m.rule()) == rule).ok_or("the rule of lj is 1 or 2")?;
                self.lj = Some(LennardJones::monatomic(epsilon, sigma, cutoff).mixed_by(mixing));
            }
            ("species", &[number, epsilon, sigma]) => {
                self.lj.as_mut().ok_or("species come after lj")?.params.insert(number as u32, (epsilon, sigma));
            }
            ("coulomb", &[cutoff]) => self.coulomb = Some(Coulomb { cutoff }),
            ("bonds", &[k, r0]) => self.bonds = Some(HarmonicBonds::uniform(k, r0)),
            ("bond", &[i, j]) => {
                self.bonded.push((i as usize, j as usize));
                self.excluded.push((i as usize, j as usize));
            }
            ("angles", &[k, rest]) => self.angles = Some(CosineAngles::uniform(vec![], k, rest)),
            ("angle", &[i, apex, k]) => self.angle(i, apex, k)?,
            ("angle", &[i, apex, k, strength, rest]) => {
                self.angle(i, apex, k)?;
                let angles = self.angles.as_mut().ok_or("an angle comes after angles")?;
                angles.per_angle.push((strength, rest));
                if angles.per_angle.len() != angles.triples.len() {
                    return Err("angles with numbers of their own come first".into());
                }
            }
            ("exclude", &[i, j]) => self.excluded.push((i as usize, j as usize)),
            ("thermostat", &[target_k, tau_fs]) => self.thermostat = Some(Berendsen { target_k, tau_fs }),
            ("settle", &[most, tolerance]) => self.settle = Some(Settle { most: most as usize, tolerance, shown: most as usize }),
            ("settle", &[most, tolerance, shown]) => self.settle = Some(Settle { most: most as usize, tolerance, shown: shown as usize }),
            ("steps", &[steps, dt]) => (self.steps, self.dt) = (steps as usize, dt),
            ("steps", &[steps, dt, shown]) => (self.steps, self.dt, self.shown) = (steps as usize, dt, shown as usize),
            ("atom", &[mass, species, charge, x, y, z]) => self.atom(mass, species, charge, [x, y, z], [0.0; 3]),
            ("atom", &[mass, species, charge, x, y, z, vx, vy, vz]) => self.atom(mass, species, charge, [x, y, z], [vx, vy, vz]),
            ("unfold", &[]) => self.unfold = true,
            ("shells", &[count]) => self.shells = Some((count as usize, 1000.0)),
            ("shells", &[count, per]) => self.shells = Some((count as usize, per)),
            ("slab", &[low, high]) => self.slab = Some([low, high]),
            ("grid", &[nx, ny, nz, mass, species, kelvin]) => self.grid([nx, ny, nz], mass, species, kelvin)?,
            _ => return Err(format!("`{what}` with {} numbers is nothing", x.len()).into()),
        }
        Ok(())
    }

    fn angle(&mut self, i: f64, apex: f64, k: f64) -> Result<(), Box<dyn Error>> {
        self.angles.as_mut().ok_or("an angle comes after angles")?.triples.push((i as usize, apex as usize, k as usize));
        self.excluded.push((i as usize, k as usize));
        Ok(())
    }

    fn atom(&mut self, mass: f64, species: f64, charge: f64, position: [f64; 3], velocity: [f64; 3]) {
        self.masses.push(mass);
        self.numbers.push(species as u32);
        self.charges.push(charge);
        self.positions.push(position);
        self.velocities.push(velocity);
    }

    fn file(&mut self, file: &str, kelvin: f64) -> Result<(), Box<dyn Error>> {
        let text = std::fs::read_to_string(file).map_err(|e| format!("{file}: {e}"))?;
        let frame = xyz::read(file, &text)?;
        self.cell = frame.cell.or(self.cell);
        self.source = Some(file.into());
        let mut shake = shaken();
        for a in frame.atoms {
            let velocity = if frame.moving { a.velocity } else { shake(kelvin, a.mass) };
            self.atom(a.mass, f64::from(a.number), a.charge, a.position, velocity);
        }
        Ok(())
    }

    fn grid(&mut self, counts: [f64; 3], mass: f64, species: f64, kelvin: f64) -> Result<(), Box<dyn Error>> {
        let cell = self.cell.ok_or("a grid wants a cell")?;
        let mut shake = shaken();
        let [nx, ny, nz] = counts.map(|c| c as usize);
        for i in 0..nx * ny * nz {
            let s = [i / (ny * nz), i / nz % ny, i % nz];
            let s = [0, 1, 2].map(|k| (s[k] as f64 + 0.5) / counts[k]);
            self.atom(mass, species, 0.0, cell.to_cartesian(s)?, shake(kelvin, mass));
        }
        Ok(())
    }

    /// FIRE's velocities are its own: the atoms keep theirs.
    fn settle(&mut self, settle: Settle, open: &mut Option<Open>, eval: &mut Evaluator) -> Result<(), Box<dyn Error>> {
        let mut own = vec![[0.0; 3]; self.positions.len()];
        let (mut done, round) = (0, settle.shown.max(1));
        loop {
            if let Some(lent) = open.as_mut().and_then(|o| o.changed(&self.positions)) {
                eval.cell = lent;
            }
            let opts = FireOptions { max_iters: round.min(settle.most - done), force_tol: settle.tolerance, ..FireOptions::default() };
            let r = fire(&mut self.positions, &mut own, &self.masses, &opts, eval).map_err(|e| format!("settling, after {done} iterations: {e}"))?;
            done += r.iters;
            println!("settle {done:>6}  {:14.6e} eV/A  {:14.6} eV  {:>5} builds", r.max_force, r.energy, eval.list.builds());
            if r.converged || done >= settle.most {
                return Ok(());
            }
        }
    }

    /// The trajectory, where one is wanted: it is tested here and begun when the first evaluation was answered.
    fn planned(&self) -> Result<Option<Trajectory>, String> {
        let Some((file, every)) = &self.trajectory else { return Ok(None) };
        if self.source.as_ref() == Some(file) {
            return Err(format!("{file} is read: the trajectory wants another name"));
        }
        let atom = |k: usize| xyz::Atom { number: self.numbers[k], mass: self.masses[k], charge: self.charges[k], ..Default::default() };
        Trajectory::planned(file, *every, self.cell, (0..self.numbers.len()).map(atom).collect()).map(Some)
    }

    fn go(mut self) -> Result<(), Box<dyn Error>> {
        let cell = self.cell;
        let volume = cell.map(|c| c.volume()).transpose()?.map(f64::abs);
        if self.slab.is_some() && self.shells.is_some() {
            return Err("shells count the same atoms at each line: not beside a slab".into());
        }
        let mut trajectory = self.planned()?;
        let mut shells = self.shells.map(|(count, per)| Counted::new(count, per, cell, self.list.cutoff, &self.excluded)).transpose()?;
        let mut open = cell.and_then(|c| Open::new(c, self.list.cutoff + self.list.skin));
        let terms = Terms {
            lennard_jones: self.lj.take().map(|lj| (lj, std::mem::take(&mut self.numbers))),
            coulomb: self.coulomb.take().map(|q| (q, std::mem::take(&mut self.charges))),
            bonds: self.bonds.take().map(|b| (b, std::mem::take(&mut self.bonded))),
            angles: self.angles.take(),
        };
        self.list.set_exclusions(std::mem::take(&mut self.excluded));
        let mut eval = Evaluator::new(std::mem::take(&mut self.list), &terms, self.cell);
        if let Some(settle) = self.settle.take() {
            self.settle(settle, &mut open, &mut eval)?;
        }
        if let Some(lent) = open.as_mut().and_then(|o| o.changed(&self.positions)) {
            eval.cell = lent;
        }
        let mut melt = Melt::new(eval, std::mem::take(&mut self.positions), std::mem::take(&mut self.velocities), std::mem::take(&mut self.masses))?;
        let n = melt.positions().len();
        println!("{n} atoms, {} pairs, {} steps of {} fs", melt.evaluator().list.pair_rows().len(), self.steps, self.dt);
        if let Some(t) = &mut trajectory {
            t.begin()?;
            t.add(0, 0.0, melt.potential(), melt.positions(), melt.velocities())?;
        }
        let mut paths = Vec::new();
        if self.unfold {
            paths = melt.positions().iter().map(|&r| Path::new(cell.as_ref(), r)).collect::<Result<Vec<_>, _>>()?;
        }
        let (clock, shown) = (Instant::now(), if self.shown == 0 { self.steps.div_ceil(10).max(1) } else { self.shown });
        for step in 1..=self.steps {
            if let Some(lent) = open.as_mut().and_then(|o| o.changed(melt.positions())) {
                melt.set_cell(lent);
            }
            melt.step(self.dt, self.thermostat).map_err(|e| format!("step {step}: {e}"))?;
            for (path, &r) in paths.iter_mut().zip(melt.positions()) {
                path.seen(cell.as_ref(), r)?;
            }
            if let Some(t) = trajectory.as_mut().filter(|t| t.due(step) || step == self.steps) {
                t.add(step, step as f64 * self.dt, melt.potential(), melt.positions(), melt.velocities())?;
            }
            if step % shown == 0 || step == self.steps {
                let kinetic = kinetic_energy(melt.velocities(), melt.masses())?;
                let rate = step as f64 / clock.elapsed().as_secs_f64();
                let mut pressed = String::new();
                if let Some(v) = volume {
                    let virial = melt.evaluate()?.scalar_virial()?;
                    pressed = format!("  {:12.4} MPa", 1000.0 * to_gpa(pressure(kinetic, virial, v)?)?);
                }
                let (kelvin, builds) = (kelvin(&melt)?, melt.evaluator().list.builds());
                println!("step {step:>8}  {kelvin:9.3} K  {:14.6} eV{pressed}  {builds:>5} builds  {rate:8.1} steps/s", kinetic + melt.potential());
                if let Some(counted) = &mut shells {
                    counted.add(melt.positions())?;
                }
                if let Some(slab) = self.slab {
                    leave(&mut melt, slab, &mut paths, &mut trajectory)?;
                }
            }
        }
        if let Some(t) = trajectory {
            t.finish()?;
        }
        let end = melt.evaluate()?;
        println!("temperature  {:.6} K", kelvin(&melt)?);
        if self.slab.is_some() {
            println!("struck       {} atoms, {} left", n - melt.positions().len(), melt.positions().len());
        }
        if self.unfold {
            let sum = paths.iter().map(|p| p.squared(cell.as_ref())).sum::<Result<f64, _>>()?;
            println!("displacement {:.6} A2, mean of the squares", sum / paths.len() as f64);
        }
        if let Some(counted) = &shells {
            counted.print();
        }
        let Some(volume) = volume else {
            println!("no cell: no density and no pressure");
            return Ok(());
        };
        let p = pressure(kinetic_energy(melt.velocities(), melt.masses())?, end.scalar_virial()?, volume)?;
        println!("density      {:.6} g/cm3", GRAMS * melt.masses().iter().sum::<f64>() / volume);
        println!("pressure     {:.6} MPa", 1000.0 * to_gpa(p)?);
        Ok(())
    }
}

fn kelvin(melt: &Melt) -> Result<f64, tyngyrlak::Error> {
    temperature(melt.velocities(), melt.masses(), 3.0 * melt.positions().len() as f64)
}

/// Strikes the atoms that left the slab, with their paths and their place in the trajectory.
fn leave(melt: &mut Melt, [low, high]: [f64; 2], paths: &mut Vec<Path>, trajectory: &mut Option<Trajectory>) -> Result<(), tyngyrlak::Error> {
    let marks: Vec<bool> = melt.positions().iter().map(|r| r[2] < low || high < r[2]).collect();
    if marks.contains(&true) {
        melt.strike(&marks)?;
        if let Some(t) = trajectory {
            t.strike(&marks);
        }
        let mut marks = marks.iter();
        paths.retain(|_| marks.next() == Some(&false));
    }
    Ok(())
}
