//! The calls of include/tyngyrlak.h, each as a safe function over slices: the one module with unsafe code.
use crate::field::cell::Lattice as Cartesian;

macro_rules! structs {
    ($($(#[$doc:meta])* $name:ident { $($field:ident: $t:ty),* })*) => { $(
        $(#[$doc])*
        #[repr(C)]
        #[derive(Debug, Clone, Copy, Default, PartialEq)]
        pub struct $name { $(pub $field: $t),* }
    )* };
}

structs! {
    /// Number 0 where the call is answered, else the refusal's; and its place.
    Done { number: u64, place: u64 }
    Vec3 { x: f64, y: f64, z: f64 }
    Lattice { a: Vec3, b: Vec3, c: Vec3, px: u32, py: u32, pz: u32 }
    Cell { present: u32, lattice: Lattice }
    Rows { x: [f64; 3], y: [f64; 3], z: [f64; 3] }
    /// Kind 0: three counts; 1: one does not fit; 2: no inverse.
    Image { diff: Vec3, kind: u32, x: i32, y: i32, z: i32 }
    /// Energy, and the virial row by row.
    Sum { energy: f64, virial: [f64; 9] }
    Units { force_to_accel: f64, kb_ev_per_k: f64, ke_coulomb: f64, ev_per_a3_to_gpa: f64 }
    State { cutoff: f64, skin: f64, pairs: u32, references: u32, checks: u32, fallback: u32, builds: u32, built_in: Cell }
    Lj { epsilon: f64, sigma: f64, cutoff: f64, shift: u32, rule: u32 }
    Bond { k: f64, r0: f64 }
    Angle { k: f64, rest: f64 }
    LjTerm { present: u32, lj: Lj }
    CoulombTerm { present: u32, cutoff: f64 }
    BondTerm { present: u32, bond: Bond }
    AngleTerm { present: u32, angle: Angle }
    Thermostat { present: u32, target_k: f64, tau_fs: f64 }
    /// What an evaluation goes by besides its tables.
    Setting { lj: LjTerm, coulomb: CoulombTerm, bond: BondTerm, angle: AngleTerm, units: Units, cell: Cell }
    Pace { dt: f64, thermostat: Thermostat }
    FireOptions { max_iters: u32, force_tol: f64, dt: f64, dt_max: f64 }
    Frame { ex: u32, ey: u32, ez: u32, px: u32, py: u32, pz: u32, radius: u32 }
    Spot { x: u32, y: u32, z: u32 }
    /// How many rows of each table are left.
    Left { atoms: usize, bonds: usize, lengths: usize, ks: usize, angles: usize, per_angle: usize, exclusions: usize }
    NewAtom { position: Vec3, velocity: Vec3, mass: f64, charge: f64, species: u32 }

    YesNo { done: Done, value: u32 }
    RowsAnswer { done: Done, rows: Rows }
    Number { done: Done, value: f64 }
    InverseAnswer { done: Done, found: u32, rows: Rows }
    Vector { done: Done, value: Vec3 }
    ImageAnswer { done: Done, image: Image }
    Summed { done: Done, sum: Sum }
    StateAnswer { done: Done, state: State }
    Whole { done: Done, value: u64 }
    Updated { done: Done, rebuilt: u32, state: State }
    Built { done: Done, pairs: u32, checks: u32, fallback: u32 }
    Job { atoms: u32, ex: u32, ey: u32, ez: u32, px: u32, py: u32, pz: u32, radius: u32, count: u32 }
    Sheet { done: Done, job: Job }
    /// Of table 0 none, 1 a desk's own, 2 the house's.
    Row { done: Done, table: u32, epsilon: f64, sigma: f64 }
    Formed { done: Done, job: Job, form: u32, rule: u32 }
    Evaluated { done: Done, rebuilt: u32, state: State, sum: Sum }
    Stepped { done: Done, stopped: u32, rebuilt: u32, state: State, potential: f64 }
    Fired { done: Done, iteration: u32, stopped: u32, converged: u32, energy: f64, max_force: f64, state: State }
    Struck { done: Done, left: Left, state: State }
    Entered { done: Done, count: u32, state: State }
}

// Splits each argument into what C is handed ([..] of a declaration), the parameter of the safe form, and what it hands on: a slice is a pointer and a length.
macro_rules! calls {
    ($(fn $name:ident($($args:tt)*) -> $r:ty;)*) => { $(calls!(@ $name $r, [] [] [] $($args)*,);)* };
    (@ $name:ident $r:ty, [$($c:tt)*] [$($safe:tt)*] [$($on:tt)*] $n:ident: &mut [$t:ty], $($rest:tt)*) => {
        calls!(@ $name $r, [$($c)* _: *mut $t, _: usize,] [$($safe)* $n: &mut [$t],] [$($on)* $n.as_mut_ptr(), $n.len(),] $($rest)*);
    };
    (@ $name:ident $r:ty, [$($c:tt)*] [$($safe:tt)*] [$($on:tt)*] $n:ident: &[$t:ty], $($rest:tt)*) => {
        calls!(@ $name $r, [$($c)* _: *const $t, _: usize,] [$($safe)* $n: &[$t],] [$($on)* $n.as_ptr(), $n.len(),] $($rest)*);
    };
    (@ $name:ident $r:ty, [$($c:tt)*] [$($safe:tt)*] [$($on:tt)*] $n:ident: $t:ty, $($rest:tt)*) => {
        calls!(@ $name $r, [$($c)* _: $t,] [$($safe)* $n: $t,] [$($on)* $n,] $($rest)*);
    };
    (@ $name:ident $r:ty, [$($c:tt)*] [$($safe:tt)*] [$($on:tt)*] $(,)?) => {
        #[allow(clippy::too_many_arguments)]
        #[cfg(not(no_archive))]
        pub fn $name($($safe)*) -> $r {
            extern "C" {
                fn $name($($c)*) -> $r;
            }
            // SAFETY: the declaration is the header's. Each pointer and length are those of one slice that lives through the call: not null, aligned,
            // all its elements hold values; a mutable one shares none with another. The call keeps no pointer and takes every value of every type.
            unsafe { $name($($on)*) }
        }
        #[allow(clippy::too_many_arguments, unused_variables)]
        #[cfg(no_archive)]
        pub fn $name($($safe)*) -> $r {
            panic!("libfield.a is for x86-64: on this machine {} cannot be called", stringify!($name))
        }
    };
}

calls! {
    fn tyn_is_orthorhombic(lattice: Lattice) -> YesNo;
    fn tyn_volume(lattice: Lattice) -> Number;
    fn tyn_inverse(lattice: Lattice) -> InverseAnswer;
    fn tyn_to_fractional(lattice: Lattice, r: Vec3) -> Vector;
    fn tyn_to_cartesian(lattice: Lattice, s: Vec3) -> Vector;
    fn tyn_wrap(lattice: Lattice, r: Vec3) -> Vector;
    fn tyn_perp_widths(lattice: Lattice) -> Vector;
    fn tyn_min_image(d: Vec3, cell: Cell) -> ImageAnswer;

    fn tyn_merge(sum: Sum, forces: &mut [f64], other: Sum, added: &[f64]) -> Summed;
    fn tyn_add_pair_force(sum: Sum, forces: &mut [f64], i: u32, j: u32, d: Vec3, f: Vec3) -> Summed;
    fn tyn_virial_from_pair(virial: Rows, d: Vec3, f: Vec3) -> RowsAnswer;
    fn tyn_scalar_virial(virial: Rows) -> Number;
    fn tyn_pressure(kinetic: f64, scalar: f64, volume: f64) -> Number;
    fn tyn_pressure_tensor(units: Units, volume: f64, virial: Rows, velocities: &[f64], masses: &[f64]) -> RowsAnswer;
    fn tyn_to_gpa(units: Units, pressure: f64) -> Number;

    fn tyn_new(cutoff: f64, skin: f64) -> StateAnswer;
    fn tyn_search_radius(s: State) -> Number;
    fn tyn_builds_since(s: State, earlier: u32) -> u32;
    fn tyn_exclude(count: u32, i: u32, j: u32, table: &mut [u32]) -> Whole;
    fn tyn_set_exclusions(raw: &[u32], table: &mut [u32]) -> Whole;
    fn tyn_needs_rebuild(s: State, cell: Cell, positions: &[f64], references: &[f64]) -> YesNo;
    fn tyn_outdated(s: State, cell: Cell, positions: &[f64], references: &[f64]) -> YesNo;
    fn tyn_build(s: State, cell: Cell, positions: &[f64], exclusions: &[u32], pairs: &mut [u32], references: &mut [f64], starts: &mut [u32],
        items: &mut [u32]) -> Updated;
    fn tyn_maybe_build(s: State, cell: Cell, positions: &[f64], exclusions: &[u32], pairs: &mut [u32], references: &mut [f64], starts: &mut [u32],
        items: &mut [u32]) -> Updated;

    fn tyn_label(count: u32, pairs: &[u32], labels: &mut [u32]) -> Whole;
    fn tyn_solve_clumps(input: &[u8], out: &mut [u8]) -> Whole;

    fn tyn_species_row(own_ids: &[u32], own_params: &[f64], ids: &[u32], params: &[f64], species: u32) -> Row;
    fn tyn_lj_pairs(lj: Lj, cell: Cell, own_ids: &[u32], own_params: &[f64], ids: &[u32], params: &[f64], species: &[u32], positions: &[f64], pairs: &[u32], forces: &mut [f64]) -> Summed;
    fn tyn_lj_all(lj: Lj, cell: Cell, own_ids: &[u32], own_params: &[f64], ids: &[u32], params: &[f64], species: &[u32], positions: &[f64], forces: &mut [f64]) -> Summed;
    fn tyn_coulomb_pairs(units: Units, cutoff: f64, cell: Cell, charges: &[f64], positions: &[f64], pairs: &[u32], forces: &mut [f64]) -> Summed;
    fn tyn_coulomb_all(units: Units, cutoff: f64, cell: Cell, charges: &[f64], positions: &[f64], forces: &mut [f64]) -> Summed;
    fn tyn_bonds_all(bond: Bond, cell: Cell, bonds: &[u32], lengths: &[f64], ks: &[f64], positions: &[f64], forces: &mut [f64]) -> Summed;
    fn tyn_angles_all(angle: Angle, cell: Cell, angles: &[u32], per_angle: &[f64], positions: &[f64], forces: &mut [f64]) -> Summed;
    fn tyn_evaluate(setting: Setting, s: State, own_ids: &[u32], own_params: &[f64], ids: &[u32], params: &[f64], species: &[u32], charges: &[f64], bonds: &[u32], lengths: &[f64], ks: &[f64],
        angles: &[u32], per_angle: &[f64], positions: &[f64], exclusions: &[u32], pairs: &mut [u32], references: &mut [f64], starts: &mut [u32], items: &mut [u32],
        forces: &mut [f64]) -> Evaluated;

    fn tyn_squared_distance(f: Frame, p: Spot, q: Spot) -> Whole;
    fn tyn_frame_build(f: Frame, coordinates: &[u32], exclusions: &[u32], pairs: &mut [u32], starts: &mut [u32], items: &mut [u32]) -> Built;
    fn tyn_within_skin(f: Frame, skin: u32, old: &[u32], moved: &[u32]) -> YesNo;
    fn tyn_read(input: &[u8], coordinates: &mut [u32], exclusions: &mut [u32]) -> Sheet;
    fn tyn_add_shells(f: Frame, coordinates: &[u32], exclusions: &[u32], width: u64, totals: &mut [u64], pairs: &mut [u32], starts: &mut [u32],
        items: &mut [u32]) -> Built;
    fn tyn_write(f: Frame, coordinates: &[u32], exclusions: &[u32], out: &mut [u8]) -> Whole;
    fn tyn_rewrite(input: &[u8], out: &mut [u8]) -> Whole;
    fn tyn_read_either(input: &[u8], coordinates: &mut [u32], species: &mut [u32], exclusions: &mut [u32]) -> Formed;
    fn tyn_to_two(input: &[u8], out: &mut [u8]) -> Whole;
    fn tyn_to_one(input: &[u8], out: &mut [u8]) -> Whole;
    fn tyn_solve_either(input: &[u8], out: &mut [u8]) -> Whole;

    fn tyn_kinetic_energy(units: Units, velocities: &[f64], masses: &[f64]) -> Number;
    fn tyn_temperature(units: Units, dof: f64, velocities: &[f64], masses: &[f64]) -> Number;
    fn tyn_berendsen(units: Units, dt: f64, target_k: f64, tau_fs: f64, masses: &[f64], velocities: &mut [f64]) -> Done;
    fn tyn_step(setting: Setting, pace: Pace, s: State, potential: f64, own_ids: &[u32], own_params: &[f64], ids: &[u32], params: &[f64], species: &[u32], charges: &[f64], bonds: &[u32],
        lengths: &[f64], ks: &[f64], angles: &[u32], per_angle: &[f64], masses: &[f64], exclusions: &[u32], positions: &mut [f64], velocities: &mut [f64], pairs: &mut [u32],
        references: &mut [f64], starts: &mut [u32], items: &mut [u32], forces: &mut [f64]) -> Stepped;
    fn tyn_finish(setting: Setting, pace: Pace, s: State, potential: f64, own_ids: &[u32], own_params: &[f64], ids: &[u32], params: &[f64], species: &[u32], charges: &[f64], bonds: &[u32],
        lengths: &[f64], ks: &[f64], angles: &[u32], per_angle: &[f64], masses: &[f64], exclusions: &[u32], positions: &[f64], velocities: &mut [f64], pairs: &mut [u32],
        references: &mut [f64], starts: &mut [u32], items: &mut [u32], forces: &mut [f64]) -> Stepped;
    fn tyn_fire(o: FireOptions, setting: Setting, s: State, own_ids: &[u32], own_params: &[f64], ids: &[u32], params: &[f64], species: &[u32], charges: &[f64], bonds: &[u32],
        lengths: &[f64], ks: &[f64], angles: &[u32], per_angle: &[f64], masses: &[f64], exclusions: &[u32], positions: &mut [f64], velocities: &mut [f64], pairs: &mut [u32],
        references: &mut [f64], starts: &mut [u32], items: &mut [u32], forces: &mut [f64]) -> Fired;

    fn tyn_strike(marks: &[u32], s: State, positions: &mut [f64], velocities: &mut [f64], masses: &mut [f64], charges: &mut [f64], species: &mut [u32],
        bonds: &mut [u32], lengths: &mut [f64], ks: &mut [f64], angles: &mut [u32], per_angle: &mut [f64], exclusions: &mut [u32]) -> Struck;
    fn tyn_put(count: u32, new: NewAtom, s: State, positions: &mut [f64], velocities: &mut [f64], masses: &mut [f64], charges: &mut [f64],
        species: &mut [u32]) -> Entered;
}

impl From<[f64; 3]> for Vec3 {
    fn from([x, y, z]: [f64; 3]) -> Self {
        Self { x, y, z }
    }
}

impl From<Vec3> for [f64; 3] {
    fn from(v: Vec3) -> Self {
        [v.x, v.y, v.z]
    }
}

impl From<[[f64; 3]; 3]> for Rows {
    fn from([x, y, z]: [[f64; 3]; 3]) -> Self {
        Self { x, y, z }
    }
}

impl From<Rows> for [[f64; 3]; 3] {
    fn from(r: Rows) -> Self {
        [r.x, r.y, r.z]
    }
}

impl From<&Cartesian> for Lattice {
    fn from(l: &Cartesian) -> Self {
        let [px, py, pz] = l.periodic.map(u32::from);
        Self { a: l.a.into(), b: l.b.into(), c: l.c.into(), px, py, pz }
    }
}

impl From<Option<&Cartesian>> for Cell {
    fn from(cell: Option<&Cartesian>) -> Self {
        cell.map_or(Self::default(), |l| Self { present: 1, lattice: l.into() })
    }
}

/// A number of an atom as the library takes it. One that no u32 holds names no atom, and neither does the largest u32.
pub fn atom(i: usize) -> u32 {
    u32::try_from(i).unwrap_or(u32::MAX)
}

/// Pairs or bonds, two numbers a row.
pub fn rows(pairs: &[(usize, usize)]) -> Vec<u32> {
    pairs.iter().map(|&(i, j)| [atom(i), atom(j)]).collect::<Vec<_>>().into_flattened()
}

/// Angles, three numbers a row.
pub fn triple_rows(triples: &[(usize, usize, usize)]) -> Vec<u32> {
    triples.iter().map(|&(i, apex, k)| [atom(i), atom(apex), atom(k)]).collect::<Vec<_>>().into_flattened()
}
