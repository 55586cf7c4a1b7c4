//! Job sheets: the written form of a whole-number frame, and of a sheet that was typed by hand; sheets of the second form, whose atoms have a species
//! and whose header can name the mixing rule (docs/SHEET.md has the lines).
use crate::error::Error;
use crate::field::potentials::Mixing;
use crate::frame::{Frame, Snapshot};
use crate::raw;

/// The longest written form: a header, 1,024 atoms and 1,024 exclusions.
const LONGEST: usize = 43_049;
/// The same in the second form.
const LONGEST_TWO: usize = 51_243;

/// The sheet of a frame in its one written form: header, atoms by number, exclusions by low, then high number. Refused are more than 1,024 atoms (2), a
/// number out of range (3), and exclusions that are not low before high and strictly ascending, more than 1,024, or above ffff (5).
pub fn write(frame: &Frame, atoms: &[[u32; 3]], exclusions: &[(u32, u32)]) -> Result<Vec<u8>, Error> {
    let rows: Vec<u32> = exclusions.iter().flat_map(|&(low, high)| [low, high]).collect();
    let mut out = vec![0; LONGEST];
    let told = raw::tyn_write(frame.flat(), atoms.as_flattened(), &rows, &mut out);
    told.done.of("tyn_write")?;
    out.truncate(told.value as usize);
    Ok(out)
}

/// The written form of a sheet, or the line of its refusal (`8f`, number, place), as the program `rewrite` prints it. Two sheets have equal meaning exactly
/// when their written forms are the same bytes.
pub fn rewrite(sheet: &[u8]) -> Vec<u8> {
    let mut out = vec![0; LONGEST];
    let told = raw::tyn_rewrite(sheet, &mut out);
    out.truncate(told.value as usize);
    out
}

/// What a sheet of either form says.
#[derive(Clone, Debug, Default, PartialEq, Eq)]
pub struct Sheet {
    /// The frame, its atoms and its exclusions.
    pub snapshot: Snapshot,
    /// The species of each atom; 0 on a sheet of the first form.
    pub species: Vec<u32>,
    /// 1 or 2.
    pub form: u32,
    /// How the job mixes two species: rule 2 where the header says `02`, else rule 1. Lennard-Jones takes it (`LennardJones::mixing`); the pair list doesn't
    /// depend on it.
    pub mixing: Mixing,
}

/// Reads a sheet of either form; its first header or atom line says which, and from then on a line of the other form is malformed (9). Refusals as
/// [`Snapshot::from_sheet`], whose reading of a sheet of the first form this is.
pub fn read(sheet: &[u8]) -> Result<Sheet, Error> {
    let mut places = vec![0; 3072];
    let mut species = vec![0; 1024];
    let mut table = vec![0; 2048];
    let told = raw::tyn_read_either(sheet, &mut places, &mut species, &mut table);
    told.done.of("tyn_read_either")?;
    species.truncate(told.job.atoms as usize);
    let mixing = if told.rule == Mixing::Geometric.rule() { Mixing::Geometric } else { Mixing::HalfSum };
    Ok(Sheet { snapshot: Snapshot::told(&told.job, &places, &table), species, form: told.form, mixing })
}

/// A sheet of the first form in the second, as it is written, rule 1, each species 0. Refusals as [`Snapshot::from_sheet`], then 3.
pub fn to_two(sheet: &[u8]) -> Result<Vec<u8>, Error> {
    moved("tyn_to_two", raw::tyn_to_two, sheet, LONGEST_TWO)
}

/// A sheet of the second form in the first, as it is written. Refusals as [`Snapshot::from_sheet`]; then 12, at the place 0xffffffff where the rule is 2, else
/// at the lowest atom that has a species; then 3. `to_one(&to_two(s)?)?` is `rewrite(s)`.
pub fn to_one(sheet: &[u8]) -> Result<Vec<u8>, Error> {
    moved("tyn_to_one", raw::tyn_to_one, sheet, LONGEST)
}

fn moved(name: &'static str, call: fn(&[u8], &mut [u8]) -> raw::Whole, sheet: &[u8], room: usize) -> Result<Vec<u8>, Error> {
    let mut out = vec![0; room];
    let told = call(sheet, &mut out);
    told.done.of(name)?;
    out.truncate(told.value as usize);
    Ok(out)
}

/// The pair list of a sheet of either form, or the line of its refusal, as the program `pairs_either` prints it; species and rule don't enter it.
pub fn pairs(sheet: &[u8]) -> Vec<u8> {
    let mut out = vec![0; 90_133];
    let told = raw::tyn_solve_either(sheet, &mut out);
    out.truncate(told.value as usize);
    out
}
