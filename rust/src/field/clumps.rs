//! Which atoms hang together by listed pairs. The original has nothing of the kind.
use super::neighbor::PairRows;
use crate::{raw, Error};

/// Each atom's label, and how many clumps there are.
#[derive(Debug, Clone, PartialEq, Eq)]
pub struct Clumps {
    /// For each atom the lowest atom that a chain of listed pairs reaches from it: two atoms have the same label exactly when a chain joins them.
    pub labels: Vec<u32>,
    /// How many atoms are their own label.
    pub count: usize,
}

/// The clumps of `atoms` atoms by a list or by pairs, which may be turned round, repeated or of an atom with itself.
///
/// Refused: 2 past 16,384 atoms, 4 where a pair names an atom that is not there, its place the pair's row.
pub fn clumps(atoms: usize, pairs: &(impl PairRows + ?Sized)) -> Result<Clumps, Error> {
    let mut labels = vec![0; atoms];
    let count = label(&pairs.rows(), &mut labels)?;
    Ok(Clumps { labels, count })
}

/// [`clumps`] into labels that are lent, one for each atom, with pairs as two numbers a row; how many clumps there are. A refusal leaves the labels as
/// they came: 1 for half a row, 2 and 4 as [`clumps`].
pub fn label(rows: &[u32], labels: &mut [u32]) -> Result<usize, Error> {
    // more labels than a u32 counts are past 16,384 too: the place of the refusal is then the largest count
    let r = raw::tyn_label(u32::try_from(labels.len()).unwrap_or(u32::MAX), rows, labels);
    r.done.of("tyn_label")?;
    Ok(r.value as usize)
}

/// What the program `clumps` prints for a job sheet: per clump `83`, its lowest atom and its size, four hexadecimal digits each; or the line of a refused
/// sheet, `8f`.
pub fn sheet_clumps(sheet: &[u8]) -> String {
    let mut out = vec![0; 11_264];
    let r = raw::tyn_solve_clumps(sheet, &mut out);
    out.truncate(r.value as usize);
    String::from_utf8(out).unwrap_or_default()
}
