//! How many pairs sit at each distance, over any number of whole-number frames.
//!
//! ```no_run
//! # use tyngyrlak::{Error, Shells, Snapshot};
//! # fn run(sheets: &[Vec<u8>]) -> Result<(), Error> {
//! let mut shells = Shells::new(4, 32);
//! for sheet in sheets {
//!     shells.add(&Snapshot::from_sheet(sheet)?)?;
//! }
//! println!("{} pairs, {} of them in the first shell", shells.sum(), shells.totals()[0]);
//! # Ok(())
//! # }
//! ```
use crate::error::Error;
use crate::frame::Snapshot;
use crate::raw;

/// Exact totals by shell. A pair's shell is the whole part of its squared distance over the width; the last shell takes all that lies further out.
///
/// From [`Shells::new`] on, the totals' sum is the number of pairs within the radius that are not excluded, over all frames that were added; a frame that
/// was refused adds nothing.
#[derive(Debug, Clone, PartialEq, Eq)]
pub struct Shells {
    width: u64,
    totals: Vec<u64>,
    pairs: Vec<u32>,
    starts: Vec<u32>,
    items: Vec<u32>,
}

/// What a frame's list was.
#[derive(Debug, Clone, Copy, PartialEq, Eq)]
pub struct Listed {
    /// The pairs that were added.
    pub pairs: u32,
    /// The distances that were evaluated.
    pub checks: u32,
    /// Whether all pairs were tried, without a grid.
    pub fallback: bool,
}

impl Shells {
    /// So many shells of that width (in squared distance), each with a total of zero. A width of 0 and no shells are refused by [`Shells::add`] (3).
    pub fn new(width: u64, shells: usize) -> Self {
        Self::with_totals(width, vec![0; shells])
    }

    /// Goes on from totals that another run left.
    pub fn with_totals(width: u64, totals: Vec<u64>) -> Self {
        Self { width, totals, pairs: Vec::new(), starts: vec![0; 32_769], items: Vec::new() }
    }

    /// Adds each near pair of the frame that is not excluded to its shell. Refusals 1, 2, 3, 5, 7, and 13 where a total would pass 2^64 - 1: the totals
    /// are then as they were.
    pub fn add(&mut self, from: &Snapshot) -> Result<Listed, Error> {
        let places = from.atoms.as_flattened();
        let table: Vec<u32> = from.exclusions.iter().flat_map(|&(i, j)| [i, j]).collect();
        if self.items.len() < from.atoms.len() {
            self.items.resize(from.atoms.len(), 0);
        }
        loop {
            let built =
                raw::tyn_add_shells(from.frame.flat(), places, &table, self.width, &mut self.totals, &mut self.pairs, &mut self.starts, &mut self.items);
            // more pairs than there was room for: nothing was added, and the place says how many they are
            if built.done.number == 8 {
                self.pairs.resize(2 * built.done.place as usize, 0);
                continue;
            }
            built.done.of("tyn_add_shells")?;
            return Ok(Listed { pairs: built.pairs, checks: built.checks, fallback: built.fallback != 0 });
        }
    }

    /// The width of a shell, in squared distance.
    pub fn width(&self) -> u64 {
        self.width
    }

    /// The totals, shell by shell.
    pub fn totals(&self) -> &[u64] {
        &self.totals
    }

    /// All pairs that were added. (More than a u64 holds only where totals of another run came in.)
    pub fn sum(&self) -> u128 {
        self.totals.iter().map(|&t| u128::from(t)).sum()
    }
}
