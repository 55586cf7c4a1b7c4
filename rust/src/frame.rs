//! The whole-number frame, which the original does not have: atoms at whole coordinates in a box whose axes are periodic or open, exact distances, the list
//! of all pairs within a radius, and the question how long that list may be kept.
//!
//! ```no_run
//! # fn main() -> Result<(), tyngyrlak::Error> {
//! # let (mut now, step) = (vec![[0u32; 3]; 2], |_: &mut Vec<[u32; 3]>| ());
//! use tyngyrlak::frame::Frame;
//! let (frame, skin) = (Frame { edges: [100; 3], periodic: [true; 3], radius: 9 }, 4);
//! let (mut old, mut list) = (now.clone(), frame.widened(skin).build(&now, &[])?);
//! for _ in 0..1000 {
//!     step(&mut now);
//!     if !frame.within_skin(skin, &old, &now)? {
//!         (old, list) = (now.clone(), frame.widened(skin).build(&now, &[])?);
//!     }
//!     // every pair within `frame.radius` now is one of `list.pairs`
//! }
//! # Ok(())
//! # }
//! ```
use crate::raw;
use crate::Error;
use std::collections::BTreeSet;

/// The most cells of a grid, and one more start than cells.
const STARTS: usize = 32_768 + 1;

/// A box of whole edges, each axis periodic or open, and a radius.
///
/// Edges are 1 to 2^20, coordinates below the edge, the radius 0 to 2^20, and on a periodic axis at most half the edge; every call refuses others (3).
#[derive(Clone, Copy, Debug, Default, PartialEq, Eq)]
pub struct Frame {
    /// The three edges.
    pub edges: [u32; 3],
    /// Which axes are periodic.
    pub periodic: [bool; 3],
    /// A pair is listed where its distance is at most this; in [`Frame::within_skin`] the cutoff.
    pub radius: u32,
}

/// What a build found.
#[derive(Clone, Debug, PartialEq, Eq)]
pub struct FramePairs {
    /// The pairs within the radius that are not excluded, each low before high, in the order of the search.
    pub pairs: Vec<[u32; 2]>,
    /// Distances evaluated.
    pub checks: u32,
    /// Whether no grid was laid.
    pub fallback: bool,
}

impl Frame {
    /// The exact squared distance of two atoms' nearest images.
    pub fn squared_distance(&self, a: [u32; 3], b: [u32; 3]) -> Result<u64, Error> {
        let r = raw::tyn_squared_distance(self.flat(), spot(a), spot(b));
        r.done.of("tyn_squared_distance")?;
        Ok(r.value)
    }

    /// All pairs within the radius, but for the exclusions: rows in rising order, each low before high.
    pub fn build(&self, coordinates: &[[u32; 3]], exclusions: &[[u32; 2]]) -> Result<FramePairs, Error> {
        let (mut starts, mut items) = (vec![0; STARTS], vec![0; coordinates.len()]);
        let mut pairs = vec![[0; 2]; 16 * coordinates.len()];
        loop {
            let (from, table) = (coordinates.as_flattened(), exclusions.as_flattened());
            let r = raw::tyn_frame_build(self.flat(), from, table, pairs.as_flattened_mut(), &mut starts, &mut items);
            if r.done.number == 8 {
                pairs = vec![[0; 2]; r.done.place as usize];
                continue;
            }
            r.done.of("tyn_frame_build")?;
            pairs.truncate(r.pairs as usize);
            return Ok(FramePairs { pairs, checks: r.checks, fallback: r.fallback != 0 });
        }
    }

    /// The same box with the radius plus a skin, at which a list is built that is to be kept. A sum that no u32 holds is out of range, and stays so.
    pub fn widened(&self, skin: u32) -> Frame {
        Frame { radius: self.radius.saturating_add(skin), ..*self }
    }

    /// Whether each atom has moved, by nearest image, so that four times its squared displacement is at most the squared skin.
    ///
    /// Then a list that [`Frame::widened`] built over the `old` coordinates has every pair of the `new` ones that is within this frame's radius: the library's
    /// theorem `skin_enough` says so. Refused where the counts differ (1), and as a build of either at radius plus skin (2, 3).
    pub fn within_skin(&self, skin: u32, old: &[[u32; 3]], new: &[[u32; 3]]) -> Result<bool, Error> {
        let r = raw::tyn_within_skin(self.flat(), skin, old.as_flattened(), new.as_flattened());
        r.done.of("tyn_within_skin")?;
        Ok(r.value != 0)
    }

    pub(crate) fn flat(&self) -> raw::Frame {
        let ([ex, ey, ez], [px, py, pz]) = (self.edges, self.periodic.map(u32::from));
        raw::Frame { ex, ey, ez, px, py, pz, radius: self.radius }
    }
}

fn spot([x, y, z]: [u32; 3]) -> raw::Spot {
    raw::Spot { x, y, z }
}

/// One moment of a run: a frame, its atoms and the pairs that are never listed. It is made untested; the calls that read it test it.
#[derive(Clone, Debug, Default, PartialEq, Eq)]
pub struct Snapshot {
    /// The box and the radius.
    pub frame: Frame,
    /// The atoms, each coordinate below its edge.
    pub atoms: Vec<[u32; 3]>,
    /// The pairs that are never listed, low number before high.
    pub exclusions: BTreeSet<(u32, u32)>,
}

impl Snapshot {
    /// What a job sheet says (docs/SHEET.md). Refusals 1, 9, 10, 8, 11, 2, 4; what is out of range is refused where the frame is used.
    pub fn from_sheet(sheet: &[u8]) -> Result<Self, Error> {
        let mut places = vec![0; 3072];
        let mut table = vec![0; 2048];
        let read = raw::tyn_read(sheet, &mut places, &mut table);
        read.done.of("tyn_read")?;
        Ok(Self::told(&read.job, &places, &table))
    }

    pub(crate) fn told(job: &raw::Job, places: &[u32], table: &[u32]) -> Self {
        Self {
            frame: Frame { edges: [job.ex, job.ey, job.ez], periodic: [job.px != 0, job.py != 0, job.pz != 0], radius: job.radius },
            atoms: places.chunks_exact(3).take(job.atoms as usize).map(|p| [p[0], p[1], p[2]]).collect(),
            exclusions: table.chunks_exact(2).take(job.count as usize).map(|p| (p[0], p[1])).collect(),
        }
    }

    /// Leaves a pair out, either way round; an atom with itself is no pair.
    pub fn exclude(&mut self, i: u32, j: u32) {
        if i != j {
            self.exclusions.insert((i.min(j), i.max(j)));
        }
    }
}
