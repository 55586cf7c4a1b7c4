//! Lattice cells and minimum-image displacements.
use crate::{raw, Error};

/// A (possibly triclinic) lattice cell with per-axis periodicity flags.
///
/// `a`, `b`, `c` are the lattice vectors in Å.
#[derive(Debug, Clone, Copy, PartialEq)]
pub struct Lattice {
    /// First lattice vector.
    pub a: [f64; 3],
    /// Second lattice vector.
    pub b: [f64; 3],
    /// Third lattice vector.
    pub c: [f64; 3],
    /// Which axes are periodic.
    pub periodic: [bool; 3],
}

impl Lattice {
    /// A fully periodic orthorhombic cell with the given edge lengths (Å).
    pub fn orthorhombic(lx: f64, ly: f64, lz: f64) -> Self {
        Self { a: [lx, 0.0, 0.0], b: [0.0, ly, 0.0], c: [0.0, 0.0, lz], periodic: [true; 3] }
    }

    /// A fully periodic cubic cell of edge `l` (Å).
    pub fn cubic(l: f64) -> Self {
        Self::orthorhombic(l, l, l)
    }

    /// The cell matrix with the lattice vectors as columns.
    pub fn matrix(&self) -> [[f64; 3]; 3] {
        [0, 1, 2].map(|k| [self.a[k], self.b[k], self.c[k]])
    }

    /// Whether the magnitudes of the six off-diagonal entries sum to less than 1e-9.
    pub fn is_orthorhombic(&self) -> Result<bool, Error> {
        let r = raw::tyn_is_orthorhombic(self.into());
        r.done.of("tyn_is_orthorhombic")?;
        Ok(r.value != 0)
    }

    /// Signed cell volume in Å³.
    pub fn volume(&self) -> Result<f64, Error> {
        let r = raw::tyn_volume(self.into());
        r.done.of("tyn_volume")?;
        Ok(r.value)
    }

    /// The inverse of the cell matrix, or `None` for a degenerate cell.
    pub fn inverse(&self) -> Result<Option<[[f64; 3]; 3]>, Error> {
        let r = raw::tyn_inverse(self.into());
        r.done.of("tyn_inverse")?;
        Ok((r.found != 0).then(|| r.rows.into()))
    }

    /// Fractional coordinates (raw, not wrapped); `r` itself in a degenerate cell.
    pub fn to_fractional(&self, r: [f64; 3]) -> Result<[f64; 3], Error> {
        three("tyn_to_fractional", raw::tyn_to_fractional(self.into(), r.into()))
    }

    /// Cartesian coordinates of the fractional `s`.
    pub fn to_cartesian(&self, s: [f64; 3]) -> Result<[f64; 3], Error> {
        three("tyn_to_cartesian", raw::tyn_to_cartesian(self.into(), s.into()))
    }

    /// A position wrapped into the primary cell along the periodic axes; `r` itself in a degenerate cell.
    pub fn wrap(&self, r: [f64; 3]) -> Result<[f64; 3], Error> {
        three("tyn_wrap", raw::tyn_wrap(self.into(), r.into()))
    }

    /// The distance between opposite faces along each lattice direction.
    pub fn perp_widths(&self) -> Result<[f64; 3], Error> {
        three("tyn_perp_widths", raw::tyn_perp_widths(self.into()))
    }
}

fn three(call: &'static str, r: raw::Vector) -> Result<[f64; 3], Error> {
    r.done.of(call)?;
    Ok(r.value.into())
}

/// Minimum-image displacement of `d = ri - rj`, wrapped into the cell if one is present; `d` itself in a degenerate cell.
pub fn min_image(d: [f64; 3], cell: Option<&Lattice>) -> Result<[f64; 3], Error> {
    let r = raw::tyn_min_image(d.into(), cell.into());
    r.done.of("tyn_min_image")?;
    Ok(r.image.diff.into())
}

/// How many boxes a minimum image took off the difference along each lattice direction: 0 along an open axis and without a cell.
#[derive(Debug, Clone, Copy, PartialEq, Eq)]
pub enum Boxes {
    /// The three counts.
    Counted([i32; 3]),
    /// A count that is no `i32`.
    NoFit,
    /// A degenerate cell: the difference stayed as it is.
    NoInverse,
}

/// What [`min_image`] gives, and the boxes that it took off, by which a path is unfolded: where an atom's wrapped position moved by `d`, it went `diff`, and
/// crossed as many boxes the other way.
///
/// ```no_run
/// # use tyngyrlak::*;
/// let cell = Lattice::cubic(10.0);
/// let (diff, boxes) = min_image_counted([-9.5, 0.0, 0.5], Some(&cell))?;
/// assert_eq!((diff, boxes), ([0.5, 0.0, 0.5], Boxes::Counted([-1, 0, 0])));
/// # Ok::<(), Error>(())
/// ```
pub fn min_image_counted(d: [f64; 3], cell: Option<&Lattice>) -> Result<([f64; 3], Boxes), Error> {
    let r = raw::tyn_min_image(d.into(), cell.into());
    r.done.of("tyn_min_image")?;
    let i = r.image;
    let boxes = match i.kind {
        0 => Boxes::Counted([i.x, i.y, i.z]),
        1 => Boxes::NoFit,
        _ => Boxes::NoInverse,
    };
    Ok((i.diff.into(), boxes))
}
