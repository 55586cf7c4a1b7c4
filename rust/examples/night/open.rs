//! The cell that the library is handed where an axis is open. It folds positions along an open axis too, so that a pair across that face can be missed
//! (docs/DIFFERENCES.md). In place of the open axis it gets one at right angles to all others that is periodic, but so long that nothing reaches across it;
//! with no periodic axis it gets no cell.
use tyngyrlak::Lattice;

pub struct Open {
    cell: Lattice,
    /// The direction of each open axis; zero for a periodic one.
    across: [[f64; 3]; 3],
    lengths: [f64; 3],
    reach: f64,
}

impl Open {
    /// For pairs up to `reach` apart. None where no axis is open.
    pub fn new(cell: Lattice, reach: f64) -> Option<Self> {
        cell.periodic.contains(&false).then(|| Self { cell, across: across(&cell), lengths: [0.0; 3], reach })
    }

    /// Another cell, where the one before does not hold these positions and a step from them. (Some(None): no cell at all.)
    pub fn changed(&mut self, positions: &[[f64; 3]]) -> Option<Option<Lattice>> {
        // twice the extent: a bond may be as long
        let needed = self.across.map(|u| {
            let (low, high) = positions.iter().map(|r| dot(u, *r)).fold((f64::INFINITY, f64::NEG_INFINITY), |(l, h), x| (l.min(x), h.max(x)));
            2.0 * (high - low).max(0.0) + 3.0 * self.reach
        });
        if (0..3).all(|k| self.cell.periodic[k] || needed[k] <= self.lengths[k]) {
            return None;
        }
        self.lengths = needed.map(|n| n + 2.0 * self.reach.max(1.0));
        if self.cell.periodic == [false; 3] {
            return Some(None);
        }
        let row = |k: usize, own: [f64; 3]| if self.cell.periodic[k] { own } else { self.across[k].map(|x| self.lengths[k] * x) };
        let Lattice { a, b, c, .. } = self.cell;
        Some(Some(Lattice { a: row(0, a), b: row(1, b), c: row(2, c), periodic: [true; 3] }))
    }
}

fn dot(a: [f64; 3], b: [f64; 3]) -> f64 {
    a[0] * b[0] + a[1] * b[1] + a[2] * b[2]
}

fn cross(a: [f64; 3], b: [f64; 3]) -> [f64; 3] {
    [a[1] * b[2] - a[2] * b[1], a[2] * b[0] - a[0] * b[2], a[0] * b[1] - a[1] * b[0]]
}

/// Of length 1; zero where there is no direction, and then the cell has no inverse and nothing is folded.
fn unit(a: [f64; 3]) -> [f64; 3] {
    let length = dot(a, a).sqrt();
    a.map(|x| if length > 0.0 { x / length } else { 0.0 })
}

fn across(cell: &Lattice) -> [[f64; 3]; 3] {
    let rows = [cell.a, cell.b, cell.c];
    let mut found = [[0.0; 3]; 3];
    match [0, 1, 2].iter().copied().filter(|&k| cell.periodic[k]).collect::<Vec<usize>>()[..] {
        [i, j] => found[3 - i - j] = unit(cross(rows[i], rows[j])),
        [i] => {
            let p = unit(rows[i]);
            // the axis that is least along p
            let least = (0..3).min_by(|&a, &b| p[a].abs().total_cmp(&p[b].abs())).unwrap_or(0);
            let mut e = [0.0; 3];
            e[least] = 1.0;
            let u = unit([0, 1, 2].map(|k| e[k] - p[least] * p[k]));
            (found[(i + 1) % 3], found[(i + 2) % 3]) = (u, cross(p, u));
        }
        _ => {}
    }
    found
}
