//! How many pairs sit at each distance over a run: positions go onto a grid of whole numbers, so many an Å, and are counted there exactly.
use std::collections::BTreeSet;
use std::error::Error;
use std::f64::consts::PI;
use tyngyrlak::{Frame, Lattice, Shells, Snapshot};

pub struct Counted {
    shells: Shells,
    snapshot: Snapshot,
    cell: Lattice,
    per: f64,
    frames: usize,
}

impl Counted {
    /// So many shells up to a radius (Å). The cell must be orthorhombic, periodic along each axis, and at least twice as wide as the radius.
    pub fn new(count: usize, per: f64, cell: Option<Lattice>, radius: f64, excluded: &[(usize, usize)]) -> Result<Self, Box<dyn Error>> {
        let cell = cell.ok_or("shells want a cell")?;
        if !cell.is_orthorhombic()? || cell.periodic != [true; 3] {
            return Err("shells want a cell with edges along the axes that is periodic along each".into());
        }
        let edges = [cell.a[0], cell.b[1], cell.c[2]].map(|l| (l.abs() * per).round());
        let reach = (radius * per).floor();
        if !(1..=4096).contains(&count) || reach < 1.0 || edges.iter().any(|&e| !(2.0 * reach..=1_048_576.0).contains(&e)) {
            return Err("shells want 1 to 4,096 of them, a cell of twice the list's cutoff and of at most 1,048,576 whole numbers along each axis".into());
        }
        let frame = Frame { edges: edges.map(|e| e as u32), periodic: [true; 3], radius: reach as u32 };
        let exclusions: BTreeSet<(u32, u32)> = excluded.iter().filter(|(i, j)| i != j).map(|&(i, j)| (i.min(j) as u32, i.max(j) as u32)).collect();
        let width = (u64::from(frame.radius).pow(2) + 1).div_ceil(count as u64);
        let snapshot = Snapshot { frame, atoms: Vec::new(), exclusions };
        Ok(Self { shells: Shells::new(width, count), snapshot, cell, per, frames: 0 })
    }

    pub fn add(&mut self, positions: &[[f64; 3]]) -> Result<(), tyngyrlak::Error> {
        let edges = self.snapshot.frame.edges;
        self.snapshot.atoms.clear();
        for &r in positions {
            let s = self.cell.to_fractional(r)?;
            self.snapshot.atoms.push([0, 1, 2].map(|k| ((s[k].rem_euclid(1.0) * f64::from(edges[k])) as u32).min(edges[k] - 1)));
        }
        self.shells.add(&self.snapshot)?;
        self.frames += 1;
        Ok(())
    }

    pub fn print(&self) {
        let radius = f64::from(self.snapshot.frame.radius);
        let last = self.shells.totals().len() - 1;
        let bound = |k: usize| if k > last { radius } else { ((k as f64) * (self.shells.width() as f64)).sqrt().min(radius) } / self.per;
        println!("shells       {} pairs in {} frames, distances in A", self.shells.sum(), self.frames);
        println!("{:>5} {:>12} {:>12} {:>20} {:>16}", "shell", "from", "to", "pairs", "per volume");
        for (k, &pairs) in self.shells.totals().iter().enumerate() {
            let (from, to) = (bound(k), bound(k + 1));
            let volume = 4.0 / 3.0 * PI * (to.powi(3) - from.powi(3));
            let density = if volume > 0.0 { pairs as f64 / volume } else { 0.0 };
            println!("{k:>5} {from:>12.4} {to:>12.4} {pairs:>20} {density:>16.6e}");
        }
    }
}
