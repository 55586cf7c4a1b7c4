//! A trajectory in extended XYZ that is whole or not there under its name: frames go to FILE.part, which is renamed when the run is done.
use crate::xyz::{shown, symbol, written, Atom};
use std::fs::File;
use std::io::Write;
use tyngyrlak::Lattice;

pub struct Trajectory {
    name: String,
    part: String,
    file: Option<File>,
    every: usize,
    frames: usize,
    cell: Option<Lattice>,
    atoms: Vec<Atom>,
}

impl Trajectory {
    /// Nothing is written yet. Refused where a species is no element.
    pub fn planned(name: &str, every: usize, cell: Option<Lattice>, atoms: Vec<Atom>) -> Result<Self, String> {
        match atoms.iter().find(|a| symbol(a.number).is_none()) {
            Some(a) => Err(format!("species {} is no element: a trajectory wants 0 to 118", a.number)),
            None => Ok(Self { name: name.into(), part: format!("{name}.part"), file: None, every, frames: 0, cell, atoms }),
        }
    }

    pub fn begin(&mut self) -> Result<(), String> {
        self.file = Some(File::create(&self.part).map_err(|e| format!("{}: {e}", self.part))?);
        Ok(())
    }

    pub fn due(&self, step: usize) -> bool {
        step % self.every == 0
    }

    /// One more frame, at once: time in fs, potential energy in eV, as ASE reads it.
    pub fn add(&mut self, step: usize, time: f64, potential: f64, positions: &[[f64; 3]], velocities: &[[f64; 3]]) -> Result<(), String> {
        for (a, (&position, &velocity)) in self.atoms.iter_mut().zip(positions.iter().zip(velocities)) {
            (a.position, a.velocity) = (position, velocity);
        }
        let frame = written(self.cell.as_ref(), &self.atoms, &format!("step={step} time={} energy={}", shown(time), shown(potential)));
        self.frames += 1;
        self.file.as_mut().map_or(Ok(()), |f| f.write_all(frame.as_bytes())).map_err(|e| format!("{}: {e}", self.part))
    }

    /// The marked atoms are in no later frame.
    pub fn strike(&mut self, marks: &[bool]) {
        let mut marks = marks.iter();
        self.atoms.retain(|_| marks.next() == Some(&false));
    }

    /// The file gets its name.
    pub fn finish(mut self) -> Result<(), String> {
        let Some(file) = self.file.take() else { return Ok(()) };
        file.sync_all().and_then(|()| std::fs::rename(&self.part, &self.name)).map_err(|e| format!("{}: {e}", self.name))?;
        println!("trajectory   {} frames in {}", self.frames, self.name);
        Ok(())
    }
}

impl Drop for Trajectory {
    fn drop(&mut self) {
        if self.file.is_some() {
            eprintln!("night: the run is not finished; its {} frames so far are in {}", self.frames, self.part);
        }
    }
}
