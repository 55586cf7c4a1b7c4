//! A refusal of the library as an error.
use crate::raw::Done;
use std::fmt;

/// A call that the library refused: which call, the refusal's number and place, and what they say in words ([`Error::words`], [`fmt::Display`]).
///
/// Whatever was handed to the call is then as it came, with the exceptions that the functions name.
#[derive(Debug, Clone, Copy, PartialEq, Eq)]
pub struct Error {
    /// The library's call, as include/tyngyrlak.h names it.
    pub call: &'static str,
    /// The refusal's number, 1 to 13.
    pub number: u32,
    /// Its place: for 2 the number of atoms, for 3 a 1 where a drifted coordinate is meant, for 4 the row (of a sheet the atom), for 8 the full count, for
    /// 9 and 10 a sheet's line, for 11 the atom (ffffffff: the header), for 12 the atom; else 0.
    pub place: u64,
    /// Whether a step stopped after its drift: [`verlet_finish`](crate::field::verlet::verlet_finish) then takes it to its end.
    pub stopped: bool,
    /// Of [`fire`](crate::field::fire::fire()): the iteration that was refused, 0 before the first. Of other calls 0.
    pub iteration: u32,
}

impl Error {
    /// What the refusal's number says.
    pub fn words(&self) -> &'static str {
        match (self.number, self.place) {
            (1, _) => "lengths disagree",
            (2, _) => "too many atoms: 16,384 is the most, 1,024 on a sheet",
            (3, 1) => "a coordinate would drift out of range",
            (3, _) => "a number is out of range, or not finite",
            (4, _) => "a pair, a bond or an angle names an atom that is not there",
            (5, _) => "a table is not strictly ascending",
            (6, _) => "the list claims more than its room",
            (7, _) => "the grid needs more than 32,768 cells",
            (8, _) => "the pairs do not fit",
            (9, _) => "a line of the sheet is malformed",
            (10, _) => "a second header, or an atom number again",
            (11, 0xffff_ffff) => "the sheet has no header",
            (11, _) => "an atom of the sheet is absent",
            (12, 0xffff_ffff) => "the sheet can't go back to the first form: its rule is 2",
            (12, _) => "the sheet can't go back to the first form: an atom has a species",
            (13, _) => "a total would pass 2^64 - 1",
            _ => "the library refused",
        }
    }
}

impl fmt::Display for Error {
    fn fmt(&self, f: &mut fmt::Formatter<'_>) -> fmt::Result {
        write!(f, "{}: refusal {}, place {}: {}", self.call, self.number, self.place, self.words())?;
        if self.iteration > 0 {
            write!(f, " (in iteration {})", self.iteration)?;
        }
        if self.stopped {
            write!(f, " (the step stopped after its drift)")?;
        }
        Ok(())
    }
}

impl std::error::Error for Error {}

impl Done {
    /// Answered, or the refusal of `call`.
    pub(crate) fn of(self, call: &'static str) -> Result<(), Error> {
        match self.number {
            0 => Ok(()),
            number => Err(Error { call, number: number as u32, place: self.place, stopped: false, iteration: 0 }),
        }
    }
}
