//! Verlet neighbor lists backed by a grid of cells.
//!
//! The list holds every pair within `cutoff + skin` and stays valid until some atom has moved more than `skin/2` or the cell has changed.
use super::cell::Lattice;
use crate::raw::{self, Done, State};
use crate::Error;
use std::borrow::Cow;
use std::collections::HashSet;
use std::sync::OnceLock;

/// The most cells of a grid, and one more start than cells.
const STARTS: usize = 32_768 + 1;
/// Room for pairs to begin with, rows an atom.
const ROWS_AN_ATOM: usize = 64;

/// A Verlet neighbor list. It owns the memory that the library is lent, and makes more where the pairs do not fit.
#[derive(Clone, Debug, Default)]
pub struct NeighborList {
    /// Interaction cutoff in Å.
    pub cutoff: f64,
    /// Verlet skin in Å: pairs are listed out to `cutoff + skin`.
    pub skin: f64,
    /// What the library handed back last; its cutoff and skin are the fields above.
    state: State,
    rooms: Rooms,
    /// The exclusion table is its first `excluded` rows.
    table: Vec<u32>,
    excluded: u32,
    /// The listed pairs as `pairs` gives them, made when first asked for.
    listed: OnceLock<Vec<(usize, usize)>>,
}

/// The memory of a list: two numbers a pair, three floats an atom, the grid's starts, the atoms by bins.
#[derive(Clone, Debug, Default)]
pub(crate) struct Rooms {
    pub pairs: Vec<u32>,
    pub references: Vec<f64>,
    pub starts: Vec<u32>,
    pub items: Vec<u32>,
}

type Question = fn(State, raw::Cell, &[f64], &[f64]) -> raw::YesNo;
type Update = fn(State, raw::Cell, &[f64], &[u32], &mut [u32], &mut [f64], &mut [u32], &mut [u32]) -> raw::Updated;

impl NeighborList {
    /// A list with the given interaction cutoff and Verlet skin (both Å); a negative skin is 0.
    ///
    /// Numbers out of range are kept as they are, and every call of the list then refuses them (3).
    pub fn new(cutoff: f64, skin: f64) -> Self {
        let made = raw::tyn_new(cutoff, skin);
        let skin = if made.done.number == 0 { made.state.skin } else { skin };
        Self { cutoff, skin, ..Default::default() }
    }

    /// The search radius `cutoff + skin`.
    pub fn search_radius(&self) -> Result<f64, Error> {
        let r = raw::tyn_search_radius(self.state());
        r.done.of("tyn_search_radius")?;
        Ok(r.value)
    }

    /// The current pair list: each pair low before high, in the order of the search.
    ///
    /// The first call after a build copies the library's pairs; `compute_pairs` takes the list itself without a copy.
    pub fn pairs(&self) -> &[(usize, usize)] {
        self.listed.get_or_init(|| self.pair_rows().iter().map(|&[i, j]| (i as usize, j as usize)).collect())
    }

    /// The current pair list as the library keeps it.
    pub fn pair_rows(&self) -> &[[u32; 2]] {
        &self.rooms.pairs.as_chunks().0[..self.state.pairs as usize]
    }

    /// Candidate distances evaluated in the most recent build.
    pub fn checks(&self) -> usize {
        self.state.checks as usize
    }

    /// Whether the last build fell back to the all-pairs loop.
    pub fn used_fallback(&self) -> bool {
        self.state.fallback != 0
    }

    /// How many times this list has been rebuilt. The counter comes round to 0 after 2^32 - 1; [`Self::builds_since`] spans that.
    pub fn builds(&self) -> usize {
        self.state.builds as usize
    }

    /// How many builds there were since an earlier reading of [`Self::builds`].
    pub fn builds_since(&self, earlier: usize) -> usize {
        raw::tyn_builds_since(self.state(), earlier as u32) as usize
    }

    /// Excludes a pair from the list (bonded 1-2/1-3 neighbors, typically) from the next build on. An atom with itself is ignored, and so is a number that
    /// no u32 holds, which names no atom.
    pub fn exclude(&mut self, i: usize, j: usize) {
        let (Ok(i), Ok(j)) = (u32::try_from(i), u32::try_from(j)) else { return };
        loop {
            let r = raw::tyn_exclude(self.excluded, i, j, &mut self.table);
            if r.done.number == 0 {
                self.excluded = r.value as u32;
                return;
            }
            assert_eq!(r.done.number, 8, "the table is this list's own");
            self.table.resize(4 * r.done.place as usize, 0);
        }
    }

    /// Replaces the exclusion set.
    pub fn set_exclusions<I: IntoIterator<Item = (usize, usize)>>(&mut self, pairs: I) {
        let small = |x| u32::try_from(x).ok();
        let mut rows: Vec<[u32; 2]> = pairs.into_iter().filter_map(|(i, j)| Some([small(i.min(j))?, small(i.max(j))?])).collect();
        // the library puts a pair that is past all others at the end, so a sorted table costs no moves
        rows.sort_unstable();
        self.table = vec![0; 2 * rows.len()];
        let r = raw::tyn_set_exclusions(rows.as_flattened(), &mut self.table);
        assert_eq!(r.done.number, 0, "there is a row for each pair");
        self.excluded = r.value as u32;
    }

    /// The excluded pairs, each as `(min, max)`. (The original hands out a reference to its set; the library keeps a sorted table.)
    pub fn exclusions(&self) -> HashSet<(usize, usize)> {
        self.table().chunks_exact(2).map(|r| (r[0] as usize, r[1] as usize)).collect()
    }

    /// Whether the pair list must be rebuilt for the given positions: some atom has moved more than `skin/2`, the skin is 0, or the count changed.
    ///
    /// It knows nothing of a cell that changed; [`Self::outdated`] does.
    pub fn needs_rebuild(&self, positions: &[[f64; 3]], cell: Option<&Lattice>) -> Result<bool, Error> {
        self.ask("tyn_needs_rebuild", raw::tyn_needs_rebuild, positions, cell)
    }

    /// Whether the pair list must be rebuilt for the given positions in the given cell: [`Self::needs_rebuild`] calls for it, or the cell is not, bit for
    /// bit, the one that the list was built in (also a cell against none). An [`Evaluator`](super::evaluate::Evaluator) asks this question; the original has
    /// none like it.
    pub fn outdated(&self, positions: &[[f64; 3]], cell: Option<&Lattice>) -> Result<bool, Error> {
        self.ask("tyn_outdated", raw::tyn_outdated, positions, cell)
    }

    /// The cell of the last build: none before the first one, and none where it was built without a cell.
    pub fn built_in(&self) -> Option<Lattice> {
        let raw::Cell { present, lattice: l } = self.state.built_in;
        (present != 0).then_some(Lattice { a: l.a.into(), b: l.b.into(), c: l.c.into(), periodic: [l.px != 0, l.py != 0, l.pz != 0] })
    }

    fn ask(&self, call: &'static str, question: Question, positions: &[[f64; 3]], cell: Option<&Lattice>) -> Result<bool, Error> {
        // the library wants as many references as positions, also where the counts differ
        let mut references = Cow::Borrowed(&self.rooms.references);
        if references.len() < 3 * positions.len() {
            references.to_mut().resize(3 * positions.len(), 0.0);
        }
        let r = question(self.state(), cell.into(), positions.as_flattened(), &references);
        r.done.of(call)?;
        Ok(r.value != 0)
    }

    /// Rebuilds the pair list if [`Self::needs_rebuild`] calls for it. Gives whether a rebuild happened.
    pub fn maybe_build(&mut self, positions: &[[f64; 3]], cell: Option<&Lattice>) -> Result<bool, Error> {
        self.update("tyn_maybe_build", raw::tyn_maybe_build, positions, cell)
    }

    /// Builds the pair list from scratch. A refusal leaves the list as it was.
    pub fn build(&mut self, positions: &[[f64; 3]], cell: Option<&Lattice>) -> Result<(), Error> {
        self.update("tyn_build", raw::tyn_build, positions, cell).map(|_| ())
    }

    fn update(&mut self, call: &'static str, update: Update, positions: &[[f64; 3]], cell: Option<&Lattice>) -> Result<bool, Error> {
        self.make_ready(positions.len());
        loop {
            let (s, r) = (self.state(), &mut self.rooms);
            let table = &self.table[..2 * self.excluded as usize];
            let u = update(s, cell.into(), positions.as_flattened(), table, &mut r.pairs, &mut r.references, &mut r.starts, &mut r.items);
            if !self.took(u.done, u.state) {
                u.done.of(call)?;
                return Ok(u.rebuilt != 0);
            }
        }
    }

    /// The state that goes into a call.
    pub(crate) fn state(&self) -> State {
        State { cutoff: self.cutoff, skin: self.skin, ..self.state }
    }

    /// The exclusion table.
    pub(crate) fn table(&self) -> &[u32] {
        &self.table[..2 * self.excluded as usize]
    }

    /// The exclusion table, which a strike closes up.
    pub(crate) fn table_mut(&mut self) -> &mut [u32] {
        &mut self.table[..2 * self.excluded as usize]
    }

    /// What a strike or a new atom leaves of the list: this state, and so many rows of the exclusion table.
    pub(crate) fn emptied(&mut self, state: State, excluded: u32) {
        (self.state, self.excluded) = (state, excluded);
        self.listed = OnceLock::new();
    }

    /// How many pairs are excluded.
    pub(crate) fn excluded_rows(&self) -> u32 {
        self.excluded
    }

    /// The exclusion table and the rooms, which a call is lent.
    pub(crate) fn lent(&mut self) -> (&[u32], &mut Rooms) {
        (&self.table[..2 * self.excluded as usize], &mut self.rooms)
    }

    /// Sees to it that the rooms hold so many atoms. Rooms never get shorter.
    pub(crate) fn make_ready(&mut self, atoms: usize) {
        let r = &mut self.rooms;
        r.starts.resize(STARTS, 0);
        if r.items.len() < atoms {
            r.items.resize(atoms, 0);
            r.references.resize(3 * atoms, 0.0);
        }
        if r.pairs.is_empty() {
            r.pairs = vec![0; 2 * ROWS_AN_ATOM * atoms];
        }
    }

    /// Takes the state that a call handed back. Where the pairs did not fit there is more room now, by an eighth more than they need: true, call again.
    pub(crate) fn took(&mut self, done: Done, state: State) -> bool {
        if (state.builds, state.pairs) != (self.state.builds, self.state.pairs) {
            self.listed.take();
        }
        (self.cutoff, self.skin, self.state) = (state.cutoff, state.skin, state);
        if done.number == 8 {
            self.rooms.pairs = vec![0; 2 * (done.place + done.place / 8) as usize];
        }
        done.number == 8
    }
}

/// Pairs of atoms that a term runs over: those of [`NeighborList::pairs`], or the list itself, which needs no copy.
pub trait PairRows {
    /// Two numbers a pair.
    fn rows(&self) -> Cow<'_, [u32]>;
}

impl PairRows for NeighborList {
    fn rows(&self) -> Cow<'_, [u32]> {
        Cow::Borrowed(self.pair_rows().as_flattened())
    }
}

impl PairRows for [(usize, usize)] {
    fn rows(&self) -> Cow<'_, [u32]> {
        Cow::Owned(raw::rows(self))
    }
}

impl PairRows for Vec<(usize, usize)> {
    fn rows(&self) -> Cow<'_, [u32]> {
        Cow::Owned(raw::rows(self))
    }
}

impl<const N: usize> PairRows for [(usize, usize); N] {
    fn rows(&self) -> Cow<'_, [u32]> {
        Cow::Owned(raw::rows(self))
    }
}
