//! The ways to number a sheet and put its edges in turn, on the same lent slices:
//! the engine, the witness's steps, and the two joiners. And the turn list read
//! from the numbers alone. What comes out of them is compared beforehand.

use witness::generate::Sheet;
use witness::geometry::{read_edges, Edge};
use witness::steps::{sweep_down, sweep_up};

use crate::hashed::{Joiner, Lent, FAST_JOINER, HASH_MAP};
use crate::laying;
use crate::timing::{best, Rounds};

/// Few rows, but enough for pixel art.
pub const FEW_ROWS: usize = 1_000;

/// A sheet with all that is lent for it. The slices are used again and again as
/// the last run left them; whoever needs them clear clears them in its own time.
pub struct Desk {
    list: Sheet,
    edges: Vec<Edge>,
    polygons: Vec<u32>,
    sequences: Vec<u32>,
    turns: Vec<u32>,
    journal: Vec<i32>,
    rows: Vec<i32>,
    outlines: usize,
}

impl Desk {
    /// A sound sheet with so many rows, which are enough; numbered once, since
    /// turn lists are read from its numbers.
    ///
    /// # Panics
    /// When it is refused.
    pub fn new(list: Sheet, rows: usize) -> Desk {
        let edges = read_edges(&list);
        let count = edges.len();
        let mut desk = Desk {
            list,
            edges,
            polygons: vec![7; count],
            sequences: vec![7; count],
            turns: vec![7; count],
            journal: vec![7; outline::JOURNAL_NUMBERS_PER_EDGE * count],
            rows: vec![7; outline::NUMBERS_PER_ROW * rows],
            outlines: 0,
        };
        desk.outlines = match desk.engine() {
            Ok(accepted) => accepted.polygons as usize,
            Err(refusal) => panic!("the engine refuses: {}", refusal),
        };
        desk
    }

    /// How many rows are lent.
    fn lent_rows(&self) -> usize {
        self.rows.len() / outline::NUMBERS_PER_ROW
    }

    /// Times the engine, the clearing of the lent rows alone, and the clearing
    /// with a call after it that is lent few of them, in turn.
    pub fn time_clearing(&mut self, rounds: usize) -> Rounds<3> {
        let engine = |desk: &mut Desk| {
            assert!(desk.engine().is_ok());
        };
        let clearing = |desk: &mut Desk| desk.rows.fill(0);
        let both = |desk: &mut Desk| {
            desk.rows.fill(0);
            assert!(desk.engine_with(FEW_ROWS).is_ok());
        };
        let times = Rounds::of(rounds, self, [engine, clearing, both]);
        assert!(self.rows.iter().all(|number| *number == 0));
        times
    }

    fn engine(&mut self) -> Result<outline::Accepted, outline::Refusal> {
        self.engine_with(self.lent_rows())
    }

    /// The engine, lent so many of the rows.
    fn engine_with(&mut self, rows: usize) -> Result<outline::Accepted, outline::Refusal> {
        outline::assemble(
            &self.list,
            &mut self.polygons,
            &mut self.sequences,
            &mut self.turns,
            &mut self.journal,
            &mut self.rows[..outline::NUMBERS_PER_ROW * rows],
        )
    }

    fn witness(&mut self) -> witness::Answer {
        witness::assemble(
            &self.list,
            &mut self.polygons,
            &mut self.sequences,
            &mut self.turns,
            &mut self.journal,
            &mut self.rows,
        )
    }

    /// The witness's two sweeps alone, without its checks and its turn list.
    fn sweeps(&mut self) {
        let swept = sweep_up(&self.edges, self.lent_rows()).expect("rows enough");
        let numbering = sweep_down(&swept.records, self.edges.len());
        assert_eq!(numbering.polygons.len(), self.edges.len());
    }

    fn join(&mut self, joiner: Joiner) {
        let mut lent = Lent {
            polygons: &mut self.polygons,
            sequences: &mut self.sequences,
            turns: &mut self.turns,
            journal: self.journal.len(),
        };
        assert!(joiner(&self.list, &mut lent).is_ok());
    }

    fn engine_turns(&mut self) {
        let answer = outline::turns(&self.polygons, &self.sequences, &mut self.turns);
        assert!(answer.is_ok());
    }

    fn witness_turns(&mut self) {
        witness::turns(&self.polygons, &self.sequences, &mut self.turns);
    }

    /// Lays the turn list alone; says whether that can be.
    fn lay(&mut self) -> bool {
        laying::lay(
            &self.polygons,
            &self.sequences,
            self.outlines,
            &mut self.turns,
        )
    }
}

/// Several sheets, each with what is lent for it, worked one after the other.
pub struct Desks(Vec<Desk>);

/// The engine's place in the rounds.
pub const ENGINE: usize = 0;

/// That of the hash map.
pub const HASHED: usize = 1;

/// That of the fast joiner.
pub const FAST: usize = 2;

impl Desks {
    /// Sheets, each with as many rows as its peak.
    pub fn new(sheets: impl Iterator<Item = (Sheet, usize)>) -> Desks {
        Desks(sheets.map(|(sheet, peak)| Desk::new(sheet, peak)).collect())
    }

    /// How many edges all of them have.
    pub fn count(&self) -> usize {
        self.0.iter().map(|desk| desk.edges.len()).sum()
    }

    /// The edges and the rows of the first one.
    pub fn first(&self) -> (usize, usize) {
        (self.0[0].edges.len(), self.0[0].lent_rows())
    }

    /// Times engine, hash map and fast joiner, so many rounds in turn.
    pub fn time_in_turn(&mut self, rounds: usize) -> Rounds<3> {
        let engine = |desks: &mut Desks| desks.each(|desk| assert!(desk.engine().is_ok()));
        let hashed = |desks: &mut Desks| desks.each(|desk| desk.join(HASH_MAP));
        let fast = |desks: &mut Desks| desks.each(|desk| desk.join(FAST_JOINER));
        Rounds::of(rounds, self, [engine, hashed, fast])
    }

    /// Times the witness, and its two sweeps alone.
    pub fn time_witness(&mut self) -> [f64; 2] {
        let witness = |desk: &mut Desk| {
            desk.witness();
        };
        [witness, Desk::sweeps].map(|work| best(|| self.each(work)))
    }

    /// Times the turn list read from the numbers, by engine and by witness.
    pub fn time_turns(&mut self) -> [f64; 2] {
        let both: [fn(&mut Desk); 2] = [Desk::engine_turns, Desk::witness_turns];
        both.map(|work| best(|| self.each(work)))
    }

    /// Times the laying of the turn list alone, where that can be.
    pub fn time_laying(&mut self) -> Option<f64> {
        let able = self.0.iter_mut().all(Desk::lay);
        let lay = |desk: &mut Desk| {
            desk.lay();
        };
        able.then(|| best(|| self.each(lay)))
    }

    /// Does some work on every desk.
    fn each(&mut self, work: impl FnMut(&mut Desk)) {
        self.0.iter_mut().for_each(work);
    }
}
