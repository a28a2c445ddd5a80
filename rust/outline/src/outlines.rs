//! The numbers and turns of a list, owned: the room is sized and lent here.

use crate::assemble::assemble;
use crate::edge::Edge;
use crate::instructions::{instruction, Instruction, Machine};
use crate::outline::{Iter, Outline};
use crate::plain::{edge_at, write_edges};
use crate::refusal::Refusal;
use crate::rows::rows_enough;
use crate::{JOURNAL_NUMBERS_PER_EDGE, NUMBERS_PER_EDGE, NUMBERS_PER_ROW};

/// The outlines of a list of edges: for each edge its outline and its place
/// round it, and for each outline its edges in order. Needs the feature `std`.
///
/// ```
/// use outline::Outlines;
///
/// // A square of film 0 and one of film 1, with the side x = 2 between them.
/// let neighbours = [
///     0, 0, 2, 0, 0, 2, 0, 4, 0, 1, 0, 2, 0, 0, 0, 2, 0, 2, 2, 0, //
///     2, 2, 0, 2, 0, 2, 2, 2, 0, 1, 4, 0, 4, 2, 1, 4, 2, 2, 2, 1,
/// ];
/// let outlines = Outlines::of(&neighbours)?;
/// assert_eq!(outlines.count(), 2);
/// assert_eq!(outlines.polygons(), [2, 1, 2, 2, 2, 1, 1, 1]);
/// assert_eq!(outlines.sequences(), [2, 2, 1, 3, 0, 1, 3, 0]);
/// assert_eq!(outlines.places(1), [7, 5, 1, 6]);
/// assert_eq!(outlines.places(2), [4, 2, 0, 3]);
/// assert_eq!((outlines.film(1), outlines.film(2)), (Some(1), Some(0)));
/// assert_eq!((outlines.peak(), outlines.records()), (2, 10));
/// # Ok::<(), outline::Refusal>(())
/// ```
#[derive(Clone, PartialEq, Eq, Debug)]
pub struct Outlines {
    edges: Vec<i32>,
    polygons: Vec<u32>,
    sequences: Vec<u32>,
    turns: Vec<u32>,
    /// Where each outline begins in the turn list, and where the last ends.
    starts: Vec<usize>,
    peak: u32,
    records: u32,
}

impl Outlines {
    /// Numbers a plain list of edges and puts them in turn, with room enough. The
    /// list is kept, for the films and the instructions.
    ///
    /// # Errors
    ///
    /// The refusals 1, 2, 5 to 9, 16 and 17: those that speak of the list.
    ///
    /// ```
    /// use outline::{Outlines, Refusal};
    ///
    /// assert_eq!(Outlines::of(&[0, 0, 4, 2, 7, 4, 2, 0, 0, 7])?.count(), 1);
    /// assert_eq!(Outlines::of(&[0, 0, 4, 2, 7]), Err(Refusal::Uneven { edge: 0 }));
    /// # Ok::<(), Refusal>(())
    /// ```
    pub fn of(edges: &[i32]) -> Result<Outlines, Refusal> {
        Outlines::of_list(edges.to_vec())
    }

    /// The same for edges that are no plain numbers. They must be in sweep order:
    /// [`sort_into_sweep_order`] puts them so.
    ///
    /// # Errors
    ///
    /// The refusals 2, 5 to 9 and 17: those that speak of the edges.
    ///
    /// ```
    /// use outline::{Edge, Outlines, Point, Refusal};
    ///
    /// let (low, high) = (Point::new(0, 0), Point::new(4, 2));
    /// let there_and_back = [Edge::new(low, high, 7), Edge::new(high, low, 7)];
    /// assert_eq!(Outlines::of_edges(&there_and_back)?.count(), 1);
    /// # Ok::<(), Refusal>(())
    /// ```
    ///
    /// [`sort_into_sweep_order`]: crate::sort_into_sweep_order
    pub fn of_edges(edges: &[Edge]) -> Result<Outlines, Refusal> {
        Outlines::of_list(write_edges(edges))
    }

    fn of_list(edges: Vec<i32>) -> Result<Outlines, Refusal> {
        let count = edges.len() / NUMBERS_PER_EDGE;
        let mut outlines = Outlines {
            edges,
            polygons: vec![0; count],
            sequences: vec![0; count],
            turns: vec![0; count],
            starts: Vec::new(),
            peak: 0,
            records: 0,
        };
        outlines.assemble()?;
        outlines.find_starts();
        Ok(outlines)
    }

    fn assemble(&mut self) -> Result<(), Refusal> {
        let mut journal = vec![0; JOURNAL_NUMBERS_PER_EDGE * self.polygons.len()];
        let mut rows = vec![0; NUMBERS_PER_ROW * rows_enough(&self.edges)];
        let accepted = assemble(
            &self.edges,
            &mut self.polygons,
            &mut self.sequences,
            &mut self.turns,
            &mut journal,
            &mut rows,
        )?;
        self.peak = accepted.peak;
        self.records = accepted.records;
        Ok(())
    }

    fn find_starts(&mut self) {
        let first = |at: &usize| self.sequences[self.turns[*at] as usize] == 0;
        self.starts = (0..self.turns.len()).filter(first).collect();
        self.starts.push(self.turns.len());
    }

    /// The list of edges, five numbers for each.
    ///
    /// ```
    /// # use outline::Outlines;
    /// let outlines = Outlines::of(&[0, 0, 4, 2, 7, 4, 2, 1, 5, 7, 1, 5, 0, 0, 7])?;
    /// assert_eq!(outlines.edges()[10..], [1, 5, 0, 0, 7]);
    /// # Ok::<(), outline::Refusal>(())
    /// ```
    #[must_use]
    pub fn edges(&self) -> &[i32] {
        &self.edges
    }

    /// The edge at a place of the list, from 0. None past its end.
    ///
    /// ```
    /// # use outline::{Edge, Outlines, Point};
    /// let outlines = Outlines::of(&[0, 0, 4, 2, 7, 4, 2, 1, 5, 7, 1, 5, 0, 0, 7])?;
    /// let last = Edge::new(Point::new(1, 5), Point::new(0, 0), 7);
    /// assert_eq!(outlines.edge(2), Some(last));
    /// assert_eq!(outlines.edge(3), None);
    /// # Ok::<(), outline::Refusal>(())
    /// ```
    #[must_use]
    pub fn edge(&self, place: u32) -> Option<Edge> {
        let is_there = (place as usize) < self.turns.len();
        is_there.then(|| edge_at(&self.edges, place))
    }

    /// How many outlines there are.
    ///
    /// ```
    /// # use outline::Outlines;
    /// let outlines = Outlines::of(&[0, 0, 4, 2, 7, 4, 2, 1, 5, 7, 1, 5, 0, 0, 7])?;
    /// assert_eq!(outlines.count(), 1);
    /// # Ok::<(), outline::Refusal>(())
    /// ```
    #[must_use]
    pub fn count(&self) -> usize {
        self.starts.len() - 1
    }

    /// The outlines one after the other, in the order of their numbers: each with
    /// its film, its points and its edges.
    ///
    /// ```
    /// use outline::{Outlines, Point};
    ///
    /// let outlines = Outlines::of(&[0, 0, 4, 2, 7, 4, 2, 1, 5, 7, 1, 5, 0, 0, 7])?;
    /// for outline in outlines.iter() {
    ///     assert_eq!((outline.number(), outline.film()), (1, 7));
    ///     let corners: Vec<Point> = outline.points().collect();
    ///     assert_eq!(corners, [(1, 5), (0, 0), (4, 2)].map(Point::from));
    ///     assert_eq!(outline.edges().len(), 3);
    /// }
    /// # Ok::<(), outline::Refusal>(())
    /// ```
    pub fn iter(&self) -> Iter<'_> {
        Iter::of(self)
    }

    /// The outline with this number, counted from 1. None for a number that no
    /// outline has.
    ///
    /// ```
    /// # use outline::Outlines;
    /// let outlines = Outlines::of(&[0, 0, 4, 2, 7, 4, 2, 1, 5, 7, 1, 5, 0, 0, 7])?;
    /// assert_eq!(outlines.get(1).map(|outline| outline.film()), Some(7));
    /// assert!(outlines.get(0).is_none() && outlines.get(2).is_none());
    /// # Ok::<(), outline::Refusal>(())
    /// ```
    #[must_use]
    pub fn get(&self, number: usize) -> Option<Outline<'_>> {
        Outline::of(&self.edges, self.places(number), number)
    }

    /// Each edge's outline, from 1, in list order. Outlines are numbered from
    /// the one with the highest top down. Of two films' outlines with the same
    /// top the one whose later top edge stands later in the list comes first.
    ///
    /// ```
    /// # use outline::Outlines;
    /// let outlines = Outlines::of(&[0, 0, 4, 2, 7, 4, 2, 1, 5, 7, 1, 5, 0, 0, 7])?;
    /// assert_eq!(outlines.polygons(), [1, 1, 1]);
    /// # Ok::<(), outline::Refusal>(())
    /// ```
    #[must_use]
    pub fn polygons(&self) -> &[u32] {
        &self.polygons
    }

    /// Each edge's place round its outline, in list order. The edge that leaves
    /// the highest point has 0.
    ///
    /// ```
    /// # use outline::Outlines;
    /// let outlines = Outlines::of(&[0, 0, 4, 2, 7, 4, 2, 1, 5, 7, 1, 5, 0, 0, 7])?;
    /// assert_eq!(outlines.sequences(), [1, 2, 0]);
    /// # Ok::<(), outline::Refusal>(())
    /// ```
    #[must_use]
    pub fn sequences(&self) -> &[u32] {
        &self.sequences
    }

    /// The edges' places in the list, outline by outline and each in sequence
    /// order.
    ///
    /// ```
    /// # use outline::Outlines;
    /// let outlines = Outlines::of(&[0, 0, 4, 2, 7, 4, 2, 1, 5, 7, 1, 5, 0, 0, 7])?;
    /// assert_eq!(outlines.turns(), [2, 0, 1]);
    /// # Ok::<(), outline::Refusal>(())
    /// ```
    #[must_use]
    pub fn turns(&self) -> &[u32] {
        &self.turns
    }

    /// The places of one outline's edges, in sequence order: each edge ends
    /// where the next begins, and the last where the first does. Empty for a
    /// number that no outline has.
    ///
    /// ```
    /// # use outline::Outlines;
    /// let outlines = Outlines::of(&[0, 0, 4, 2, 7, 4, 2, 1, 5, 7, 1, 5, 0, 0, 7])?;
    /// assert_eq!(outlines.places(1), [2, 0, 1]);
    /// assert!(outlines.places(2).is_empty());
    /// # Ok::<(), outline::Refusal>(())
    /// ```
    #[must_use]
    pub fn places(&self, outline: usize) -> &[u32] {
        if outline == 0 || outline > self.count() {
            return &[];
        }
        &self.turns[self.starts[outline - 1]..self.starts[outline]]
    }

    /// The film of one outline, and so of each of its edges. None for a number that
    /// no outline has.
    ///
    /// ```
    /// # use outline::Outlines;
    /// let outlines = Outlines::of(&[0, 0, 4, 2, 7, 4, 2, 1, 5, 7, 1, 5, 0, 0, 7])?;
    /// assert_eq!((outlines.film(1), outlines.film(2)), (Some(7), None));
    /// # Ok::<(), outline::Refusal>(())
    /// ```
    #[must_use]
    pub fn film(&self, outline: usize) -> Option<u8> {
        self.get(outline).map(Outline::film)
    }

    /// What a machine is told to cut all outlines, in the order of their numbers:
    /// for each, travel to its highest point, cut along its edges, lift. There
    /// are as many instructions as edges, and two more for each outline. The
    /// engine is asked for each by itself, which takes it as long as looking
    /// through the whole list. It is proved that it refuses none of them.
    ///
    /// ```
    /// use outline::{Machine, Outlines};
    ///
    /// let outlines = Outlines::of(&[0, 0, 4, 2, 7, 4, 2, 1, 5, 7, 1, 5, 0, 0, 7])?;
    /// let text = |machine| {
    ///     let lines = outlines.instructions(machine).map(|one| one.to_string());
    ///     lines.collect::<Vec<String>>().join(", ")
    /// };
    /// assert_eq!(
    ///     text(Machine::Flatbed),
    ///     "travel 0.015625 0.078125, cut 0 0, cut 0.0625 0.03125, cut 0.015625 0.078125, lift"
    /// );
    /// assert_eq!(
    ///     text(Machine::RollFeeder),
    ///     "travel 0.078125 -0.015625, cut 0 0, cut 0.03125 -0.0625, cut 0.078125 -0.015625, lift"
    /// );
    /// # Ok::<(), outline::Refusal>(())
    /// ```
    #[must_use]
    pub fn instructions(
        &self,
        machine: Machine,
    ) -> impl ExactSizeIterator<Item = Instruction> + DoubleEndedIterator + '_ {
        let count = self.turns.len() + 2 * self.count();
        (0..count as u32).map(move |k| self.instruction(machine, k))
    }

    /// The k-th instruction, for a k that is not past the last. That numbers and
    /// turns from the engine's own call are refused nothing else is proved.
    fn instruction(&self, machine: Machine, k: u32) -> Instruction {
        let (polygons, sequences) = (&self.polygons, &self.sequences);
        let asked = instruction(machine, &self.edges, polygons, sequences, &self.turns, k);
        asked.unwrap_or_else(|refusal| panic!("instruction {}: {}", k, refusal))
    }

    /// The most rows that were in use at any moment.
    ///
    /// ```
    /// # use outline::Outlines;
    /// let outlines = Outlines::of(&[0, 0, 4, 2, 7, 4, 2, 1, 5, 7, 1, 5, 0, 0, 7])?;
    /// assert_eq!(outlines.peak(), 1);
    /// # Ok::<(), outline::Refusal>(())
    /// ```
    #[must_use]
    pub fn peak(&self) -> u32 {
        self.peak
    }

    /// How many records the sweep up wrote.
    ///
    /// ```
    /// # use outline::Outlines;
    /// let outlines = Outlines::of(&[0, 0, 4, 2, 7, 4, 2, 1, 5, 7, 1, 5, 0, 0, 7])?;
    /// assert_eq!(outlines.records(), 4);
    /// # Ok::<(), outline::Refusal>(())
    /// ```
    #[must_use]
    pub fn records(&self) -> u32 {
        self.records
    }
}

impl<'a> IntoIterator for &'a Outlines {
    type Item = Outline<'a>;
    type IntoIter = Iter<'a>;

    fn into_iter(self) -> Iter<'a> {
        self.iter()
    }
}
