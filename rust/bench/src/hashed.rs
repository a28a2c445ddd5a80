//! Joining by a hash map, as one would write it without Hartley's method: the
//! same checks in the same order, each edge's follower looked up by point and
//! film, and where four edges meet by their directions, every round walked once,
//! outlines sorted by their tops. It gives the same polygon and sequence numbers,
//! the same turn list and the same refusals but for 10; it writes no journal and
//! needs no rows. The map hashes as one likes: there are two joiners, that of
//! std's own hasher and a fast one.

use std::collections::hash_map::RandomState;
use std::collections::HashMap;
use std::hash::{BuildHasher, BuildHasherDefault};

use witness::checks::{Lengths, Refusal, JOURNAL_NUMBERS_PER_EDGE};
use witness::geometry::{read_edges, Edge, Point, Site, MOST_EDGES, NUMBERS_PER_EDGE};

use crate::multiplying::Multiplying;

/// A way of joining: numbers a list and puts its edges in turn; gives how many
/// outlines there are.
pub type Joiner = fn(&[i32], &mut Lent) -> Result<u32, Refusal>;

/// Joining by std's hash map as it is.
pub const HASH_MAP: Joiner = assemble::<RandomState>;

/// Joining by the same map with a fast hasher.
pub const FAST_JOINER: Joiner = assemble::<BuildHasherDefault<Multiplying>>;

/// The lists that are filled, and how many numbers the journal has that is not
/// written.
pub struct Lent<'a> {
    /// The polygon list.
    pub polygons: &'a mut [u32],
    /// The sequence list.
    pub sequences: &'a mut [u32],
    /// The turn list.
    pub turns: &'a mut [u32],
    /// The length of the journal.
    pub journal: usize,
}

impl Lent<'_> {
    fn lengths(&self) -> Lengths {
        Lengths {
            polygons: self.polygons.len(),
            sequences: self.sequences.len(),
            turns: self.turns.len(),
            journal: self.journal,
        }
    }
}

/// Joins by a map that hashes in this way.
fn assemble<S: BuildHasher + Default>(numbers: &[i32], lent: &mut Lent) -> Result<u32, Refusal> {
    check_lengths(numbers.len(), lent.lengths())?;
    let edges = read_edges(numbers);
    check_edges(&edges)?;
    let ends = Ends::<S>::of(&edges)?;
    ends.check(9, &edges, Meeting::is_balanced)?;
    ends.check(17, &edges, |meeting| meeting.alternates(&edges))?;
    let followers = ends.followers(&edges);
    Ok(walk(&edges, &followers, lent))
}

/// Refusals 1 to 4.
fn check_lengths(numbers: usize, lengths: Lengths) -> Result<(), Refusal> {
    let edges = numbers / NUMBERS_PER_EDGE;
    if numbers % NUMBERS_PER_EDGE != 0 {
        Err(Refusal::at(1, 0))
    } else if edges > MOST_EDGES {
        Err(Refusal::at(2, 0))
    } else if [lengths.polygons, lengths.sequences, lengths.turns] != [edges; 3] {
        Err(Refusal::at(3, 0))
    } else if lengths.journal < JOURNAL_NUMBERS_PER_EDGE * edges {
        Err(Refusal::at(4, 0))
    } else {
        Ok(())
    }
}

/// Refusals 5, 16, 6 and 7.
fn check_edges(edges: &[Edge]) -> Result<(), Refusal> {
    let mut before = Point::new(i32::MIN, i32::MIN);
    for (place, edge) in edges.iter().enumerate() {
        if !edge.is_in_range() {
            return Err(Refusal::at(5, place));
        }
        if !edge.has_film_in_range() {
            return Err(Refusal::at(16, place));
        }
        if edge.tail == edge.head {
            return Err(Refusal::at(6, place));
        }
        let top = edge.top();
        if top < before {
            return Err(Refusal::at(7, place));
        }
        before = top;
    }
    Ok(())
}

/// The edges of a film at a point: for each of the four kinds, one edge or none.
#[derive(Clone, Copy)]
struct Meeting {
    arriving: [u32; 2],
    leaving: [u32; 2],
}

/// No edge.
const NONE: u32 = u32::MAX;

impl Meeting {
    const EMPTY: Meeting = Meeting {
        arriving: [NONE; 2],
        leaving: [NONE; 2],
    };

    fn is_balanced(&self) -> bool {
        let count = |edges: [u32; 2]| edges.iter().filter(|edge| **edge != NONE).count();
        count(self.arriving) == count(self.leaving)
    }

    /// Whether all four kinds are here, for a point that is balanced.
    fn is_corner(&self) -> bool {
        !self.leaving.contains(&NONE)
    }

    /// Whether four edges alternate, for a point that is balanced: going round
    /// clockwise either the arriving edge comes first both above and below, or the
    /// leaving one does.
    fn alternates(&self, edges: &[Edge]) -> bool {
        if !self.is_corner() {
            return true;
        }
        let (lower, upper) = (self.turn(0, edges), self.turn(1, edges));
        lower != 0 && lower == upper
    }

    /// The turn from the way back along the edge that arrives on a side, 0 below
    /// and 1 above, to the way along the one that leaves on it: -1 where that is
    /// met first clockwise, 0 where both are of one direction, 1 otherwise.
    fn turn(&self, side: usize, edges: &[Edge]) -> i64 {
        let (arriving, leaving) = (self.arriving[side], self.leaving[side]);
        let along = |edge: &Edge| {
            let far = |one: i32, other: i32| i64::from(other) - i64::from(one);
            (far(edge.tail.x, edge.head.x), far(edge.tail.y, edge.head.y))
        };
        let (arriving, leaving) = (&edges[arriving as usize], &edges[leaving as usize]);
        let (back, out) = (along(&arriving.reversed()), along(leaving));
        (back.0 * out.1 - back.1 * out.0).signum()
    }

    /// The edge that follows the one that arrives on a side: where four meet, the
    /// one on its own side if that is the first met clockwise.
    fn follower(&self, side: usize, edges: &[Edge]) -> u32 {
        let stays = !self.is_corner() || self.turn(side, edges) < 0;
        let [own, other] = [self.leaving[side], self.leaving[1 - side]];
        if stays && own != NONE {
            own
        } else {
            other
        }
    }
}

/// All points of a list, film by film, with the edges there.
struct Ends<S> {
    meetings: HashMap<Site, Meeting, S>,
}

impl<S: BuildHasher + Default> Ends<S> {
    /// Gathers the ends; refusal 8 where a kind is taken.
    fn of(edges: &[Edge]) -> Result<Ends<S>, Refusal> {
        let mut meetings = HashMap::with_capacity_and_hasher(edges.len(), S::default());
        for (place, edge) in edges.iter().enumerate() {
            let up = usize::from(edge.is_up());
            let (tail, head) = (edge.site(edge.tail), edge.site(edge.head));
            let tail = meetings.entry(tail).or_insert(Meeting::EMPTY);
            let tail_free = take(&mut tail.leaving[up], place);
            let head = meetings.entry(head).or_insert(Meeting::EMPTY);
            let head_free = take(&mut head.arriving[1 - up], place);
            if !tail_free || !head_free {
                return Err(Refusal::at(8, place));
            }
        }
        Ok(Ends { meetings })
    }

    /// Refusals 9 and 17: the points are looked at first, and the edges again
    /// only where one is wrong.
    fn check(
        &self,
        number: u32,
        edges: &[Edge],
        is_right: impl Fn(&Meeting) -> bool,
    ) -> Result<(), Refusal> {
        if self.meetings.values().all(&is_right) {
            return Ok(());
        }
        let wrong = |site: Site| !is_right(&self.meetings[&site]);
        let place = edges
            .iter()
            .position(|edge| wrong(edge.site(edge.tail)) || wrong(edge.site(edge.head)));
        Err(Refusal::at(number, place.unwrap_or(0)))
    }

    /// For each edge the one that follows it.
    fn followers(&self, edges: &[Edge]) -> Vec<u32> {
        let follower = |edge: &Edge| {
            let side = usize::from(!edge.is_up());
            self.meetings[&edge.site(edge.head)].follower(side, edges)
        };
        edges.iter().map(follower).collect()
    }
}

/// Takes a free place for an edge; whether it was free.
fn take(place: &mut u32, edge: usize) -> bool {
    let free = *place == NONE;
    if free {
        *place = edge as u32;
    }
    free
}

/// Walks every round from the edge that leaves its top, the one whose top edge
/// stands last first. The list is in sweep order, so going back through it the
/// first edge met of a round ends or begins at its top. So the edges are met in
/// the order of the turn list.
fn walk(edges: &[Edge], followers: &[u32], lent: &mut Lent) -> u32 {
    lent.polygons.fill(0);
    let (mut count, mut met) = (0, 0);
    for last in (0..edges.len()).rev() {
        if lent.polygons[last] != 0 {
            continue;
        }
        count += 1;
        let first = if edges[last].is_up() {
            followers[last]
        } else {
            last as u32
        };
        met += number_round(first, count, followers, lent, met);
    }
    count
}

/// Numbers the edges of one round, and puts them in turn after those that were
/// met before; gives how many there are.
fn number_round(
    first: u32,
    polygon: u32,
    followers: &[u32],
    lent: &mut Lent,
    before: usize,
) -> usize {
    let (mut edge, mut sequence) = (first, 0);
    while lent.polygons[edge as usize] == 0 {
        lent.polygons[edge as usize] = polygon;
        lent.sequences[edge as usize] = sequence as u32;
        lent.turns[before + sequence] = edge;
        sequence += 1;
        edge = followers[edge as usize];
    }
    sequence
}
