//! What meets at a point, in one film, by request M-104: which edge follows
//! which; where four edges meet, whether they alternate arriving and leaving
//! going round; and whether the two lower ones are apart. Directions are put in
//! order round the point by products of whole numbers, which 64 bits hold
//! exactly: two coordinates differ by at most 2,000,000.

use std::cmp::Ordering;
use std::collections::{BTreeMap, BTreeSet};

use crate::geometry::{Edge, Kind, Point, Side, Site};

/// How many edges a film may have at a point.
const MOST_AT_A_SITE: usize = 4;

/// The way from a point to another.
#[derive(Clone, Copy, Debug)]
struct Direction {
    right: i64,
    up: i64,
}

impl Direction {
    fn of(from: Point, to: Point) -> Direction {
        Direction {
            right: i64::from(to.x) - i64::from(from.x),
            up: i64::from(to.y) - i64::from(from.y),
        }
    }

    /// Whether it leads to a lower point.
    fn is_below(self) -> bool {
        self.up < 0 || (self.up == 0 && self.right < 0)
    }

    /// The order going round clockwise: first what leads to higher points, the
    /// last of these straight to the right; then what leads to lower ones, the
    /// last straight to the left. Of two on one half the second is reached by a
    /// turn to the right, which the products across tell. Equal are ways of one
    /// direction, however long.
    fn clockwise(self, other: Direction) -> Ordering {
        let halves = self.is_below().cmp(&other.is_below());
        halves.then_with(|| (self.right * other.up).cmp(&(other.right * self.up)))
    }
}

/// One of the edges at a point.
#[derive(Clone, Copy, Debug)]
struct Spoke {
    place: usize,
    kind: Kind,
    direction: Direction,
}

impl Spoke {
    fn leaves(&self) -> bool {
        matches!(self.kind, Kind::Leaves(_))
    }
}

/// The edges of one film at a point, in clockwise order.
#[derive(Clone, Default, Debug)]
pub struct Meeting {
    spokes: Vec<Spoke>,
}

impl Meeting {
    fn add(&mut self, spoke: Spoke) {
        self.spokes.push(spoke);
        self.spokes
            .sort_by(|one, other| one.direction.clockwise(other.direction));
    }

    /// Whether there are four edges, or more in a list that is refused.
    pub fn is_corner(&self) -> bool {
        self.spokes.len() >= MOST_AT_A_SITE
    }

    /// Whether going round each edge has another direction than the one before
    /// it, and leaves where that one arrives.
    pub fn alternates(&self) -> bool {
        let next = self.spokes.iter().cycle().skip(1);
        self.spokes.iter().zip(next).all(|(one, other)| {
            let turned = one.direction.clockwise(other.direction) != Ordering::Equal;
            turned && one.leaves() != other.leaves()
        })
    }

    /// Whether two edges are of one kind.
    pub fn repeats_a_kind(&self) -> bool {
        let kind = |at: usize| self.spokes[at].kind;
        (1..self.spokes.len()).any(|at| (0..at).any(|earlier| kind(earlier) == kind(at)))
    }

    /// Whether no two edges are of one kind, and four alternate.
    pub fn is_fit(&self) -> bool {
        !self.repeats_a_kind() && (!self.is_corner() || self.alternates())
    }

    /// Whether the edges are one of each kind and do not alternate.
    pub fn is_twisted(&self) -> bool {
        !self.repeats_a_kind() && self.is_corner() && !self.alternates()
    }

    /// The place of the leaving edge that is first met clockwise from an edge
    /// that arrives here: of two edges the only one.
    ///
    /// # Panics
    /// When this edge does not arrive here, or none leaves.
    pub fn follower(&self, arriving: usize) -> usize {
        let is_it = |spoke: &Spoke| spoke.place == arriving && !spoke.leaves();
        let at = self.spokes.iter().position(is_it).expect("it arrives here");
        let mut round = self.spokes[at..].iter().chain(&self.spokes[..at]);
        round
            .find(|spoke| spoke.leaves())
            .expect("one leaves")
            .place
    }

    /// Whether two edges come from below and the one that arrives is not
    /// followed by the one that leaves.
    fn is_apart(&self) -> bool {
        let of_kind = |kind: Kind| self.spokes.iter().find(|spoke| spoke.kind == kind);
        let arriving = of_kind(Kind::Arrives(Side::Below));
        let leaving = of_kind(Kind::Leaves(Side::Below));
        match (arriving, leaving) {
            (Some(arriving), Some(leaving)) => self.follower(arriving.place) != leaving.place,
            _ => false,
        }
    }
}

/// What meets at each site of a list.
#[derive(Clone, Default, Debug)]
pub struct Meetings {
    sites: BTreeMap<Site, Meeting>,
}

impl Meetings {
    /// The meetings of all edges.
    pub fn of(edges: &[Edge]) -> Meetings {
        let mut meetings = Meetings::default();
        for (place, edge) in edges.iter().enumerate() {
            meetings.add(place, *edge);
        }
        meetings
    }

    /// Adds the edge that has this place in the list.
    pub fn add(&mut self, place: usize, edge: Edge) {
        let far_ends = [edge.head, edge.tail];
        for ((site, kind), far_end) in edge.ends().into_iter().zip(far_ends) {
            self.sites.entry(site).or_default().add(Spoke {
                place,
                kind,
                direction: Direction::of(site.point, far_end),
            });
        }
    }

    /// Takes it away again.
    pub fn remove(&mut self, place: usize, edge: Edge) {
        for (site, _) in edge.ends() {
            let meeting = self.sites.entry(site).or_default();
            meeting.spokes.retain(|spoke| spoke.place != place);
        }
    }

    /// What meets at a site, if an edge has ever ended there.
    pub fn at(&self, site: Site) -> Option<&Meeting> {
        self.sites.get(&site)
    }

    /// The sites where four edges meet, lowest first.
    pub fn corners(&self) -> impl Iterator<Item = (Site, &Meeting)> {
        let corners = self.sites.iter().filter(|(_, meeting)| meeting.is_corner());
        corners.map(|(site, meeting)| (*site, meeting))
    }

    /// Those whose two lower edges do not join each other.
    pub fn apart(&self) -> BTreeSet<Site> {
        let apart = self.corners().filter(|(_, corner)| corner.is_apart());
        apart.map(|(site, _)| site).collect()
    }
}
