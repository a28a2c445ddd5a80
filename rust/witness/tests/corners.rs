//! The rule of M-104 held, at every corner of thousands of sheets, against two
//! other ways to say it: the leaving edge that is first met clockwise, by the
//! turn from the arriving edge; and corners that are apart, by the turn from one
//! lower edge to the other.

mod clockwise;

use clockwise::{alike, is_between, Way};
use witness::corners::Meetings;
use witness::declared::followers;
use witness::generate::{any, damaged, walks, Random, Seed};
use witness::geometry::{read_edges, Edge, Point, Site};

fn way(from: Point, to: Point) -> Way {
    let far = |one: i32, other: i32| i64::from(other) - i64::from(one);
    (far(from.x, to.x), far(from.y, to.y))
}

/// An edge at a site: its place, whether it leaves, the way along it.
type Spoke = (usize, bool, Way);

/// The edges at a site.
fn at(edges: &[Edge], site: Site) -> Vec<Spoke> {
    let mut spokes = Vec::new();
    for (place, edge) in edges.iter().enumerate() {
        if edge.site(edge.tail) == site {
            spokes.push((place, true, way(edge.tail, edge.head)));
        }
        if edge.site(edge.head) == site {
            spokes.push((place, false, way(edge.head, edge.tail)));
        }
    }
    spokes
}

/// Whether a way leads to a lower point.
fn is_lower(way: Way) -> bool {
    way.1 < 0 || (way.1 == 0 && way.0 < 0)
}

/// Whether no film lies between the two lower edges of a corner: it would lie to
/// the left of the one that arrives.
fn turns_apart(spokes: &[Spoke]) -> bool {
    let lower = |leaves: bool| {
        let is_it = |spoke: &&Spoke| spoke.1 == leaves && is_lower(spoke.2);
        spokes.iter().find(is_it).unwrap().2
    };
    let (arriving, leaving) = (lower(false), lower(true));
    arriving.0 * leaving.1 - arriving.1 * leaving.0 > 0
}

/// Checks all corners of a sheet; gives how many are apart and how many are not.
fn check(edges: &[Edge]) -> (usize, usize) {
    let (meetings, followers) = (Meetings::of(edges), followers(edges));
    let (apart, corners) = (meetings.apart(), meetings.corners().count());
    for (site, _) in meetings.corners() {
        let spokes = at(edges, site);
        let leaving = || spokes.iter().filter(|spoke| spoke.1);
        for (place, _, back) in spokes.iter().filter(|spoke| !spoke.1) {
            let (follows, other): (Vec<&Spoke>, Vec<&Spoke>) =
                leaving().partition(|spoke| spoke.0 == followers[*place]);
            assert_eq!((follows.len(), other.len()), (1, 1), "{:?}", site);
            assert!(is_between(*back, follows[0].2, other[0].2), "{:?}", site);
        }
        let is_apart = turns_apart(&spokes);
        assert_eq!(apart.contains(&site), is_apart, "{:?}", site);
    }
    (apart.len(), corners - apart.len())
}

#[test]
fn the_rule_said_in_other_ways() {
    let (mut apart, mut joined) = (0, 0);
    for seed in 0..3_000 {
        let seed = Seed(seed);
        let random = &mut seed.random();
        let sheets = [any(random), walks(random, 9, 60, &[0])];
        for sheet in sheets {
            let (more_apart, more_joined) = check(&read_edges(&sheet));
            apart += more_apart;
            joined += more_joined;
        }
    }
    assert!(apart > 5_000 && joined > 5_000, "{} {}", apart, joined);
}

/// Damaged lists have corners of both faulty kinds: that do not alternate though
/// all four directions differ, and with two edges in one direction.
#[test]
fn both_kinds_of_fault() {
    let (mut differ, mut in_one_direction) = (0, 0);
    for seed in 0..400 {
        let edges = read_edges(&damaged(&mut Random::new(seed), 17).edges);
        let meetings = Meetings::of(&edges);
        let twisted = meetings
            .corners()
            .filter(|(_, corner)| !corner.alternates());
        let sites: Vec<Site> = twisted.map(|(site, _)| site).collect();
        assert_eq!(sites.len(), 1, "seed {}", seed);
        let spokes = at(&edges, sites[0]);
        let repeats = |at: usize| {
            spokes[..at]
                .iter()
                .any(|spoke| alike(spoke.2, spokes[at].2))
        };
        if (0..4).any(repeats) {
            in_one_direction += 1;
        } else {
            differ += 1;
        }
    }
    assert!(differ > 100, "{}", differ);
    assert!(in_one_direction > 100, "{}", in_one_direction);
}
