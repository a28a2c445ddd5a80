//! How many rows to lend.

use crate::{MOST_EDGES, NUMBERS_PER_EDGE};

/// A number of rows with which refusal 10 never comes: 1 + F(C - 2), the whole
/// list taken for its longest outline.
///
/// C is the most edges, of all films, that pass any one point; an edge passes a
/// point when its lower end is below that point and its higher end is not. F is
/// the whole part of log2 L, L the number of edges of the longest outline. C
/// times F rows are always enough, and so are 1 + F(C - 2), which are fewer: the
/// engine's contract says both, and it is proved (the clauses `enough-rows` and
/// `fewer-enough` in crates/numbering/specs/Promised.antt). Before the list is
/// numbered L is not known, but no outline has more edges than the list, and a
/// greater L only makes the number greater. So it is never too small. It may be
/// larger than needed: [`Accepted`] gives the peak, with which the same list is
/// accepted too.
///
/// For a list that the engine refuses, whatever its fault, any number would do.
/// The cost is that of sorting the edges' ends, for which it takes up to 64 KB of
/// stack; nothing is allocated.
///
/// ```
/// let two_peaks = [3, 2, 1, 6, 0, 1, 6, 3, 0, 0, 3, 0, 6, 8, 0, 6, 8, 3, 2, 0];
/// // All four edges pass the points just above (3, 2), and log2 of 4 is 2.
/// assert_eq!(outline::rows_enough(&two_peaks), 1 + 2 * (4 - 2));
/// assert_eq!(outline::rows_enough(&[]), 0);
/// ```
///
/// [`Accepted`]: crate::Accepted
#[must_use]
pub fn rows_enough(edges: &[i32]) -> usize {
    let count = edges.len() / NUMBERS_PER_EDGE;
    if count == 0 || count > MOST_EDGES {
        return 0;
    }
    let passing = if count <= FEW_EDGES {
        passing::<FEW_EDGES>(edges)
    } else {
        passing::<MOST_EDGES>(edges)
    };
    // Where no two edges pass one point an outline is open, and the list refused.
    1 + whole_log2(count) * passing.saturating_sub(2)
}

/// So many edges are sorted in less room, which costs less to clear.
const FEW_EDGES: usize = 64;

/// C: the most edges that pass any one point. Going up, an edge begins to pass
/// just above its bottom and passes its top as the last point, so the most is
/// met at a top. There must be room for all edges.
fn passing<const ROOM: usize>(edges: &[i32]) -> usize {
    let (mut bottoms, mut tops) = ([0; ROOM], [0; ROOM]);
    let bottoms = sorted_ends(edges, &mut bottoms, u64::min);
    let tops = sorted_ends(edges, &mut tops, u64::max);
    let (mut begun, mut ended) = (0, 0);
    let passing = |top: &u64| {
        begun += below(&bottoms[begun..], *top);
        ended += below(&tops[ended..], *top);
        begun - ended
    };
    tops.iter().map(passing).max().unwrap_or(0)
}

/// How many at the front of these ranks, the lowest first, are below another.
fn below(ranks: &[u64], rank: u64) -> usize {
    ranks.iter().take_while(|other| **other < rank).count()
}

/// The rank of one end of each edge, the lowest first, in room that is lent.
fn sorted_ends<'a>(
    edges: &[i32],
    room: &'a mut [u64],
    one_of: impl Fn(u64, u64) -> u64,
) -> &'a [u64] {
    let edges = edges.chunks_exact(NUMBERS_PER_EDGE);
    let ends = &mut room[..edges.len()];
    for (end, edge) in ends.iter_mut().zip(edges) {
        *end = one_of(rank(edge[0], edge[1]), rank(edge[2], edge[3]));
    }
    ends.sort_unstable();
    ends
}

/// A point as one number, the greater the higher it is: y, and then x.
fn rank(x: i32, y: i32) -> u64 {
    let from_least = |number: i32| u64::from(number.wrapping_sub(i32::MIN) as u32);
    from_least(y) << 32 | from_least(x)
}

/// How many times a number above 0 can be halved before it is 1.
fn whole_log2(number: usize) -> usize {
    (usize::BITS - 1 - number.leading_zeros()) as usize
}

#[cfg(test)]
mod tests {
    use super::rank;

    #[test]
    fn ranks_rise_with_y_and_then_with_x() {
        let rising = [i32::MIN, -1_000_000, -1, 0, 1, 1_000_000, i32::MAX];
        let points = rising.iter().flat_map(|y| rising.map(|x| (x, *y)));
        let mut before = None;
        for (x, y) in points {
            let rank = Some(rank(x, y));
            assert!(rank > before, "({}, {})", x, y);
            before = rank;
        }
    }
}
