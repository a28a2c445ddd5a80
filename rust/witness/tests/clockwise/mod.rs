//! Ways from a point in clockwise order, said by the turn from one of them and
//! not by their order round the whole point. All is exact.

/// A way from a point: to the right, and up.
pub type Way = (i64, i64);

/// How far round clockwise a way lies from another: 0 in its direction, 1 before
/// its opposite, 2 in that, 3 after it.
fn quarter(from: Way, way: Way) -> u32 {
    let turn = (from.0 * way.1 - from.1 * way.0).signum();
    let along = from.0 * way.0 + from.1 * way.1;
    match (turn, along > 0) {
        (0, true) => 0,
        (-1, _) => 1,
        (0, false) => 2,
        _ => 3,
    }
}

/// Whether two ways lie in one direction.
pub fn alike(one: Way, other: Way) -> bool {
    quarter(one, other) == 0
}

/// Whether turning clockwise from a way, one is met before the other, and neither
/// together with it nor with the first.
pub fn is_between(from: Way, one: Way, other: Way) -> bool {
    let (near, far) = (quarter(from, one), quarter(from, other));
    near > 0 && (near < far || (near == far && quarter(one, other) == 1))
}
