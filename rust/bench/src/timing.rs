//! The shortest of many runs. What disturbs a run only makes it longer, so the
//! shortest is nearest to what the work costs. Rivals are timed in turn, round
//! after round: a machine that others use is slower at some times than at others,
//! and a round is short enough for all rivals to meet the same.

use std::time::{Duration, Instant};

/// For how long a piece of work is repeated that is timed once.
const LONG_ENOUGH: Duration = Duration::from_millis(250);

/// For how long each rival's work is repeated in a round.
const A_ROUND: Duration = Duration::from_millis(50);

/// It is run so often, at least.
const LEAST_RUNS: usize = 5;

/// The shortest time that the work takes, in nanoseconds.
pub fn best(work: impl FnMut()) -> f64 {
    shortest(LONG_ENOUGH, work)
}

/// The shortest time of the runs for which this is long enough.
fn shortest(long_enough: Duration, mut work: impl FnMut()) -> f64 {
    let begun = Instant::now();
    let mut shortest = f64::INFINITY;
    let mut runs = 0;
    while runs < LEAST_RUNS || begun.elapsed() < long_enough {
        let start = Instant::now();
        work();
        shortest = shortest.min(start.elapsed().as_nanos() as f64);
        runs += 1;
    }
    shortest
}

/// The shortest times of several rivals, round by round.
pub struct Rounds<const RIVALS: usize>(Vec<[f64; RIVALS]>);

impl<const RIVALS: usize> Rounds<RIVALS> {
    /// Times the rivals on the same things, so many rounds in turn.
    pub fn of<T>(count: usize, things: &mut T, rivals: [fn(&mut T); RIVALS]) -> Self {
        let mut round = || rivals.map(|rival| shortest(A_ROUND, || rival(things)));
        Rounds((0..count).map(|_| round()).collect())
    }

    /// A rival's shortest time of all rounds.
    pub fn best(&self, rival: usize) -> f64 {
        let times = self.0.iter().map(|round| round[rival]);
        times.fold(f64::INFINITY, f64::min)
    }

    /// How often a rival's best time is as long as another's.
    pub fn ratio(&self, one: usize, other: usize) -> f64 {
        self.best(one) / self.best(other)
    }

    /// The same within each round, and of these the middle one.
    pub fn middle_ratio(&self, one: usize, other: usize) -> f64 {
        let ratios = self.0.iter().map(|round| round[one] / round[other]);
        let mut ratios: Vec<f64> = ratios.collect();
        ratios.sort_by(f64::total_cmp);
        ratios[ratios.len() / 2]
    }
}

#[cfg(test)]
mod tests {
    use super::*;

    #[test]
    fn the_best_and_the_middle_of_rounds() {
        let rounds = Rounds(vec![[6.0, 2.0], [5.0, 5.0], [8.0, 4.0]]);
        assert_eq!((rounds.best(0), rounds.best(1)), (5.0, 2.0));
        assert_eq!(rounds.ratio(0, 1), 2.5);
        assert_eq!(rounds.middle_ratio(0, 1), 2.0);
    }

    #[test]
    fn rivals_take_turns() {
        let mut order = Vec::new();
        let rivals: [fn(&mut Vec<u8>); 2] = [|order| note(order, 1), |order| note(order, 2)];
        let rounds = Rounds::of(2, &mut order, rivals);
        assert_eq!(order, [1, 2, 1, 2]);
        assert!(rounds.best(0) < f64::INFINITY && rounds.best(1) < f64::INFINITY);
    }

    /// Notes that it is a rival's turn; a turn has many runs.
    fn note(order: &mut Vec<u8>, rival: u8) {
        if order.last() != Some(&rival) {
            order.push(rival);
        }
    }
}
