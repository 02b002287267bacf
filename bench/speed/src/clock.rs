//! Batches of all contestants by turns, so that what slows the machine slows each of them alike.
//! A batch is some whole rounds, long enough that the grain of the clock does not matter.

use std::time::{Duration, Instant};

use crate::calls::Row;
use crate::contestants::Contestant;

/// A batch is at least so long.
const BATCH: Duration = Duration::from_micros(60);

/// How long a row is timed, and how often.
pub struct Pace {
    pub batches: usize,
    pub shortest: Duration,
    /// Behind this time the fewest batches are enough.
    pub longest: Duration,
    pub fewest: usize,
}

pub const THOROUGH: Pace = Pace {
    batches: 200,
    shortest: Duration::from_secs(1),
    longest: Duration::from_secs(3),
    fewest: 15,
};

/// As many as show that a row can be timed.
pub const QUICK: Pace =
    Pace { batches: 3, shortest: Duration::ZERO, longest: Duration::ZERO, fewest: 3 };

/// Nanoseconds of one call.
pub struct Times {
    pub best: f64,
    pub median: f64,
    pub batches: usize,
}

/// So many rounds, and the time that they took.
pub type Runner<'r> = Box<dyn FnMut(usize) -> Duration + 'r>;

/// The times of one call for each runner. A round has so many calls.
pub fn by_turns(runners: &mut [Runner], calls: usize, pace: &Pace) -> Vec<Times> {
    let rounds: Vec<usize> = runners.iter_mut().map(rounds_of_a_batch).collect();
    let mut taken: Vec<Vec<f64>> = runners.iter().map(|_| vec![]).collect();
    let start = Instant::now();
    for batch in 0.. {
        let gone = start.elapsed();
        let all = batch >= pace.batches && gone >= pace.shortest;
        if all || batch >= pace.fewest && gone >= pace.longest {
            break;
        }
        // Each is the first of some turns, and each stands behind each other one in some.
        for i in 0..runners.len() {
            let forward = (batch + i) % runners.len();
            let who = if batch % 2 == 0 { forward } else { runners.len() - 1 - forward };
            let time = runners[who](rounds[who]).as_nanos() as f64;
            taken[who].push(time / (rounds[who] * calls) as f64);
        }
    }
    taken.into_iter().map(times).collect()
}

fn rounds_of_a_batch(runner: &mut Runner) -> usize {
    let mut rounds = 1;
    while runner(rounds) < BATCH {
        rounds *= 2;
    }
    rounds
}

fn times(mut taken: Vec<f64>) -> Times {
    taken.sort_by(f64::total_cmp);
    Times { best: taken[0], median: taken[taken.len() / 2], batches: taken.len() }
}

/// The rounds of a row. Where the table is put back, each round is timed by itself.
pub fn runner<'r>(row: &'r Row, contestant: &'r mut dyn Contestant) -> Runner<'r> {
    if !row.put_back {
        return Box::new(|rounds| {
            let start = Instant::now();
            contestant.rounds(&row.steps, rounds);
            start.elapsed()
        });
    }
    let own = own_time();
    Box::new(move |rounds| {
        let round = |_| {
            contestant.put_back(&row.held);
            let start = Instant::now();
            contestant.rounds(&row.steps, 1);
            start.elapsed().saturating_sub(own)
        };
        (0..rounds).map(round).sum()
    })
}

/// What the clock takes itself.
fn own_time() -> Duration {
    (0..1_000).map(|_| Instant::now().elapsed()).min().unwrap_or_default()
}
