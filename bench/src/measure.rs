//! Timing: the two implementations by turns in many short rounds, and of each the shortest round.

use std::hint::black_box;
use std::time::{Duration, Instant};

/// How long a row is measured.
#[derive(Clone, Copy)]
pub struct Effort {
    pub time: Duration,
    pub rounds: usize,
}

impl Effort {
    pub const QUICK: Effort = Effort { time: Duration::ZERO, rounds: 2 };
    pub const FULL: Effort = Effort { time: Duration::from_millis(1_500), rounds: 60 };
}

/// A round is to take at least this long, so that the clock's grain does not count.
const ROUND: Duration = Duration::from_micros(25);

/// A row of the table: nanoseconds for one unit of work.
pub struct Row {
    pub name: String,
    pub proved: f64,
    pub reference: f64,
}

/// Takes rounds of both by turns until the effort is spent; the shortest of each. A round hands back what it took. `shared` is lent to both.
pub fn by_turns<T>(
    effort: Effort,
    shared: &mut T,
    mut proved: impl FnMut(&mut T) -> Duration,
    mut reference: impl FnMut(&mut T) -> Duration,
) -> (Duration, Duration) {
    let (mut one, mut two) = (Duration::MAX, Duration::MAX);
    let begin = Instant::now();
    let mut rounds = 0;
    while rounds < effort.rounds || begin.elapsed() < effort.time {
        one = one.min(proved(shared));
        two = two.min(reference(shared));
        rounds += 1;
    }
    (one, two)
}

/// A row for work that changes nothing: as many times a round as it takes.
pub fn repeated<T, A, B>(name: &str, effort: Effort, shared: &mut T, proved: impl Fn(&mut T) -> A, reference: impl Fn(&mut T) -> B) -> Row {
    let mut times = 1;
    while timed(&proved, times, shared).min(timed(&reference, times, shared)) < ROUND {
        times *= 2;
    }
    let shortest = by_turns(effort, shared, |shared| timed(&proved, times, shared), |shared| timed(&reference, times, shared));
    row(name, shortest, f64::from(times))
}

fn timed<T, A>(work: &impl Fn(&mut T) -> A, times: u32, shared: &mut T) -> Duration {
    let begin = Instant::now();
    for _ in 0..times {
        black_box(work(shared));
    }
    begin.elapsed()
}

/// A row from the shortest rounds, which did so many units of work.
pub fn row(name: &str, (proved, reference): (Duration, Duration), units: f64) -> Row {
    let each = |round: Duration| round.as_secs_f64() * 1e9 / units;
    Row { name: name.to_string(), proved: each(proved), reference: each(reference) }
}
