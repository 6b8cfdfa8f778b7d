//! How long things take: the shortest of several runs.
use std::hint::black_box;
use std::time::{Duration, Instant};

/// How long two things take, in seconds.
#[derive(Clone, Copy)]
pub struct Pair {
    pub ours: f64,
    pub theirs: f64,
}

impl Pair {
    pub fn ratio(self) -> f64 {
        self.ours / self.theirs
    }
}

/// What comes out is let go after the clock has stopped.
fn seconds<A>(run: &mut impl FnMut() -> A) -> f64 {
    let begun = Instant::now();
    let _made = black_box(run());
    begun.elapsed().as_secs_f64()
}

/// Runs two things in turns, for a second but 5 times at least and 200 at most, and takes the shortest run of each.
pub fn race<A, B>(mut ours: impl FnMut() -> A, mut theirs: impl FnMut() -> B) -> Pair {
    let mut best = Pair { ours: f64::MAX, theirs: f64::MAX };
    let begun = Instant::now();
    for run in 0..200 {
        if run >= 5 && begun.elapsed() > Duration::from_secs(1) {
            break;
        }
        best = Pair { ours: best.ours.min(seconds(&mut ours)), theirs: best.theirs.min(seconds(&mut theirs)) };
    }
    best
}

/// The shortest run of one thing: it runs for a tenth of a second, but once at least and 10 times at most.
pub fn best<A>(mut run: impl FnMut() -> A) -> f64 {
    let begun = Instant::now();
    let mut best = seconds(&mut run);
    for _ in 1..10 {
        if begun.elapsed() > Duration::from_millis(100) {
            break;
        }
        best = best.min(seconds(&mut run));
    }
    best
}
