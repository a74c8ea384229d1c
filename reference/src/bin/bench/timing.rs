//! Times of one operation for one or two makes, by turns.

use std::time::Instant;

use reference::answer::Answer;
use reference::planner::Planner;

use crate::operations::{Lent, Operation};

/// A sample takes at least about this long.
const SAMPLE_NANOSECONDS: f64 = 100_000.0;

/// Nanoseconds per call.
#[derive(Clone, Copy)]
pub struct Times {
    pub median: f64,
    pub least: f64,
    /// The middle half of the samples, as a part of the median.
    pub spread: f64,
}

struct Side<'a> {
    planner: &'a dyn Planner,
    lent: Lent,
    repeats: u32,
    samples: Vec<f64>,
}

impl<'a> Side<'a> {
    fn of(planner: &'a dyn Planner, lent: &Lent, operation: Operation) -> (Self, Answer) {
        let mut side = Self { planner, lent: lent.clone(), repeats: 1, samples: Vec::new() };
        let answer = side.lent.call(planner, operation);
        side.sample(operation);
        let once = side.samples[0].max(1.0);
        side.repeats = (SAMPLE_NANOSECONDS / once).clamp(1.0, 1e6) as u32;
        side.samples.clear();
        (side, answer)
    }

    fn sample(&mut self, operation: Operation) {
        let begin = Instant::now();
        for _ in 0..self.repeats {
            self.lent.call(self.planner, operation);
        }
        let taken = begin.elapsed().as_nanos() as f64;
        self.samples.push(taken / f64::from(self.repeats));
    }

    fn times(mut self) -> Times {
        self.samples.sort_by(f64::total_cmp);
        let part = |of: usize| self.samples[(self.samples.len() - 1) * of / 4];
        let median = part(2);
        Times { median, least: self.samples[0], spread: (part(3) - part(1)) / median }
    }
}

/// What was measured, and the answer both makes gave.
pub struct Measured {
    pub answer: Answer,
    pub theirs: Times,
    pub ours: Option<Times>,
}

/// Times both makes, sample by sample in turns. Their answers and what they
/// left in the lent slices must be equal.
pub fn measure(
    ours: Option<&dyn Planner>,
    theirs: &dyn Planner,
    lent: &Lent,
    operation: Operation,
    samples: usize,
) -> Measured {
    let (mut their_side, answer) = Side::of(theirs, lent, operation);
    let mut our_side = ours.map(|ours| {
        let (side, given) = Side::of(ours, lent, operation);
        assert_eq!(given, answer, "{operation:?}: the answers differ");
        assert!(side.lent == their_side.lent, "{operation:?}: the slices differ");
        side
    });
    for number in 0..samples {
        // The other one first in every second turn.
        if number % 2 == 0 {
            their_side.sample(operation);
        }
        if let Some(side) = &mut our_side {
            side.sample(operation);
        }
        if number % 2 == 1 {
            their_side.sample(operation);
        }
    }
    Measured { answer, theirs: their_side.times(), ours: our_side.map(Side::times) }
}
