//! Verdicts, values and searches that do not depend on a seed: the sample
//! tower with every need and every outcome that a move can have.

use super::fixed::{Calls, task};
use super::{Call, Entry, Slices};
use crate::brute::task::{Assignment, Task};
use crate::brute::{record, state};
use crate::sample;

/// Every assignment to the sample's two variables.
fn assignments(sizes: &[u8]) -> Vec<Assignment> {
    let named = |size: u8| (0..size).map(Some).chain([None]).collect::<Vec<_>>();
    let (first, second) = (named(sizes[0]), named(sizes[1]));
    first.iter().flat_map(|&one| second.iter().map(move |&two| vec![one, two])).collect()
}

/// The sample with another need and other outcomes of one of its moves: the
/// second outcome of move 1, where there are two, takes part.
fn changed_moves() -> impl Iterator<Item = Task> {
    let sample = task(&sample::sample());
    let all = assignments(&sample.sizes);
    (0..sample.actions.len()).flat_map(move |number| {
        let outcomes = sample.actions[number].outcomes.len();
        let (sample, all) = (sample.clone(), all.clone());
        (0..all.len().pow(1 + outcomes as u32)).map(move |mut drawn| {
            let mut next = || {
                let one = all[drawn % all.len()].clone();
                drawn /= all.len();
                one
            };
            let mut task = sample.clone();
            let action = &mut task.actions[number];
            action.precondition = next();
            action.outcomes.fill_with(next);
            task
        })
    })
}

/// The two patterns with a third of both variables, exchanged, and as they are.
fn pattern_lists() -> [Vec<Vec<bool>>; 3] {
    let (pallet, door) = (vec![true, false], vec![false, true]);
    [
        vec![pallet.clone(), vec![true, true], door.clone()],
        vec![door.clone(), pallet.clone()],
        vec![pallet, door],
    ]
}

fn calls_on(mut task: Task) -> Vec<Call> {
    let mut calls = Vec::new();
    // The sample's own come last, and stay.
    for patterns in pattern_lists() {
        task.patterns = patterns;
        let record = record::encode(&task);
        calls.push(Call::of(Entry::Additive, Slices { record, ..Slices::default() }));
    }
    let record = record::encode(&task);
    let (tables, plan) = (vec![0x7777; 12], vec![0x77; 40]);
    let lent = Slices { record: record.clone(), tables, plan, ..Slices::default() };
    calls.push(Call::of(Entry::Search, lent));
    let (tables, state) = (vec![1; 12], state::encode(&task.start));
    calls.push(Call::of(Entry::Value, Slices { record, state, tables, ..Slices::default() }));
    calls
}

pub fn near_the_sample() -> Calls {
    Box::new(changed_moves().flat_map(calls_on))
}
