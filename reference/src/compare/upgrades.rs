//! Upgrades that do not depend on a seed: the sample's stored record with cells
//! and lengths on both sides of their rules, and targets of any length.

use super::fixed::{Calls, record, task};
use super::{Call, Entry, Slices};
use crate::brute::record::{LENGTH, encode};
use crate::brute::upgrade::FIRST_LENGTH;
use crate::generate::{Random, tasks};
use crate::sample;

fn call(old: &[u8], target: usize) -> Call {
    let record = vec![0xc3; target];
    Call::of(Entry::UpgradeRecord, Slices { old: old.to_vec(), record, ..Slices::default() })
}

/// Stored records that are sound or not, each with targets of every length that
/// matters: a refusal of the one goes before that of the other.
fn lengths() -> Vec<Call> {
    let today = record(&sample::sample());
    let first = today[..FIRST_LENGTH].to_vec();
    let mut faulty = first.clone();
    faulty[3] = 33;
    let longer = [&today[..], &[9; 40]].concat();
    let mut calls = Vec::new();
    for old in [&first, &faulty, &longer, &today] {
        let near = [FIRST_LENGTH, FIRST_LENGTH + 1, LENGTH - 1, LENGTH, LENGTH + 1, old.len()];
        for length in [0, 1, FIRST_LENGTH - 1].into_iter().chain(near) {
            let old = &old[..length.min(old.len())];
            let targets = [0, 1, FIRST_LENGTH - 1, FIRST_LENGTH, LENGTH - 1, LENGTH, LENGTH + 1];
            calls.extend(targets.map(|target| call(old, target)));
            calls.push(call(old, LENGTH + 30));
        }
    }
    calls
}

/// The sample's stored record with one cell changed: all cells of the head and
/// of the used moves, and every seventh of the others. What stands behind it is
/// not looked at.
fn cells() -> impl Iterator<Item = Call> {
    let sound = record(&sample::sample());
    let offsets = (0..900).chain((900..FIRST_LENGTH).step_by(7)).chain(FIRST_LENGTH..LENGTH);
    offsets.flat_map(move |offset| {
        let held = sound[offset];
        [held.wrapping_add(1), held ^ 255, 2].map(|other| {
            let mut old = sound.clone();
            old[offset] = other;
            call(&old, LENGTH + 1)
        })
    })
}

/// Every limit, of which those up to 32 were good, and every number of moves.
fn heads() -> Vec<Call> {
    let sound = record(&sample::sample());
    let with_limit = |limit| {
        let mut old = sound[..FIRST_LENGTH].to_vec();
        old[3] = limit;
        call(&old, LENGTH)
    };
    let mut calls: Vec<Call> = (0..=255).map(with_limit).collect();
    let mut full = task(&sample::sample());
    let moves = full.actions.clone();
    full.actions.clear();
    for number in 0..=64 {
        calls.push(call(&encode(&full)[..FIRST_LENGTH], LENGTH));
        // The costs of a longer record are not those that are written.
        full.actions.extend(moves.get(number % moves.len()).cloned().filter(|_| number < 64));
        full.actions.iter_mut().for_each(|action| action.cost = 9);
    }
    let wide = tasks::counter(&mut Random::new(1), 12);
    calls.push(call(&encode(&wide)[..FIRST_LENGTH], LENGTH));
    calls
}

pub fn upgrades() -> Calls {
    Box::new(lengths().into_iter().chain(heads()).chain(cells()))
}
