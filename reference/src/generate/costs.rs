//! Costs of moves.

use super::Random;
use crate::brute::task::Task;

/// How the costs of a task are drawn.
#[derive(Clone, Copy)]
enum Costs {
    One,
    Equal,
    Small,
    Large,
    Any,
    /// 1 and one other cost.
    Two,
}

const KINDS: [Costs; 12] = [
    Costs::One,
    Costs::One,
    Costs::One,
    Costs::Equal,
    Costs::Small,
    Costs::Small,
    Costs::Small,
    Costs::Large,
    Costs::Any,
    Costs::Any,
    Costs::Two,
    Costs::Two,
];

/// A cost, now and then the dearest.
pub fn any(random: &mut Random) -> u8 {
    if random.once_in(12) { 255 } else { random.within(1..=255) as u8 }
}

/// A limit: as it is, in reach of few moves, or up to the highest.
fn limit(random: &mut Random, as_it_is: u8) -> u8 {
    match random.below(6) {
        0..=2 => as_it_is,
        3 => random.within(0..=255) as u8,
        _ => 255,
    }
}

/// The task with costs: all 1, all equal, few different ones, or any for each
/// move; and with a limit for them.
pub fn costly(random: &mut Random, mut task: Task) -> Task {
    let kind = random.pick(&KINDS);
    let few = random.within(2..=9);
    let one = if random.once_in(2) { any(random) } else { few as u8 };
    for action in &mut task.actions {
        action.cost = match kind {
            Costs::One => 1,
            Costs::Equal => one,
            Costs::Small => random.within(1..=few) as u8,
            Costs::Large => random.within(200..=255) as u8,
            Costs::Any => any(random),
            Costs::Two => random.pick(&[1, one]),
        };
    }
    task.limit = limit(random, task.limit);
    task
}
