//! Outcomes that write down what the need of their move demands anyway, and
//! outcomes that write something which is nearly that.

use super::Random;
use crate::brute::task::{Action, Task};

/// The variable that an action is there for: the lowest to which an outcome
/// gives a value that is not needed.
fn moved(action: &Action) -> Option<usize> {
    let needed = &action.precondition;
    let changes = |&v: &usize| {
        action.outcomes.iter().any(|outcome| outcome[v].is_some() && outcome[v] != needed[v])
    };
    (0..needed.len()).find(changes)
}

/// A value of the variable other than the one given.
fn other_value(random: &mut Random, size: u8, value: u8) -> u8 {
    (value + random.within(1..=usize::from(size) - 1) as u8) % size
}

/// Adds needs that leave a way to the goal where there was one: variables move
/// in their order, so that those below the action's own are at the goal by
/// then, and those above it still at the start. Now and then any value.
fn add_needs(random: &mut Random, task: &mut Task) {
    let (sizes, goal, start) = (&task.sizes, &task.goal, &task.start);
    for action in &mut task.actions {
        let own = moved(action).unwrap_or(0);
        for v in (0..sizes.len()).filter(|&v| v != own) {
            if action.precondition[v].is_some() || random.once_in(2) {
                continue;
            }
            let in_order = if v < own { goal[v].unwrap_or(start[v]) } else { start[v] };
            let any = random.below(sizes[v].into()) as u8;
            action.precondition[v] = Some(if random.once_in(12) { any } else { in_order });
        }
    }
}

/// Writes needed values into outcomes that leave the variable alone, so that
/// every action leads where it led before.
fn restate(random: &mut Random, task: &mut Task) {
    let often = random.pick(&[1, 1, 2, 3]);
    for action in &mut task.actions {
        for outcome in &mut action.outcomes {
            for (name, need) in outcome.iter_mut().zip(&action.precondition) {
                if name.is_none() && random.once_in(often) {
                    *name = *need;
                }
            }
        }
    }
}

/// A value that looks restated and is not: another value of a variable that is
/// needed, the value that another action needs, or that of the goal.
fn near_value(random: &mut Random, task: &Task, needed: Option<u8>, v: usize) -> u8 {
    let size = task.sizes[v];
    let named: Vec<u8> = task.actions.iter().filter_map(|a| a.precondition[v]).collect();
    let value = match random.below(4) {
        0 | 1 if !named.is_empty() => random.pick(&named),
        2 => task.goal[v].unwrap_or(task.start[v]),
        _ => random.below(size.into()) as u8,
    };
    if needed == Some(value) { other_value(random, size, value) } else { value }
}

/// Gives one outcome a value that its need does not demand, mostly of another
/// variable than the action's own.
fn slip(random: &mut Random, task: &mut Task) {
    if task.actions.is_empty() {
        return;
    }
    let number = random.below(task.actions.len());
    let action = &task.actions[number];
    let own = moved(action);
    let is_needed = |&v: &usize| action.precondition[v].is_some() && own != Some(v);
    let needed: Vec<usize> = (0..task.sizes.len()).filter(is_needed).collect();
    let v = if needed.is_empty() || random.once_in(4) {
        random.below(task.sizes.len())
    } else {
        random.pick(&needed)
    };
    let value = near_value(random, task, action.precondition[v], v);
    let outcome = random.below(action.outcomes.len());
    task.actions[number].outcomes[outcome][v] = Some(value);
}

/// The task with outcomes that restate values: it has the verdict it had, or
/// mostly another one where an outcome slips.
pub fn restated(random: &mut Random, mut task: Task) -> Task {
    add_needs(random, &mut task);
    restate(random, &mut task);
    if random.once_in(2) {
        let slips = random.pick(&[1, 1, 2, 4]);
        (0..slips).for_each(|_| slip(random, &mut task));
    }
    task
}
