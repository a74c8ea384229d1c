//! Plans to check: strong ones, nearly strong ones and nonsense.

use super::Random;
use crate::brute::costs::{self, INFINITE};
use crate::brute::plan::{ARRIVED, Plan};
use crate::brute::task::{Action, State, Task, after};

/// No generated plan is longer than about this.
const MOST_BYTES: usize = 400;

/// Bytes of moves and arrivals with a few others.
fn noise_byte(random: &mut Random, task: &Task) -> u8 {
    match random.below(8) {
        0 => random.byte(),
        1 => random.pick(&[253, 254, 255, task.actions.len() as u8]),
        2 | 3 => ARRIVED,
        _ => random.below(task.actions.len().max(1)) as u8,
    }
}

pub fn noise(random: &mut Random, task: &Task) -> Vec<u8> {
    let length = random.below(60);
    (0..length).map(|_| noise_byte(random, task)).collect()
}

/// A plan of actions that apply, drawn at random, cut off when it gets long.
/// Where none applies and nothing is reached any byte is written.
pub fn walk(random: &mut Random, task: &Task, from: &State) -> Vec<u8> {
    let mut plan = Vec::new();
    let mut awaiting = vec![from.clone()];
    while let Some(state) = awaiting.pop() {
        if plan.len() >= MOST_BYTES {
            break;
        }
        let applying: Vec<usize> =
            (0..task.actions.len()).filter(|&a| task.applies(&task.actions[a], &state)).collect();
        if applying.is_empty() {
            plan.push(if task.is_goal(&state) { ARRIVED } else { noise_byte(random, task) });
            continue;
        }
        let action = random.pick(&applying);
        plan.push(action as u8);
        let outcomes = task.actions[action].outcomes.iter().rev();
        awaiting.extend(outcomes.map(|outcome| after(&state, outcome)));
    }
    plan
}

/// A plan with one byte changed, removed, inserted or added, or cut off.
pub fn damaged(random: &mut Random, task: &Task, plan: &[u8]) -> Vec<u8> {
    let mut damaged = plan.to_vec();
    if plan.is_empty() {
        return vec![noise_byte(random, task)];
    }
    let place = random.below(plan.len());
    let byte = noise_byte(random, task);
    match random.below(5) {
        0 => damaged[place] = byte,
        1 => {
            damaged.remove(place);
        }
        2 => damaged.insert(place, byte),
        3 => damaged.truncate(place),
        _ => damaged.push(byte),
    }
    damaged
}

/// The action that a cheapest plan takes at a state of finite cost that is no
/// goal, by the exact costs: with its worst outcome it costs as much as the state.
fn cheapest_action(task: &Task, costs: &[u32], from: &State) -> usize {
    let is_cheapest = |action: &Action| {
        let cost = |outcome| costs[task.index(&after(from, outcome))];
        let worst = action.outcomes.iter().map(cost).max().unwrap_or(INFINITE);
        let whole = worst.saturating_add(action.cost.into());
        task.applies(action, from) && whole == costs[task.index(from)]
    };
    task.actions.iter().position(is_cheapest).expect("a finite cost is that of an action")
}

/// A cheapest plan from a state, unless its cost is infinite.
pub fn cheapest(task: &Task, costs: &[u32], from: &State) -> Option<Plan> {
    if task.is_goal(from) {
        return Some(Plan::Arrived);
    }
    if costs[task.index(from)] == INFINITE {
        return None;
    }
    let number = cheapest_action(task, costs, from);
    let outcomes = task.actions[number].outcomes.iter();
    let plans = outcomes.map(|outcome| cheapest(task, costs, &after(from, outcome)));
    Some(Plan::Act(number as u8, plans.collect::<Option<_>>()?))
}

/// The bytes that the cheapest plans of all states take, as far as they can be
/// counted; those of states without a plan count as none.
fn lengths(task: &Task, costs: &[u32]) -> Vec<u32> {
    let mut states: Vec<(usize, State)> = task.all_states().into_iter().enumerate().collect();
    states.sort_by_key(|&(place, _)| costs[place]);
    let mut lengths = vec![0; costs.len()];
    for (place, state) in states {
        if costs[place] == INFINITE {
            break;
        }
        lengths[place] = 1;
        if task.is_goal(&state) {
            continue;
        }
        for outcome in &task.actions[cheapest_action(task, costs, &state)].outcomes {
            let next: u32 = lengths[task.index(&after(&state, outcome))];
            lengths[place] = next.saturating_add(lengths[place]);
        }
    }
    lengths
}

/// The bytes that a cheapest plan of a state takes, unless its cost is infinite.
pub fn cheapest_length(task: &Task, costs: &[u32], from: &State) -> Option<u32> {
    let place = task.index(from);
    (costs[place] != INFINITE).then(|| lengths(task, costs)[place])
}

/// A cheapest plan's bytes, for tasks with few states and plans not too bushy.
/// It may be too deep to pass: a path has up to one move for each other state.
pub fn cheapest_bytes(task: &Task, from: &State) -> Option<Vec<u8>> {
    if task.states() > 400 {
        return None;
    }
    let costs = costs::costs(task);
    cheapest_length(task, &costs, from).filter(|&length| length <= 8_192)?;
    cheapest(task, &costs, from).map(|plan| plan.bytes())
}

/// A plan for the turntable with as many turns as told before it ends.
pub fn turning(task: &Task, from: &State, turns: usize) -> Vec<u8> {
    let turn = |number: usize| (usize::from(from[0]) + number) as u8 % 2;
    let mut plan: Vec<u8> = (0..turns).map(turn).collect();
    plan.push(2);
    plan.extend(vec![ARRIVED; task.actions[2].outcomes.len()]);
    plan
}
