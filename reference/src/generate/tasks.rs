//! Sound tasks at random.

use std::ops::RangeInclusive;

use super::{Random, costs, restating};
use crate::brute::tables::MOST_STATES;
use crate::brute::task::{Action, Assignment, State, Task};

/// The ranges a task is drawn from.
pub struct Shape {
    pub variables: RangeInclusive<usize>,
    pub sizes: RangeInclusive<usize>,
    pub actions: RangeInclusive<usize>,
    pub outcomes: RangeInclusive<usize>,
    pub patterns: RangeInclusive<usize>,
    pub budget: usize,
}

/// Few enough states for the exact cost of each.
pub const SMALL: Shape = Shape {
    variables: 1..=4,
    sizes: 2..=4,
    actions: 0..=8,
    outcomes: 1..=3,
    patterns: 0..=4,
    budget: 3_000,
};

/// As few, with room for needs and outcomes in several patterns.
const SEVERAL: Shape =
    Shape { variables: 3..=4, sizes: 2..=3, actions: 3..=10, patterns: 2..=4, ..SMALL };

/// Up to the ranges of the specification.
pub const LARGE: Shape = Shape {
    variables: 1..=16,
    sizes: 2..=16,
    actions: 0..=64,
    outcomes: 1..=8,
    patterns: 0..=8,
    budget: 20_000,
};

/// How the outcomes of a task's actions relate to its patterns.
#[derive(Clone, Copy, PartialEq, Eq)]
enum Touching {
    /// Each action keeps to variables of at most one pattern.
    OnePattern,
    Anything,
}

fn value(random: &mut Random, size: u8) -> u8 {
    random.below(size.into()) as u8
}

/// Names each variable once in `often` draws.
fn assignment(random: &mut Random, sizes: &[u8], often: usize) -> Assignment {
    let mut name = |&size: &u8| random.once_in(often).then(|| value(random, size));
    sizes.iter().map(&mut name).collect()
}

pub fn state(random: &mut Random, task: &Task) -> State {
    task.sizes.iter().map(|&size| value(random, size)).collect()
}

/// A pattern of any variables, overlapping others or not. It mostly stays
/// within the states a table may have.
fn pattern(random: &mut Random, sizes: &[u8]) -> Vec<bool> {
    let may_be_wide = random.once_in(40);
    let often = random.within(1..=4);
    let mut states = 1;
    let mut joins = |&size: &u8| {
        let wide = states * u128::from(size) > MOST_STATES;
        let joins = random.once_in(often) && (may_be_wide || !wide);
        states *= if joins { u128::from(size) } else { 1 };
        joins
    };
    sizes.iter().map(&mut joins).collect()
}

/// Parts the variables among the patterns, as a tower's designer would.
fn partition(random: &mut Random, sizes: &[u8], patterns: usize) -> Vec<Vec<bool>> {
    let mut owner = |_: &u8| {
        let none = patterns == 0 || random.once_in(6);
        if none { patterns } else { random.below(patterns) }
    };
    let owners: Vec<usize> = sizes.iter().map(&mut owner).collect();
    let mut states = vec![1; patterns];
    let mut members = vec![vec![false; sizes.len()]; patterns];
    for (v, &owner) in owners.iter().enumerate().filter(|&(_, &o)| o < patterns) {
        states[owner] *= u128::from(sizes[v]);
        members[owner][v] = states[owner] <= MOST_STATES;
    }
    members
}

fn patterns(random: &mut Random, sizes: &[u8], number: usize) -> Vec<Vec<bool>> {
    if random.once_in(4) {
        (0..number).map(|_| pattern(random, sizes)).collect()
    } else {
        partition(random, sizes, number)
    }
}

/// The variables an action may change: all, or those that belong to no
/// pattern but one drawn for it.
fn changeable(random: &mut Random, task: &Task, touching: Touching) -> Vec<bool> {
    let drawn = random.below(task.patterns.len() + 1);
    let alone = |v: usize| (0..task.patterns.len()).all(|p| p == drawn || !task.patterns[p][v]);
    let free = |v: usize| touching == Touching::Anything || alone(v);
    (0..task.sizes.len()).map(free).collect()
}

/// An action that names variables freely.
fn loose_action(random: &mut Random, task: &Task, may: &[bool], outcomes: usize) -> Action {
    let often = random.within(1..=4);
    let outcome = |random: &mut Random| -> Assignment {
        let names = assignment(random, &task.sizes, often);
        names.into_iter().zip(may).map(|(name, &may)| name.filter(|_| may)).collect()
    };
    Action {
        outcomes: (0..outcomes).map(|_| outcome(random)).collect(),
        precondition: {
            let often = random.within(1..=5);
            assignment(random, &task.sizes, often)
        },
        cost: 1,
    }
}

/// An action that moves one variable on from one value, so that many of them
/// make up a long way to the goal; further outcomes may throw it back.
fn step_action(random: &mut Random, task: &Task, may: &[bool], outcomes: usize) -> Action {
    let free: Vec<usize> = (0..may.len()).filter(|&v| may[v]).collect();
    if free.is_empty() {
        return loose_action(random, task, may, outcomes);
    }
    let moved = random.pick(&free);
    let size = task.sizes[moved];
    let from = value(random, size);
    let mut precondition = if random.once_in(3) {
        assignment(random, &task.sizes, 3)
    } else {
        vec![None; task.sizes.len()]
    };
    precondition[moved] = Some(from);
    let mut outcome = |number: usize| {
        let mut names = vec![None; task.sizes.len()];
        let on = (from + 1) % size;
        let to = if number == 0 { on } else { value(random, size) };
        names[moved] = (number == 0 || !random.once_in(8)).then_some(to);
        names
    };
    let outcomes = (0..outcomes).map(&mut outcome).collect();
    Action { precondition, outcomes, cost: 1 }
}

/// An action that brings one variable nearer to its value in the goal. Its
/// distance is the number of steps down to that value, around the end. Where
/// the action may change other variables too, one may reach its goal alongside.
fn nearing_action(
    random: &mut Random,
    task: &Task,
    (moved, goal, distance): (usize, u8, u8),
    outcomes: usize,
    others: &[bool],
) -> Action {
    let size = task.sizes[moved];
    let mut precondition = if random.once_in(6) {
        assignment(random, &task.sizes, 4)
    } else {
        vec![None; task.sizes.len()]
    };
    precondition[moved] = Some((goal + distance) % size);
    let mut outcome = |_| {
        let mut names = vec![None; task.sizes.len()];
        let nearer = if random.once_in(50) {
            value(random, size)
        } else {
            distance - 1 - random.below(usize::from(distance.min(2))) as u8
        };
        names[moved] = Some((goal + nearer) % size);
        let other = random.below(task.sizes.len());
        if other != moved && others[other] && random.once_in(2) {
            names[other] = task.goal[other];
        }
        names
    };
    let outcomes = (0..outcomes).map(&mut outcome).collect();
    Action { precondition, outcomes, cost: 1 }
}

/// The variables of the goal with each distance from it, in any order.
fn distances(random: &mut Random, task: &Task) -> Vec<(usize, u8, u8)> {
    let mut all = Vec::new();
    for (v, name) in task.goal.iter().enumerate() {
        let goal = name.iter();
        all.extend(goal.flat_map(|&goal| (1..task.sizes[v]).map(move |d| (v, goal, d))));
    }
    for place in (1..all.len()).rev() {
        let other = random.below(place + 1);
        all.swap(place, other);
    }
    all
}

/// Actions that mostly lead to the goal, one for each distance of each
/// variable as long as there is room for them.
fn nearing_actions(
    random: &mut Random,
    task: &Task,
    shape: &Shape,
    touching: Touching,
) -> Vec<Action> {
    let members = |v: usize| task.patterns.iter().filter(|pattern| pattern[v]).count();
    let most_outcomes = random.within(shape.outcomes.clone());
    // Enough for four variables of size 4, so that most have a plan.
    let most_actions = *shape.actions.end().max(&12);
    let mut actions = Vec::new();
    for near in distances(random, task) {
        let allowed = touching == Touching::Anything || members(near.0) <= 1;
        if !allowed || random.once_in(60) || actions.len() == most_actions {
            continue;
        }
        let free = |v: usize| touching == Touching::Anything || members(v) == 0;
        let others: Vec<bool> = (0..task.sizes.len()).map(free).collect();
        let outcomes = random.within(*shape.outcomes.start()..=most_outcomes);
        actions.push(nearing_action(random, task, near, outcomes, &others));
    }
    actions
}

/// Actions of any kind and number.
fn mixed_actions(
    random: &mut Random,
    task: &Task,
    shape: &Shape,
    touching: Touching,
) -> Vec<Action> {
    let steps_in = random.within(1..=3);
    let few_outcomes = random.once_in(2);
    let number = random.within(shape.actions.clone());
    let mut action = |_| {
        let most = if few_outcomes { 1 } else { *shape.outcomes.end() };
        let outcomes = random.within(*shape.outcomes.start()..=most);
        let may = changeable(random, task, touching);
        if random.once_in(steps_in) {
            step_action(random, task, &may, outcomes)
        } else {
            loose_action(random, task, &may, outcomes)
        }
    };
    (0..number).map(&mut action).collect()
}

fn actions(random: &mut Random, task: &Task, shape: &Shape) -> Vec<Action> {
    let touching = if random.once_in(3) { Touching::Anything } else { Touching::OnePattern };
    if random.once_in(3) {
        mixed_actions(random, task, shape, touching)
    } else {
        nearing_actions(random, task, shape, touching)
    }
}

/// A limit in reach of moves that cost 1.
fn limit(random: &mut Random) -> u8 {
    if random.once_in(3) { 32 } else { random.within(0..=32) as u8 }
}

fn budget(random: &mut Random, most: usize) -> u32 {
    let most = random.pick(&[1, 20, 100, most, most, most, most, most]);
    random.within(0..=most) as u32
}

/// The larger of two draws: the more there is to a task, the more it shows.
fn larger(random: &mut Random, range: &RangeInclusive<usize>) -> usize {
    random.within(range.clone()).max(random.within(range.clone()))
}

/// A start that seldom has the goal's values.
fn start(random: &mut Random, task: &Task) -> State {
    let mut start = state(random, task);
    for (v, held) in start.iter_mut().enumerate() {
        if task.goal[v] == Some(*held) {
            *held = value(random, task.sizes[v]);
        }
    }
    start
}

/// A sound task of the shape.
pub fn task(random: &mut Random, shape: &Shape) -> Task {
    let variables = larger(random, &shape.variables);
    let most_size = larger(random, &shape.sizes);
    let size = |random: &mut Random| random.within(*shape.sizes.start()..=most_size) as u8;
    let sizes: Vec<u8> = (0..variables).map(|_| size(random)).collect();
    let number = larger(random, &shape.patterns);
    let goal_often = random.pick(&[1, 1, 2, 3]);
    let mut task = Task {
        actions: Vec::new(),
        goal: assignment(random, &sizes, goal_often),
        start: Vec::new(),
        patterns: patterns(random, &sizes, number),
        limit: limit(random),
        budget: budget(random, shape.budget),
        sizes,
    };
    task.start = start(random, &task);
    task.actions = actions(random, &task, shape);
    task
}

/// A task with one action for each step of each variable on its way to the
/// last value: long plans, long tables, and a sum that is often exact.
pub fn corridors(random: &mut Random) -> Task {
    let variables = random.within(1..=4);
    let sizes: Vec<u8> = (0..variables).map(|_| random.within(2..=16) as u8).collect();
    let mut actions = Vec::new();
    for (v, &size) in sizes.iter().enumerate() {
        for from in 0..size - 1 {
            let names = |value| {
                let mut names = vec![None; variables];
                names[v] = Some(value);
                names
            };
            let mut outcomes = vec![names(from + 1)];
            // Now and then a step may skip ahead or fall back.
            if random.once_in(6) {
                outcomes.push(names(value(random, size)));
            }
            actions.push(Action { precondition: names(from), outcomes, cost: 1 });
        }
    }
    let own = |v: usize| (0..variables).map(|other| other == v).collect();
    Task {
        actions,
        goal: sizes.iter().map(|&size| Some(size - 1)).collect(),
        start: sizes.iter().map(|&size| value(random, size.min(3))).collect(),
        patterns: (0..variables).map(own).collect(),
        limit: limit(random),
        budget: budget(random, 20_000),
        sizes,
    }
}

/// A binary counter in one pattern: the table holds every number up to its
/// length less one.
pub fn counter(random: &mut Random, variables: usize) -> Task {
    let action = |v: usize| {
        // Counting up: the lowest 0 becomes 1 and all below it become 0.
        let precondition = |w: usize| (w <= v).then_some(u8::from(w < v));
        let outcome = |w: usize| (w <= v).then_some(u8::from(w == v));
        Action {
            precondition: (0..variables).map(precondition).collect(),
            outcomes: vec![(0..variables).map(outcome).collect()],
            cost: 1,
        }
    };
    let sizes = vec![2; variables];
    Task {
        actions: (0..variables).map(action).collect(),
        goal: vec![Some(1); variables],
        start: sizes.iter().map(|&size| value(random, size)).collect(),
        patterns: vec![vec![true; variables]],
        limit: limit(random),
        budget: budget(random, 1_000),
        sizes,
    }
}

/// A task in which plans of any depth are strong: actions 0 and 1 turn
/// variable 0 to and fro, action 2 ends the way.
pub fn turntable(random: &mut Random) -> Task {
    let turn = |from: u8| Action {
        precondition: vec![Some(from), None],
        outcomes: vec![vec![Some(1 - from), None]],
        cost: 1,
    };
    let end = Action {
        precondition: vec![None, None],
        outcomes: vec![vec![None, Some(1)]; random.within(1..=3)],
        cost: 1,
    };
    Task {
        sizes: vec![2, 2],
        actions: vec![turn(0), turn(1), end],
        goal: vec![None, Some(1)],
        start: vec![random.below(2) as u8, 0],
        patterns: vec![vec![false, true]],
        limit: limit(random),
        budget: budget(random, 100),
    }
}

/// A task with a pattern that may have more states than a table.
fn wide(random: &mut Random) -> Task {
    let mut task = task(random, &LARGE);
    let number = random.within(1..=8);
    task.patterns = patterns(random, &task.sizes, number);
    let all = vec![true; task.sizes.len()];
    task.patterns[random.below(number)] = all;
    task
}

/// A task with few enough states for the exact cost of each.
pub fn small(random: &mut Random) -> Task {
    let task = match random.below(24) {
        0 => turntable(random),
        1 => {
            let variables = random.within(1..=7);
            counter(random, variables)
        }
        2..=11 => {
            let task = task(random, &SEVERAL);
            restating::restated(random, task)
        }
        _ => task(random, &SMALL),
    };
    costs::costly(random, task)
}

/// A task of any kind but the small ones, with costs of 1; the counter is rare,
/// for its tables take long.
fn larger_kind(random: &mut Random) -> Task {
    match random.below(9) {
        0 => {
            let longest = random.once_in(40);
            let variables = if longest { 12 } else { random.within(8..=10) };
            counter(random, variables)
        }
        1 => wide(random),
        2..=3 => task(random, &LARGE),
        4 => {
            let task = task(random, &LARGE);
            restating::restated(random, task)
        }
        8 => {
            let task = corridors(random);
            restating::restated(random, task)
        }
        _ => corridors(random),
    }
}

/// A task of any kind.
pub fn any(random: &mut Random) -> Task {
    if random.below(40) >= 9 {
        return small(random);
    }
    let task = larger_kind(random);
    costs::costly(random, task)
}
