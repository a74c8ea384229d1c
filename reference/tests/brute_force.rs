//! The reference against the definitions themselves, on small random tasks.

use reference::brute::costs::{self, Graph, INFINITE};
use reference::brute::plan::{self, Passed, Plan};
use reference::brute::task::{Action, State, Task, after};
use reference::brute::{Brute, tables, value};
use reference::demand;
use reference::generate::{Random, plans, tasks};

const SEED: u64 = 20_240;

/// The least cost of the strong plans with at most so many moves on a path, by
/// trying all of them.
fn least(task: &Task, from: &State, moves: usize) -> Option<u32> {
    if task.is_goal(from) {
        return Some(0);
    }
    let rest = moves.checked_sub(1)?;
    let with = |action: &Action| {
        let plans = action.outcomes.iter().map(|outcome| least(task, &after(from, outcome), rest));
        let costs: Option<Vec<u32>> = plans.collect();
        Some(u32::from(action.cost) + costs?.into_iter().max()?)
    };
    task.actions.iter().filter(|action| task.applies(action, from)).filter_map(with).min()
}

/// The largest number of moves on a path.
fn moves(plan: &Plan) -> usize {
    match plan {
        Plan::Arrived => 0,
        Plan::Act(_, plans) => 1 + plans.iter().map(moves).max().unwrap_or(0),
    }
}

/// What a plan costs, and the moves on its longest path.
type Judged = (usize, usize);

/// The definition of a strong plan, reading the bytes by recursion: the cost
/// and the moves, and the bytes after it.
fn strong<'a>(task: &Task, from: &State, bytes: &'a [u8]) -> Option<(Judged, &'a [u8])> {
    let (&byte, mut rest) = bytes.split_first()?;
    if task.is_goal(from) {
        return (byte == 254).then_some(((0, 0), rest));
    }
    let action = task.actions.get(usize::from(byte))?;
    if !task.applies(action, from) {
        return None;
    }
    let (mut dearest, mut longest) = (0, 0);
    for outcome in &action.outcomes {
        let ((cost, moves), after_it) = strong(task, &after(from, outcome), rest)?;
        dearest = dearest.max(cost);
        longest = longest.max(moves);
        rest = after_it;
    }
    Some(((dearest + usize::from(action.cost), longest + 1), rest))
}

#[test]
fn demand_three() {
    let (mut additive, mut found, mut infinite) = (0, 0, 0);
    for case in 0..4_000 {
        let task = tasks::small(&mut Random::of_case(SEED, case));
        match demand::third(&Brute, &task) {
            Err(breach) => panic!("seed {SEED}, case {case}: {breach}\n{task:?}"),
            Ok(None) => {}
            Ok(Some(tried)) => {
                additive += 1;
                found += usize::from(tried.found);
                infinite += tried.infinite;
            }
        }
    }
    println!("{additive} additive, {found} found, {infinite} infinite sums");
    assert!(additive > 2_000 && found > 300 && infinite > 1_000);
}

/// The sum of patterns that are not additive can be too high, so the tasks
/// above do tell a wrong verdict.
#[test]
fn without_additivity_the_sum_goes_wrong() {
    let too_high = |case: &u64| {
        let task = tasks::small(&mut Random::of_case(SEED, *case));
        let built = tables::all_tables(&task);
        let costs = costs::costs(&task);
        let states = task.all_states();
        (0..states.len()).any(|s| {
            let sum = value::sum(&task, &states[s], &built);
            costs[s] != INFINITE && sum.is_some_and(|sum| sum > costs[s].into())
        })
    };
    let wrong = (0..1_000).filter(too_high).count();
    println!("{wrong} tasks with a sum too high");
    assert!(wrong > 20);
}

#[test]
fn three_methods_give_the_same_costs() {
    let (mut from_zero, mut above) = (0, 0);
    for case in 0..3_000 {
        let task = tasks::small(&mut Random::of_case(SEED, case));
        let graph = Graph::of(&task);
        let swept = costs::by_sweeps(&graph);
        assert_eq!(swept, costs::by_growing_sets(&graph), "case {case}");
        let dearest = task.actions.iter().map(|action| usize::from(action.cost)).max().unwrap_or(0);
        if dearest * swept.len().pow(2) <= 600_000 {
            assert_eq!(swept, costs::by_rounds_from_zero(&graph), "case {case}");
            from_zero += 1;
            above += usize::from(swept.iter().any(|&cost| cost > 255 && cost != INFINITE));
        }
    }
    println!("{from_zero} by rounds from zero, {above} of them with costs above 255");
    assert!(from_zero > 1_500 && above > 50);
}

#[test]
fn costs_are_those_of_the_cheapest_strong_plans() {
    let mut tried = 0;
    for case in 0..700 {
        let task = tasks::small(&mut Random::of_case(SEED, case));
        let costs = costs::costs(&task);
        for (s, state) in task.all_states().iter().enumerate().step_by(3) {
            let tried_out = least(&task, state, 4);
            assert!(tried_out.is_none_or(|cost| cost >= costs[s]), "case {case}");
            if plans::cheapest_length(&task, &costs, state).is_none_or(|length| length > 2_000) {
                continue;
            }
            let plan = plans::cheapest(&task, &costs, state).expect("a finite cost");
            let longest = moves(&plan);
            if longest <= plan::MOST_MOVES {
                let passed = plan::check(&task, state.clone(), &plan.bytes());
                assert_eq!(passed.map(|passed| passed.cost as u32), Ok(costs[s]));
            }
            if longest <= 4 {
                assert_eq!(tried_out, Some(costs[s]), "case {case}");
                tried += usize::from(costs[s] > 1);
            }
        }
    }
    println!("{tried} costs above 1");
    assert!(tried > 1_000);
}

#[test]
fn the_check_passes_exactly_the_strong_plans() {
    let (mut passed, mut failed) = (0, 0);
    for case in 0..3_000 {
        let mut random = Random::of_case(SEED + 1, case);
        let task = tasks::small(&mut random);
        let from = tasks::state(&mut random, &task);
        let walk = plans::walk(&mut random, &task, &from);
        let damaged = plans::damaged(&mut random, &task, &walk);
        let noise = plans::noise(&mut random, &task);
        let cheapest = plans::cheapest_bytes(&task, &from).unwrap_or_default();
        for bytes in [walk, damaged, noise, cheapest] {
            let expected = strong(&task, &from, &bytes)
                .filter(|&((_, moves), rest)| moves <= plan::MOST_MOVES && rest.is_empty())
                .map(|((cost, _), _)| Passed { cost, length: bytes.len() });
            let checked = plan::check(&task, from.clone(), &bytes);
            assert_eq!(checked.ok(), expected, "case {case}: {bytes:?}\n{task:?}");
            passed += usize::from(expected.is_some());
            failed += usize::from(expected.is_none());
        }
    }
    println!("{passed} passed, {failed} failed");
    assert!(passed > 2_000 && failed > 2_000);
}
