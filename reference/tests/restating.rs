//! Outcomes that restate a value, from the words of the request: an outcome's
//! assignment of the value its own need demands does not count as touching.

mod common;

use common::{build, record, refused, start};
use reference::answer::Answer;
use reference::brute::Brute;
use reference::compare::verdicts::additive_by_the_rule;
use reference::generate::{Random, tasks};
use reference::planner::Planner;
use reference::sample::sample;

/// The sample with another need and other outcomes of move 1, which carries
/// the pallet from the lift to bay or edge.
fn with_move_1(need: &str, outcomes: [&str; 2]) -> String {
    let [first, second] = outcomes;
    let own = "need=0:1\noutcomes=2\neff=0:2\neff=0:3";
    let other = format!("need={need}\noutcomes=2\neff={first}\neff={second}");
    let text = sample().replace(own, &other);
    assert_ne!(text, sample());
    text
}

fn verdict(text: &str) -> Answer {
    Brute.additive(&record(text))
}

const ADDITIVE: Answer = Answer { number: 0, kind: 0, first: 0, second: 0, third: 0 };

/// Move 1 touches both patterns.
fn conflict_at_1() -> Answer {
    Answer::kind(1, 1, 0, 1)
}

#[test]
fn the_value_that_is_demanded_does_not_count() {
    assert_eq!(verdict(&with_move_1("0:1,1:0", ["0:2,1:0", "0:3"])), ADDITIVE);
    assert_eq!(verdict(&with_move_1("0:1,1:0", ["0:2,1:0", "0:3,1:0"])), ADDITIVE);
    assert_eq!(verdict(&with_move_1("0:1,1:1", ["0:2,1:1", "0:3"])), ADDITIVE);
}

#[test]
fn another_value_of_the_same_variable_counts() {
    assert_eq!(verdict(&with_move_1("0:1,1:0", ["0:2,1:1", "0:3"])), conflict_at_1());
    assert_eq!(verdict(&with_move_1("0:1,1:0", ["0:2", "0:3,1:1"])), conflict_at_1());
    assert_eq!(verdict(&with_move_1("0:1,1:1", ["0:2,1:0", "0:3"])), conflict_at_1());
}

/// An outcome is judged by itself: what one restates the next may change.
#[test]
fn a_restated_value_in_one_outcome_and_another_in_the_next() {
    assert_eq!(verdict(&with_move_1("0:1,1:0", ["0:2,1:0", "0:3,1:1"])), conflict_at_1());
    assert_eq!(verdict(&with_move_1("0:1,1:0", ["0:2,1:1", "0:3,1:0"])), conflict_at_1());
}

/// Move 3 needs the door shut, and no other move does.
#[test]
fn the_need_of_another_move_does_not_exempt() {
    assert_eq!(verdict(&with_move_1("0:1", ["0:2,1:0", "0:3"])), conflict_at_1());
}

#[test]
fn a_variable_that_is_not_needed_is_not_exempt() {
    // The value of the start, and that of the goal.
    assert_eq!(verdict(&with_move_1("", ["0:2,1:0", "0:3"])), conflict_at_1());
    assert_eq!(verdict(&with_move_1("0:1", ["0:2,1:1", "0:3"])), conflict_at_1());
}

/// A value is demanded of one variable, and written into another.
#[test]
fn the_need_of_another_variable_does_not_exempt() {
    assert_eq!(verdict(&with_move_1("0:1", ["0:2,1:1", "0:3,1:1"])), conflict_at_1());
    assert_eq!(verdict(&with_move_1("1:1", ["0:1,1:1", "0:1,1:1"])), ADDITIVE);
}

#[test]
fn an_outcome_that_restates_all_touches_nothing() {
    assert_eq!(verdict(&with_move_1("0:1,1:0", ["0:1,1:0", "0:1,1:0"])), ADDITIVE);
    assert_eq!(verdict(&with_move_1("0:1,1:0", ["0:1,1:0", "1:1"])), ADDITIVE);
    assert_eq!(verdict(&with_move_1("0:1,1:0", ["0:1,1:0", "0:2"])), ADDITIVE);
    assert_eq!(verdict(&with_move_1("0:1,1:0", ["1:1", "0:2"])), conflict_at_1());
}

/// One move that sets all three variables and needs the first as it sets it,
/// each in a pattern of its own.
const THREE_PATTERNS: &str = "vars=3\nsize=2\nsize=2\nsize=2\nmoves=1\nneed=0:1\noutcomes=1\n\
    eff=0:1,1:1,2:1\ngoal=1:1,2:1\nstart=1,0,0\npatterns=3\npattern=0\npattern=1\npattern=2\n\
    limit=9\nbudget=99";

/// The lowest two patterns are those that remaining assignments touch, and the
/// lowest move is one that still touches two.
#[test]
fn what_is_told_of_a_conflict() {
    assert_eq!(verdict(THREE_PATTERNS), Answer::kind(1, 0, 1, 2));
    assert_eq!(verdict(&THREE_PATTERNS.replace("need=0:1", "need=1:1")), Answer::kind(1, 0, 0, 2));
    assert_eq!(verdict(&THREE_PATTERNS.replace("need=0:1", "need=0:1,2:1")), ADDITIVE);
    let later = with_move_1("0:1,1:0", ["0:2,1:0", "0:3"]).replace("eff=1:1", "eff=0:2,1:1");
    assert_eq!(verdict(&later), Answer::kind(1, 3, 0, 1));
}

#[test]
fn value_and_search_refuse_by_the_same_rule() {
    let near = record(&with_move_1("0:1,1:0", ["0:2,1:1", "0:3"]));
    let start = start(&sample());
    assert_eq!(Brute.value(&near, &start, &[0; 6]), refused(9, 1));
    let (mut tables, mut plan) = ([7; 6], [7; 9]);
    assert_eq!(Brute.search(&near, &mut tables, &mut plan), refused(9, 1));
    assert_eq!((tables, plan), ([7; 6], [7; 9]));
    // The need keeps the door shut until the pallet is out of the lift.
    let text = with_move_1("0:1,1:0", ["0:2,1:0", "0:3"]);
    let restating = record(&text);
    assert_eq!(build(&text), [3, 2, 0, 1, 1, 0]);
    assert_eq!(Brute.value(&restating, &start, &[3, 2, 0, 1, 1, 0]), Answer::kind(0, 4, 0, 0));
    assert_eq!(Brute.search(&restating, &mut tables, &mut plan), Answer::kind(0, 4, 7, 7));
    assert_eq!(plan, [0, 1, 3, 254, 2, 3, 254, 255, 255]);
}

/// Restating changes no table: those of the move that says less are the same.
#[test]
fn tables_do_not_ask_for_it() {
    let silent = build(&with_move_1("0:1,1:0", ["0:2", "0:3"]));
    assert_eq!(build(&with_move_1("0:1,1:0", ["0:2,1:0", "0:3,1:0"])), silent);
    assert_eq!(build(&with_move_1("0:1,1:0", ["0:2,1:1", "0:3"]))[..4], silent[..4]);
}

/// The small tasks, on all states of which demand 3 is tried, try the rule.
#[test]
fn many_random_tasks_are_additive_by_the_rule_alone() {
    let small = |case| tasks::small(&mut Random::of_case(31, case));
    let by_the_rule = (0..2_000).filter(|&case| additive_by_the_rule(&small(case))).count();
    println!("{by_the_rule} of 2,000 additive by the rule alone");
    assert!(by_the_rule > 200);
}
