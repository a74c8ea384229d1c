//! Endings of the search that the sample tower does not show.

mod common;

use common::{record, search};
use reference::answer::Answer;
use reference::brute::Brute;
use reference::planner::Planner;
use reference::sample::{self, changed, sample};

fn without_patterns(limit: u32, budget: u32) -> String {
    sample::without_patterns()
        .replace("limit=32", &format!("limit={limit}"))
        .replace("budget=100", &format!("budget={budget}"))
}

#[test]
fn without_patterns_no_entry_is_needed() {
    let record = record(&without_patterns(32, 1_000));
    assert_eq!(Brute.build_tables(&record, &mut []), Answer::default());
    let state = common::start(&sample());
    assert_eq!(Brute.value(&record, &state, &[]), Answer::default());
    assert_eq!(search(&without_patterns(32, 1_000)).first, 4);
}

#[test]
fn a_budget_used_up_as_a_round_fails_reports_the_next_round() {
    // Round 0 examines the start alone.
    assert_eq!(search(&without_patterns(32, 1)), Answer::kind(2, 1, 1, 0));
    assert_eq!(search(&without_patterns(0, 1)), Answer::kind(1, 0, 1, 0));
    // Round 1 examines the start and the first outcome of moves 0 and 3.
    assert_eq!(search(&without_patterns(32, 4)), Answer::kind(2, 2, 4, 0));
    assert_eq!(search(&without_patterns(1, 4)), Answer::kind(1, 0, 4, 0));
    assert_eq!(search(&without_patterns(1, 3)), Answer::kind(2, 1, 3, 0));
}

#[test]
fn no_budget_is_spent_even_at_a_goal() {
    let text = changed("budget=100", "budget=0");
    assert_eq!(search(&text), Answer::kind(2, 4, 0, 0));
    let at_goal = text.replace("start=0,0", "start=2,1");
    assert_eq!(search(&at_goal), Answer::kind(2, 0, 0, 0));
}

#[test]
fn none_and_over_come_before_the_budget() {
    let none = changed("eff=0:3", "eff=0:0").replace("budget=100", "budget=0");
    assert_eq!(search(&none), Answer::kind(3, 0, 0, 0));
    let over = changed("limit=32", "limit=3").replace("budget=100", "budget=0");
    assert_eq!(search(&over), Answer::kind(1, 0, 0, 0));
}

#[test]
fn a_start_at_the_goal_is_found_with_one_examination() {
    let text = changed("start=0,0", "start=2,1").replace("limit=32", "limit=0");
    assert_eq!(search(&text), Answer::kind(0, 0, 1, 1));
}

#[test]
fn any_other_ending_leaves_255_in_the_plan() {
    for text in [changed("budget=100", "budget=6"), changed("limit=32", "limit=3")] {
        let mut plan = [7; 20];
        Brute.search(&record(&text), &mut [0; 6], &mut plan);
        assert_eq!(plan, [255; 20]);
    }
}

#[test]
fn value_on_any_tables() {
    let (record, state) = (record(&sample()), common::start(&sample()));
    let value = |tables: &[u32]| Brute.value(&record, &state, tables);
    let last = u32::MAX - 1;
    assert_eq!(value(&[last, 0, 0, 0, last, 0]), Answer::kind(0, 8_589_934_588, 0, 0));
    assert_eq!(value(&[65_534, 0, 0, 0, 65_534, 0]), Answer::kind(0, 131_068, 0, 0));
    assert_eq!(value(&[0, 0, 0, 0, u32::MAX, 0]), Answer::kind(1, 0, 0, 0));
    assert_eq!(value(&[u32::MAX, 0, 0, 0, 1, 0]), Answer::kind(1, 0, 0, 0));
    // What was infinite in 16 bits is a number like any other.
    assert_eq!(value(&[65_535, 0, 0, 0, 1, 0]), Answer::kind(0, 65_536, 0, 0));
}
