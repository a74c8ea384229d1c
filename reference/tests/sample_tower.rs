//! The examples of 'The sample tower', starred or not.

mod common;

use common::{build, check, read, record, refused, search, start};
use reference::answer::Answer;
use reference::brute::{Brute, program};
use reference::planner::Planner;
use reference::sample::{PLAN, changed, sample};

fn printed(text: &str) -> String {
    program::output(text.as_bytes()).replace('\n', "/")
}

#[test]
fn tables() {
    assert_eq!(build(&sample()), [3, 2, 0, 1, 1, 0]);
}

#[test]
fn output() {
    let expected = "value=4/answer=found/cost=4/count=7/plan=0,1,3,254,2,3,254/";
    assert_eq!(printed(&sample()), expected);
    assert_eq!(printed(&(sample() + "\n")), expected);
}

#[test]
fn found_by_the_search_entry() {
    let mut tables = [0; 8];
    let mut plan = [0; 9];
    let answer = Brute.search(&record(&sample()), &mut tables, &mut plan);
    assert_eq!(answer, Answer::kind(0, 4, 7, 7));
    assert_eq!(tables, [3, 2, 0, 1, 1, 0, 0, 0]);
    assert_eq!(plan, [0, 1, 3, 254, 2, 3, 254, 255, 255]);
    assert_eq!(check(&sample(), &PLAN), Answer::kind(0, 4, 7, 0));
}

#[test]
fn value_of_the_start() {
    let answer = Brute.value(&record(&sample()), &start(&sample()), &[3, 2, 0, 1, 1, 0]);
    assert_eq!(answer, Answer::kind(0, 4, 0, 0));
    assert_eq!(Brute.additive(&record(&sample())), Answer::default());
}

#[test]
fn budget_seven_is_enough() {
    let text = changed("budget=100", "budget=7");
    assert_eq!(search(&text), Answer::kind(0, 4, 7, 7));
    assert_eq!(printed(&text), printed(&sample()));
}

#[test]
fn budget_six_is_spent() {
    let text = changed("budget=100", "budget=6");
    assert_eq!(search(&text), Answer::kind(2, 4, 6, 0));
    assert_eq!(printed(&text), "value=4/answer=spent/round=4/count=6/");
}

#[test]
fn limit_three_is_over() {
    let text = changed("limit=32", "limit=3");
    assert_eq!(search(&text), Answer::kind(1, 0, 0, 0));
    assert_eq!(printed(&text), "value=4/answer=over/count=0/");
}

#[test]
fn limit_two_hundred_and_fifty_six_is_refused() {
    for limit in [33, 255] {
        let text = changed("limit=32", &format!("limit={limit}"));
        assert_eq!(printed(&text), printed(&sample()));
    }
    let text = changed("limit=32", "limit=256");
    assert_eq!(read(&text), refused(3, 23));
    assert_eq!(printed(&text), "refused=3/at=23/");
}

#[test]
fn falling_back_to_the_store_leaves_no_plan() {
    let text = changed("eff=0:3", "eff=0:0");
    assert_eq!(build(&text)[..4], [u32::MAX, u32::MAX, 0, 1]);
    assert_eq!(search(&text), Answer::kind(3, 0, 0, 0));
    assert_eq!(printed(&text), "value=infinite/answer=none/count=0/");
}

#[test]
fn a_move_that_touches_two_patterns() {
    let text = changed("eff=1:1", "eff=0:2,1:1");
    assert_eq!(search(&text), refused(9, 3));
    let value = Brute.value(&record(&text), &start(&text), &[0; 6]);
    assert_eq!(value, refused(9, 3));
    assert_eq!(Brute.additive(&record(&text)), Answer::kind(1, 3, 0, 1));
    assert_eq!(printed(&text), "refused=9/at=3/");
}

#[test]
fn plans_checked_at_the_start() {
    assert_eq!(check(&sample(), &PLAN[..4]), refused(12, 4));
    assert_eq!(check(&sample(), &[254]), refused(15, 0));
    assert_eq!(check(&sample(), &[3, 3]), refused(14, 1));
    assert_eq!(check(&sample(), &[4]), refused(13, 0));
    assert_eq!(check(&sample(), &[&PLAN[..], &[254]].concat()), refused(16, 7));
}

/// Variables of size 2, no moves, the goal open, all in one pattern.
fn in_one_pattern(variables: usize) -> String {
    let sizes = "size=2\n".repeat(variables);
    let zeros = vec!["0"; variables].join(",");
    let members: Vec<String> = (0..variables).map(|v| v.to_string()).collect();
    let members = members.join(",");
    format!(
        "vars={variables}\n{sizes}moves=0\ngoal=\nstart={zeros}\npatterns=1\n\
        pattern={members}\nlimit=0\nbudget=1"
    )
}

#[test]
fn twelve_variables_pass_and_thirteen_do_not() {
    assert_eq!(build(&in_one_pattern(12)), vec![0; 4_096]);
    assert_eq!(search(&in_one_pattern(12)), Answer::kind(0, 0, 1, 1));
    let record = record(&in_one_pattern(13));
    assert_eq!(Brute.build_tables(&record, &mut [0; 9_000]), refused(7, 0));
    assert_eq!(search(&in_one_pattern(13)), refused(7, 0));
}
