//! The mistakes with a past.

mod common;

use common::{build, record, refused, search};
use reference::answer::Answer;
use reference::brute::Brute;
use reference::planner::Planner;
use reference::sample::sample;

#[test]
fn the_last_outcome_of_a_move_counts() {
    assert_eq!(build(&sample())[..4], [3, 2, 0, 1]);
    let lost = sample().replace("outcomes=2\neff=0:2\neff=0:3", "outcomes=1\neff=0:2");
    assert_eq!(build(&lost)[..4], [2, 1, 0, 1]);
}

#[test]
fn the_last_line_counts_without_its_break() {
    assert_eq!(record(&sample()), record(&(sample() + "\n")));
    let cut = sample().replace("\nbudget=100", "");
    assert_eq!(common::read(&cut), refused(1, 24));
}

#[test]
fn the_worst_outcome_counts() {
    // The easiest outcome of move 1 would give the lift the cost 1.
    assert_eq!(build(&sample())[1], 2);
}

/// One move that may set variable 1 or do nothing to it; each pattern sees a
/// part of that.
const MAY_DO_NOTHING: &str = "vars=2\nsize=2\nsize=2\nmoves=1\nneed=\noutcomes=2\neff=1:1\neff=0:1\n\
    goal=1:1\nstart=0,0\npatterns=1\npattern=1\nlimit=9\nbudget=99";

#[test]
fn an_outcome_that_changes_nothing_stays() {
    // In the abstraction the second outcome names nothing and leads back.
    assert_eq!(build(MAY_DO_NOTHING), [u32::MAX, 0]);
    assert_eq!(search(MAY_DO_NOTHING), Answer::kind(3, 0, 0, 0));
}

/// The way of variable 0 leads on beyond the abstract goal; the concrete goal
/// lies there as well, for variable 1 is set last.
const PAST_THE_GOAL: &str = "vars=2\nsize=4\nsize=2\nmoves=4\nneed=0:0\noutcomes=1\neff=0:1\nneed=0:1\n\
    outcomes=1\neff=0:2\nneed=0:2\noutcomes=1\neff=0:1\nneed=0:2\noutcomes=1\neff=1:1\n\
    goal=0:1,1:1\nstart=0,0\npatterns=2\npattern=0\npattern=1\nlimit=9\nbudget=99";

#[test]
fn states_past_an_abstract_goal_have_their_value() {
    assert_eq!(build(PAST_THE_GOAL), [1, 0, 1, u32::MAX, 1, 0]);
    // 0 to 1, the abstract goal, on to 2, variable 1 set there, and back.
    let mut plan = [0; 5];
    let answer = Brute.search(&record(PAST_THE_GOAL), &mut [0; 6], &mut plan);
    assert_eq!((answer.kind, answer.first, answer.third), (0, 4, 5));
    assert_eq!(plan, [0, 1, 3, 2, 254]);
}

#[test]
fn sixteen_sizes_of_sixteen() {
    let sizes = "size=16\n".repeat(16);
    let zeros = ["0"; 16].join(",");
    let members: Vec<String> = (0..16).map(|v| v.to_string()).collect();
    let text = format!(
        "vars=16\n{sizes}moves=0\ngoal=\nstart={zeros}\npatterns=1\npattern={}\nlimit=0\nbudget=1",
        members.join(",")
    );
    // The product is 2^64: in 64 bits it would be 0, and pass.
    let record = record(&text);
    assert_eq!(Brute.build_tables(&record, &mut []), refused(7, 0));
    assert_eq!(Brute.value(&record, &[0; 16], &[]), refused(7, 0));
    assert_eq!(Brute.search(&record, &mut [], &mut []), refused(7, 0));
}
