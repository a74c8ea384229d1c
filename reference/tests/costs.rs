//! Costs of moves, from the words of the request.

mod common;

use common::{build, check, read, record, refused, search, start, task};
use reference::answer::Answer;
use reference::brute::record::{COSTS, LENGTH};
use reference::brute::{Brute, program};
use reference::compare::costs::{counter_of_sixteens, with_cost_3, with_costs};
use reference::generate::{Random, plans, tasks};
use reference::planner::Planner;
use reference::sample::{PLAN, changed, sample};

/// The sample with a line behind the need of move 1.
fn behind_need_1(line: &str) -> String {
    changed("need=0:1/outcomes=2", &format!("need=0:1/{line}/outcomes=2"))
}

#[test]
fn the_sample_with_cost_3_at_move_1() {
    let text = behind_need_1("cost=3");
    assert_eq!(text, with_cost_3());
    assert_eq!(build(&text), [5, 4, 0, 1, 1, 0]);
    assert_eq!(search(&text), Answer::kind(0, 6, 7, 7));
    assert_eq!(check(&text, &PLAN), Answer::kind(0, 6, 7, 0));
    let expected = "value=6\nanswer=found\ncost=6\ncount=7\nplan=0,1,3,254,2,3,254\n";
    assert_eq!(program::output(text.as_bytes()), expected);
    let spent = text.replace("budget=100", "budget=6");
    assert_eq!(program::output(spent.as_bytes()), "value=6\nanswer=spent\nround=6\ncount=6\n");
    let over = text.replace("limit=32", "limit=5");
    assert_eq!(search(&over), Answer::kind(1, 0, 0, 0));
}

#[test]
fn without_cost_lines_every_move_costs_1() {
    let record = record(&sample());
    assert_eq!(record.len(), 9_528);
    assert_eq!(record[9_464..9_468], [1; 4]);
    assert_eq!(record[9_468..], [0; 60]);
    assert_eq!(common::record(&behind_need_1("cost=1")), record);
    let dear = common::record(&behind_need_1("cost=255"));
    assert_eq!(dear[9_465], 255);
    assert_eq!([&dear[..9_465], &[1], &dear[9_466..]].concat(), record);
}

#[test]
fn what_stands_after_a_need() {
    // The need of move 1 is line 8.
    for line in ["cost=1", "cost=9", "cost=10", "cost=99", "cost=100", "cost=255"] {
        assert_eq!(read(&behind_need_1(line)), Answer::default(), "{line}");
    }
    for line in ["cost=0", "cost=256", "cost=1000", "cost=9999999"] {
        assert_eq!(read(&behind_need_1(line)), refused(3, 9), "{line}");
    }
    for line in ["cost=", "cost=01", "cost=+1", "cost= 1", "cost=1 ", "cost=x", "cost=10000000"] {
        assert_eq!(read(&behind_need_1(line)), refused(2, 9), "{line}");
    }
    for line in ["cost", "cost:1", "Cost=1", " cost=1", "costs=1", "eff=0:2", ""] {
        assert_eq!(read(&behind_need_1(line)), refused(1, 9), "{line}");
    }
    for line in ["cost=1", "cost=2", "cost=", "cost=0"] {
        assert_eq!(
            read(&behind_need_1(&format!("cost=1/{line}").replace('/', "\n"))),
            refused(1, 10)
        );
    }
}

#[test]
fn a_cost_in_another_place() {
    let lines: Vec<String> = sample().lines().map(str::to_owned).collect();
    for place in 0..=lines.len() {
        let mut with_cost = lines.clone();
        with_cost.insert(place, "cost=2".to_owned());
        let behind_a_need = place > 0 && lines[place - 1].starts_with("need=");
        let expected = if behind_a_need { Answer::default() } else { refused(1, place as u64 + 1) };
        assert_eq!(read(&with_cost.join("\n")), expected, "{place}");
    }
}

#[test]
fn a_text_that_ends_after_a_need_or_a_cost() {
    let text = behind_need_1("cost=2");
    let lines: Vec<&str> = text.lines().collect();
    for kept in [8, 9] {
        assert_eq!(read(&lines[..kept].join("\n")), refused(1, kept as u64 + 1));
    }
}

#[test]
fn cells_of_costs() {
    let mut record = record(&sample());
    for (offset, held) in [(COSTS, 0), (COSTS + 3, 0), (COSTS + 4, 1), (LENGTH - 1, 255)] {
        let sound = std::mem::replace(&mut record[offset], held);
        assert_eq!(Brute.check_record(&record), refused(6, offset as u64));
        record[offset] = sound;
    }
    for limit in 0..=255 {
        record[3] = limit;
        assert_eq!(Brute.check_record(&record), Answer::default());
    }
}

/// Two ways to the goal: one move of 5, or two moves of 2.
const TWO_WAYS: &str = "vars=1\nsize=3\nmoves=3\nneed=0:0\ncost=5\noutcomes=1\neff=0:2\nneed=0:0\n\
    cost=2\noutcomes=1\neff=0:1\nneed=0:1\ncost=2\noutcomes=1\neff=0:2\ngoal=0:2\nstart=0\n\
    patterns=0\nlimit=9\nbudget=99";

#[test]
fn the_cheaper_way_is_the_longer_one() {
    let with_pattern = TWO_WAYS.replace("patterns=0", "patterns=1\npattern=0");
    assert_eq!(build(&with_pattern), [4, 2, 0]);
    // Move 0 is passed over: it costs more than the 4 that are left.
    assert_eq!(search(&with_pattern), Answer::kind(0, 4, 3, 3));
}

/// Without patterns rounds grow from 0: the start alone in rounds 0 and 1; in
/// rounds 2 and 3 also what move 1 leads to, and there move 2 is too dear, but
/// for round 4.
#[test]
fn a_move_that_is_too_dear_is_no_examination() {
    assert_eq!(search(TWO_WAYS), Answer::kind(0, 4, 1 + 1 + 2 + 2 + 3, 3));
    let spent = |budget: &str| search(&TWO_WAYS.replace("budget=99", budget));
    assert_eq!(spent("budget=6"), Answer::kind(2, 4, 6, 0));
    assert_eq!(spent("budget=5"), Answer::kind(2, 3, 5, 0));
    assert_eq!(spent("budget=1"), Answer::kind(2, 1, 1, 0));
}

#[test]
fn the_dearest_path_is_not_the_longest() {
    // Move 0 leads to the goal's neighbour by a cheap or by a dear move.
    let text = "vars=1\nsize=5\nmoves=4\nneed=0:0\noutcomes=2\neff=0:1\neff=0:3\nneed=0:1\n\
        outcomes=1\neff=0:2\nneed=0:2\noutcomes=1\neff=0:4\nneed=0:3\ncost=9\noutcomes=1\neff=0:4\n\
        goal=0:4\nstart=0\npatterns=0\nlimit=99\nbudget=9999";
    let plan = [0, 1, 2, 254, 3, 254];
    assert_eq!(check(text, &plan), Answer::kind(0, 10, 6, 0));
    let answer = search(text);
    assert_eq!((answer.kind, answer.first, answer.third), (0, 10, 6));
}

#[test]
fn paths_of_as_many_moves_as_pass() {
    let task = with_costs(&tasks::turntable(&mut Random::new(1)), |_| 255);
    let record = reference::brute::record::encode(&task);
    let state = reference::brute::state::encode(&task.start);
    let judged = |turns| {
        let plan = plans::turning(&task, &task.start, turns);
        (Brute.check_plan(&record, &state, &plan), plan.len() as u64)
    };
    let (longest, length) = judged(254);
    assert_eq!(longest, Answer::kind(0, 65_025, length, 0));
    assert_eq!(judged(255).0, refused(17, 255));
    assert_eq!(judged(0).0.first, 255);
}

#[test]
fn the_dearest_entry() {
    for text_task in [tasks::counter(&mut Random::new(1), 12), counter_of_sixteens()] {
        let dear = with_costs(&text_task, |_| 255);
        let record = reference::brute::record::encode(&dear);
        let mut tables = vec![7; 4_096];
        assert_eq!(Brute.build_tables(&record, &mut tables), Answer::kind(0, 4_096, 0, 0));
        let expected: Vec<u32> = (0..4_096).rev().map(|left| 255 * left).collect();
        assert_eq!(tables, expected);
        assert_eq!(tables[0], 1_044_225);
    }
}

#[test]
fn a_limit_is_a_cost() {
    let text = behind_need_1("cost=252").replace("limit=32", "limit=255");
    assert_eq!(search(&text), Answer::kind(0, 255, 7, 7));
    assert_eq!(search(&text.replace("limit=255", "limit=254")), Answer::kind(1, 0, 0, 0));
    let dearer = behind_need_1("cost=253").replace("limit=32", "limit=255");
    assert_eq!(search(&dearer), Answer::kind(1, 0, 0, 0));
    assert_eq!(Brute.value(&record(&dearer), &start(&dearer), &build(&dearer)).first, 256);
    assert_eq!(task(&dearer).limit, 255);
}
