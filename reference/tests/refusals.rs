//! Every refusal number with its second number, and the order of the tests.

mod common;

use common::{check, read, record, refused, start};
use reference::answer::Answer;
use reference::brute::Brute;
use reference::planner::Planner;
use reference::sample::{PLAN, changed, sample, with_line};

fn assert_read(number: u64, at: u64, texts: &[String]) {
    for text in texts {
        assert_eq!(read(text), refused(number, at), "{text:?}");
    }
}

fn lines(number: usize, lines: &[&str]) -> Vec<String> {
    lines.iter().map(|line| with_line(number, line)).collect()
}

#[test]
fn key_of_a_line() {
    assert_read(1, 1, &lines(1, &["varss=2", "vars", "Vars=2", "", " vars=2", "size=2", "var=2"]));
    assert_read(1, 18, &lines(18, &["goals=", "eff=0:2", "goal:0"]));
    assert_eq!(read(""), refused(1, 1));
    assert_eq!(read("\n"), refused(1, 1));
}

#[test]
fn missing_and_extra_lines() {
    let lines: Vec<String> = sample().lines().map(str::to_owned).collect();
    for kept in 0..lines.len() {
        let text = lines[..kept].join("\n");
        assert_eq!(read(&text), refused(1, kept as u64 + 1));
    }
    assert_eq!(read(&(sample() + "\n")), Answer::default());
    assert_eq!(read(&(sample() + "\n\n")), refused(1, 25));
    assert_eq!(read(&(sample() + "\nbudget=1\nx\n")), refused(1, 25));
}

#[test]
fn form_of_a_number() {
    let faults = [
        "vars==2",
        "vars=",
        "vars=02",
        "vars=00",
        "vars=+2",
        "vars=-2",
        "vars= 2",
        "vars=2 ",
        "vars=2\r",
        "vars=2,",
        "vars=a",
        "vars=10000000",
        "vars=2.",
        "vars=\u{b2}",
    ];
    assert_read(2, 1, &lines(1, &faults));
    assert_read(2, 24, &lines(24, &["budget=10000000", "budget=0100", "budget="]));
}

#[test]
fn form_of_a_list() {
    let faults = [
        "goal=0",
        "goal=0:",
        "goal=:2",
        "goal=,",
        "goal=0:2,",
        "goal=,0:2",
        "goal=0:2,,1:1",
        "goal=0:2:1",
        "goal=0:02",
        "goal=00:2",
        "goal=0:2 ",
        "goal=0:10000000",
        "goal=1:1,0:x",
        "goal=9:9,",
        "goal=0;2",
    ];
    assert_read(2, 18, &lines(18, &faults));
    assert_read(2, 19, &lines(19, &["start=", "start=,", "start=0,", "start=0,0,", "start=9,x"]));
    assert_read(2, 21, &lines(21, &["pattern=,", "pattern=0,", "pattern=0:1", "pattern=9,,"]));
}

#[test]
fn range_of_a_number() {
    assert_read(3, 1, &lines(1, &["vars=0", "vars=17", "vars=9999999"]));
    assert_read(3, 2, &lines(2, &["size=0", "size=1", "size=17"]));
    assert_read(3, 4, &lines(4, &["moves=65"]));
    assert_read(3, 6, &lines(6, &["outcomes=0", "outcomes=9"]));
    assert_read(3, 20, &lines(20, &["patterns=9"]));
    assert_read(3, 23, &lines(23, &["limit=256", "limit=9999999"]));
    assert_read(3, 24, &lines(24, &["budget=1000001"]));
    assert_eq!(read(&with_line(24, "budget=1000000")), Answer::default());
}

#[test]
fn rules_of_a_list() {
    let faults =
        ["goal=2:0", "goal=0:4", "goal=1:2", "goal=1:1,0:2", "goal=0:2,0:2", "goal=9999999:0"];
    assert_read(4, 18, &lines(18, &faults));
    assert_read(4, 5, &lines(5, &["need=0:9999999"]));
    assert_read(4, 7, &lines(7, &["eff=2:0"]));
    assert_read(4, 19, &lines(19, &["start=0", "start=0,0,0", "start=4,0", "start=0,2"]));
    assert_read(4, 21, &lines(21, &["pattern=2", "pattern=1,0", "pattern=1,1"]));
}

#[test]
fn lowest_line_goes_first() {
    let text = with_line(2, "size=1").replace("vars=2", "vars=x");
    assert_eq!(read(&text), refused(2, 1));
}

#[test]
fn short_record_in_every_entry() {
    let record = &record(&sample())[..9_527];
    let (state, answer) = (start(&sample()), refused(5, 9_527));
    assert_eq!(Brute.read_text(b"", &mut [0; 9_527]), answer);
    assert_eq!(Brute.check_record(record), answer);
    assert_eq!(Brute.check_state(record, &[]), answer);
    assert_eq!(Brute.build_tables(record, &mut []), answer);
    assert_eq!(Brute.spread(record, 0, &mut [], &mut []), answer);
    assert_eq!(Brute.additive(record), answer);
    assert_eq!(Brute.value(record, &[], &[]), answer);
    assert_eq!(Brute.search(record, &mut [], &mut []), answer);
    assert_eq!(Brute.check_plan(record, &state, &PLAN), answer);
    assert_eq!(Brute.check_record(&[]), refused(5, 0));
}

/// The sample record with one cell changed.
fn cell(offset: usize, held: u8) -> Vec<u8> {
    let mut record = record(&sample());
    record[offset] = held;
    record
}

#[test]
fn cells_outside_their_rule() {
    let faults = [
        (0, 0),
        (0, 17),
        (1, 65),
        (2, 9),
        (8, 1),
        (8, 17),
        (9, 0),
        (10, 2),
        (24, 4),
        (25, 254),
        (26, 0),
        (40, 4),
        (40, 255),
        (42, 0),
        (56, 2),
        (58, 1),
        (88, 1),
        (184, 0),
        (184, 9),
        (185, 4),
        (187, 0),
        (201, 4),
        (203, 0),
        (217, 0),
        (764, 1),
        (765, 0),
        (781, 0),
        (9_463, 0),
        (9_464, 0),
        (9_467, 0),
        (9_468, 1),
        (9_468, 255),
        (9_527, 1),
    ];
    for (offset, held) in faults {
        let answer = refused(6, offset as u64);
        assert_eq!(Brute.check_record(&cell(offset, held)), answer, "{offset}: {held}");
    }
}

#[test]
fn a_budget_at_fault_is_told_at_four() {
    let mut record = record(&sample());
    record[4..8].copy_from_slice(&1_000_000_u32.to_le_bytes());
    assert_eq!(Brute.check_record(&record), Answer::default());
    record[4..8].copy_from_slice(&1_000_001_u32.to_le_bytes());
    assert_eq!(Brute.check_record(&record), refused(6, 4));
    assert_eq!(Brute.check_record(&cell(7, 1)), refused(6, 4));
}

#[test]
fn a_longer_record_passes() {
    let mut longer = record(&sample());
    longer.push(77);
    assert_eq!(Brute.check_record(&longer), Answer::default());
    assert_eq!(Brute.read_text(sample().as_bytes(), &mut longer), Answer::default());
    assert_eq!(longer[9_528..], [77]);
}

#[test]
fn faulty_record_before_everything_else() {
    let record = cell(2, 99);
    let answer = refused(6, 2);
    assert_eq!(Brute.check_state(&record, &[]), answer);
    assert_eq!(Brute.build_tables(&record, &mut []), answer);
    assert_eq!(Brute.spread(&record, 0, &mut [], &mut []), answer);
    assert_eq!(Brute.additive(&record), answer);
    assert_eq!(Brute.value(&record, &[], &[]), answer);
    assert_eq!(Brute.search(&record, &mut [], &mut []), answer);
    assert_eq!(Brute.check_plan(&record, &[], &[]), answer);
}

/// Five variables of size 16; patterns of 16, then 16^4 states; the one
/// action touches both.
fn wide() -> String {
    let sizes = "size=16\n".repeat(5);
    format!(
        "vars=5\n{sizes}moves=1\nneed=\noutcomes=1\neff=0:1,1:1\ngoal=\nstart=0,0,0,0,0\n\
        patterns=2\npattern=0\npattern=1,2,3,4\nlimit=0\nbudget=0\n"
    )
}

#[test]
fn wide_pattern_before_short_tables_and_additivity() {
    let record = record(&wide());
    assert_eq!(Brute.build_tables(&record, &mut []), refused(7, 1));
    assert_eq!(Brute.value(&record, &[], &[]), refused(7, 1));
    assert_eq!(Brute.search(&record, &mut [], &mut []), refused(7, 1));
    // The verdict asks for no table.
    assert_eq!(Brute.additive(&record), Answer::kind(1, 0, 0, 1));
}

#[test]
fn short_tables_before_additivity() {
    let record = record(&changed("eff=1:1", "eff=0:2,1:1"));
    assert_eq!(Brute.build_tables(&record, &mut [0; 5]), refused(8, 6));
    assert_eq!(Brute.value(&record, &[], &[0; 5]), refused(8, 6));
    assert_eq!(Brute.search(&record, &mut [0; 5], &mut []), refused(8, 6));
    assert_eq!(Brute.value(&record, &[], &[0; 6]), refused(9, 3));
    // The build does not ask for additivity.
    assert_eq!(Brute.build_tables(&record, &mut [0; 6]), Answer::kind(0, 6, 0, 0));
}

#[test]
fn state_of_another_length_or_with_a_bad_cell() {
    let record = record(&sample());
    let state = start(&sample());
    let longer = [&state[..], &[255]].concat();
    for lent in [&state[..15], &longer, &[]] {
        assert_eq!(Brute.check_state(&record, lent), refused(10, 16));
        assert_eq!(Brute.value(&record, lent, &[0; 6]), refused(10, 16));
        assert_eq!(Brute.check_plan(&record, lent, &[]), refused(10, 16));
    }
    for (offset, held) in [(0, 4), (0, 255), (1, 2), (2, 0), (15, 254)] {
        let mut bad = state.clone();
        bad[offset] = held;
        assert_eq!(Brute.check_state(&record, &bad), refused(10, offset as u64));
    }
    assert_eq!(Brute.check_state(&record, &state), Answer::default());
}

#[test]
fn plan_longer_than_its_buffer() {
    let mut tables = [9; 7];
    let mut plan = [1; 6];
    let answer = Brute.search(&record(&sample()), &mut tables, &mut plan);
    assert_eq!(answer, refused(11, 7));
    assert_eq!(tables, [3, 2, 0, 1, 1, 0, 9]);
    assert_eq!(plan, [255; 6]);
}

#[test]
fn check_at_each_byte() {
    assert_eq!(check(&sample(), &[]), refused(12, 0));
    assert_eq!(check(&sample(), &[0]), refused(12, 1));
    assert_eq!(check(&sample(), &[255]), refused(13, 0));
    assert_eq!(check(&sample(), &[0, 253]), refused(13, 1));
    assert_eq!(check(&sample(), &[1]), refused(14, 0));
    assert_eq!(check(&sample(), &[0, 1, 254]), refused(15, 2));
    assert_eq!(check(&sample(), &[0, 1, 3, 2]), refused(14, 3));
    assert_eq!(check(&sample(), &[0, 1, 3, 254, 2, 3, 254, 9, 9]), refused(16, 7));
    // The earlier byte decides, whatever the later ones are.
    assert_eq!(check(&sample(), &[254, 99]), refused(15, 0));
    assert_eq!(check(&sample(), &[1, 99]), refused(14, 0));
}

/// Two moves turn variable 0 to and fro; the third reaches the goal.
const TURNTABLE: &str = "vars=2\nsize=2\nsize=2\nmoves=3\nneed=0:0\noutcomes=1\neff=0:1\nneed=0:1\n\
    outcomes=1\neff=0:0\nneed=\noutcomes=1\neff=1:1\ngoal=1:1\nstart=0,0\npatterns=0\nlimit=9\nbudget=9";

fn turns(number: usize) -> Vec<u8> {
    (0..number).map(|turn| (turn % 2) as u8).collect()
}

#[test]
fn a_move_after_as_many_as_a_path_may_have() {
    let deepest = [turns(254), vec![2, 254]].concat();
    assert_eq!(check(TURNTABLE, &deepest), Answer::kind(0, 255, 256, 0));
    assert_eq!(check(TURNTABLE, &[turns(255), vec![2, 254]].concat()), refused(17, 255));
    // Depth goes before applicability, but after the other two.
    assert_eq!(check(TURNTABLE, &[turns(255), vec![1]].concat()), refused(17, 255));
    assert_eq!(check(TURNTABLE, &[turns(255), vec![254]].concat()), refused(15, 255));
    assert_eq!(check(TURNTABLE, &[turns(255), vec![3]].concat()), refused(13, 255));
    assert_eq!(check(TURNTABLE, &turns(255)), refused(12, 255));
    assert_eq!(check(TURNTABLE, &[turns(254), vec![2, 2]].concat()), refused(17, 255));
    assert_eq!(check(TURNTABLE, &[2, 2]), refused(14, 1));
}
