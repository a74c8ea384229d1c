//! The spread of a table, from the words of the request.

mod common;

use common::{record, refused};
use reference::answer::Answer;
use reference::brute::Brute;
use reference::planner::Planner;
use reference::sample::{changed, sample};

const OLD_ENTRY: u32 = 777;
const OLD_COUNT: u32 = 4_000_000_000;
/// Where the infinite states are counted, and the counts of a row.
const INFINITE: usize = 1_044_226;
const COUNTS: usize = 1_044_227;

/// What a call answers and what its slices hold afterwards.
fn spread(text: &str, pattern: u64, entries: usize, row: usize) -> (Answer, Vec<u32>, Vec<u32>) {
    spread_of(&record(text), pattern, entries, row)
}

fn spread_of(
    record: &[u8],
    pattern: u64,
    entries: usize,
    row: usize,
) -> (Answer, Vec<u32>, Vec<u32>) {
    let (mut tables, mut row) = (vec![OLD_ENTRY; entries], vec![OLD_COUNT; row]);
    let answer = Brute.spread(record, pattern, &mut tables, &mut row);
    (answer, tables, row)
}

/// A row of 1,044,227 counts of which those named are not 0.
fn row(counts: &[(usize, u32)]) -> Vec<u32> {
    let mut row = vec![0; COUNTS];
    counts.iter().for_each(|&(value, count)| row[value] = count);
    row
}

/// A refusal that leaves both slices as found.
fn assert_refused(record: &[u8], (entries, counts): (usize, usize), answer: Answer) {
    let as_found = (answer, vec![OLD_ENTRY; entries], vec![OLD_COUNT; counts]);
    assert_eq!(spread_of(record, 0, entries, counts), as_found);
}

#[test]
fn the_samples_patterns() {
    let tables = vec![3, 2, 0, 1, 1, 0];
    let pallet = row(&[(0, 1), (1, 1), (2, 1), (3, 1)]);
    assert_eq!(spread(&sample(), 0, 6, COUNTS), (Answer::kind(0, 4, 0, 0), tables.clone(), pallet));
    let door = row(&[(0, 1), (1, 1)]);
    assert_eq!(spread(&sample(), 1, 6, COUNTS), (Answer::kind(0, 2, 0, 0), tables, door));
}

#[test]
fn infinite_states_have_the_last_count() {
    let text = changed("eff=0:3", "eff=0:0");
    let (answer, tables, counts) = spread(&text, 0, 6, COUNTS);
    assert_eq!(answer, Answer::kind(0, 4, 0, 0));
    assert_eq!(tables, [u32::MAX, u32::MAX, 0, 1, 1, 0]);
    assert_eq!(counts, row(&[(0, 1), (1, 1), (INFINITE, 2)]));
}

#[test]
fn a_number_that_no_pattern_has() {
    for pattern in [2, 8, 256, 1 << 32, (1 << 32) + 1, u64::MAX] {
        let (answer, tables, counts) = spread(&sample(), pattern, 7, COUNTS);
        assert_eq!(answer, Answer::default(), "{pattern}");
        assert_eq!(tables, [3, 2, 0, 1, 1, 0, OLD_ENTRY], "the tables are built");
        assert_eq!(counts, row(&[]), "{pattern}");
    }
}

#[test]
fn an_empty_pattern_has_one_state() {
    let text = changed("pattern=0/pattern=1", "pattern=0,1/pattern=");
    let (answer, _, counts) = spread(&text, 1, 9, COUNTS);
    assert_eq!(answer, Answer::kind(0, 1, 0, 0));
    assert_eq!(counts, row(&[(0, 1)]));
}

#[test]
fn a_task_without_patterns_takes_no_entries() {
    let text = changed("patterns=2/pattern=0/pattern=1", "patterns=0");
    assert_eq!(spread(&text, 0, 0, COUNTS), (Answer::default(), vec![], row(&[])));
}

#[test]
fn the_rest_of_a_longer_row_is_untouched() {
    let (answer, _, counts) = spread(&sample(), 1, 6, COUNTS + 3);
    assert_eq!(answer, Answer::kind(0, 2, 0, 0));
    assert_eq!(counts, [&row(&[(0, 1), (1, 1)])[..], &[OLD_COUNT; 3]].concat());
}

#[test]
fn a_short_row_comes_after_the_checks_of_the_tables() {
    let sound = record(&sample());
    assert_refused(&sound, (6, COUNTS - 1), refused(18, COUNTS as u64 - 1));
    assert_refused(&sound, (6, 0), refused(18, 0));
    assert_refused(&sound, (5, 0), refused(8, 6));
    assert_refused(&sound, (5, COUNTS), refused(8, 6));
    // The length that sufficed before moves had costs.
    assert_refused(&sound, (6, 4_097), refused(18, 4_097));
    assert_refused(&sound[..9_527], (0, 0), refused(5, 9_527));
    let mut faulty = sound.clone();
    faulty[2] = 99;
    assert_refused(&faulty, (0, 0), refused(6, 2));
}

/// Binary counting with so many variables in one pattern.
fn counter(variables: usize) -> String {
    let mut text = format!("vars={variables}\n{}", "size=2\n".repeat(variables));
    text += &format!("moves={variables}\n");
    for v in 0..variables {
        let pairs = |below: usize, own: usize| -> String {
            let lower = (0..v).map(|w| format!("{w}:{below},")).collect::<String>();
            format!("{lower}{v}:{own}")
        };
        text += &format!("need={}\noutcomes=1\neff={}\n", pairs(1, 0), pairs(0, 1));
    }
    let join =
        |each: &dyn Fn(usize) -> String| (0..variables).map(each).collect::<Vec<_>>().join(",");
    text += &format!("goal={}\nstart={}\n", join(&|v| format!("{v}:1")), join(&|_| "0".to_owned()));
    text + &format!("patterns=1\npattern={}\nlimit=0\nbudget=0\n", join(&|v| v.to_string()))
}

#[test]
fn a_wide_pattern_comes_before_a_short_row() {
    assert_refused(&record(&counter(13)), (0, 0), refused(7, 0));
    assert_refused(&record(&counter(13)), (9_000, COUNTS - 1), refused(7, 0));
}

#[test]
fn the_deepest_table_has_each_value_once() {
    let (answer, _, counts) = spread(&counter(12), 0, 4_096, COUNTS);
    assert_eq!(answer, Answer::kind(0, 4_096, 0, 0));
    let each: Vec<(usize, u32)> = (0..4_096).map(|value| (value, 1)).collect();
    assert_eq!(counts, row(&each));
    // Each of its moves at 255.
    let dear = counter(12).replace("\noutcomes=", "\ncost=255\noutcomes=");
    let (answer, tables, counts) = spread(&dear, 0, 4_096, COUNTS);
    assert_eq!(answer, Answer::kind(0, 4_096, 0, 0));
    assert_eq!(tables[0], 1_044_225);
    let each: Vec<(usize, u32)> = (0..4_096).map(|value| (255 * value, 1)).collect();
    assert_eq!(counts, row(&each));
}
