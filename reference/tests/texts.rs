//! Generated texts read back, and what a text becomes when it is damaged.

use reference::answer::Answer;
use reference::brute::record::{self, LENGTH};
use reference::brute::task::Task;
use reference::brute::{Brute, reader};
use reference::generate::{Random, damage, tasks, text};
use reference::planner::Planner;

const SEED: u64 = 77;

#[test]
fn generated_texts_read_back() {
    for case in 0..3_000 {
        let task = tasks::any(&mut Random::of_case(SEED, case));
        for (number, last_break) in [true, false, true, false].into_iter().enumerate() {
            // Costs of 1 left out, and written for some of the moves.
            let written = |action: usize| number > 1 && (case as usize + action) % number == 0;
            let text = text::text_with(&task, written, last_break);
            assert_eq!(reader::parse(&text).as_ref(), Ok(&task), "case {case}");
            let mut record = vec![0; LENGTH];
            assert_eq!(Brute.read_text(&text, &mut record), Answer::default());
            assert_eq!(record::decode(&record).as_ref(), Ok(&task), "case {case}");
        }
    }
}

/// The text of a task with a line for each cost that another text has one for.
fn with_the_lines_of(other: &[u8], task: &Task, last_break: bool) -> Vec<u8> {
    let lines: Vec<&[u8]> = other.split(|&byte| byte == b'\n').collect();
    let needs = (0..lines.len()).filter(|&line| lines[line].starts_with(b"need="));
    let is_cost = |need: usize| lines[need + 1].starts_with(b"cost=");
    let written: Vec<bool> = needs.map(is_cost).collect();
    text::text_with(task, |action| written[action], last_break)
}

/// But for lines of costs that may be left out, texts have one form only: what
/// still reads is the text of the task read.
#[test]
fn a_damaged_text_is_refused_or_is_another_text() {
    let (mut sound, mut refused) = (0, [0; 5]);
    for case in 0..10_000 {
        let mut random = Random::of_case(SEED + 1, case);
        let written = |action: usize| (case as usize + action) % 3 == 0;
        let whole = text::text_with(&tasks::small(&mut random), written, case % 2 == 0);
        let damaged = damage::text(&mut random, &whole);
        match reader::parse(&damaged) {
            Ok(task) => {
                let again = |last_break| with_the_lines_of(&damaged, &task, last_break);
                let again = [true, false].map(again);
                assert!(again.contains(&damaged), "case {case}");
                sound += 1;
            }
            Err(refusal) => {
                let lines = damaged.iter().filter(|&&byte| byte == b'\n').count() as u64 + 1;
                assert!((1..=lines + 1).contains(&refusal.at), "case {case}");
                refused[refusal.number() as usize] += 1;
            }
        }
    }
    println!("{sound} sound, refused {refused:?}");
    assert!(sound > 500 && refused[1..].iter().all(|&times| times > 200));
}

#[test]
fn a_record_is_sound_exactly_if_it_is_the_record_of_its_task() {
    let mut sound = 0;
    for case in 0..3_000 {
        let mut random = Random::of_case(SEED + 2, case);
        let whole = record::encode(&tasks::any(&mut random));
        let damaged = damage::record(&mut random, &whole);
        if let Ok(task) = record::decode(&damaged) {
            assert_eq!(record::encode(&task), damaged[..LENGTH], "case {case}");
            sound += 1;
        }
    }
    assert!(sound > 100, "{sound}");
}
