//! What several test files need. Each of them uses a part of it.
#![allow(dead_code)]

pub mod cost_faults;
pub mod restating_faults;
pub mod spread_faults;
pub mod upgrade_faults;

use reference::answer::Answer;
use reference::brute::record::LENGTH;
use reference::brute::task::Task;
use reference::brute::{Brute, reader, state};
use reference::planner::Planner;

pub fn task(text: &str) -> Task {
    reader::parse(text.as_bytes()).expect("a sound text")
}

pub fn record(text: &str) -> Vec<u8> {
    let mut record = vec![9; LENGTH];
    let answer = Brute.read_text(text.as_bytes(), &mut record);
    assert_eq!(answer, Answer::default(), "{text}");
    record
}

/// The answer of the reader.
pub fn read(text: &str) -> Answer {
    Brute.read_text(text.as_bytes(), &mut vec![9; LENGTH])
}

pub fn start(text: &str) -> Vec<u8> {
    state::encode(&task(text).start)
}

pub fn refused(number: u64, at: u64) -> Answer {
    let first = at;
    Answer { number, first, ..Answer::default() }
}

pub fn build(text: &str) -> Vec<u32> {
    let mut tables = vec![0; 40_000];
    let answer = Brute.build_tables(&record(text), &mut tables);
    assert_eq!(answer.number, 0);
    tables.truncate(answer.first as usize);
    tables
}

pub fn search(text: &str) -> Answer {
    Brute.search(&record(text), &mut [0; 16_384], &mut [0; 65_536])
}

pub fn check(text: &str, plan: &[u8]) -> Answer {
    Brute.check_plan(&record(text), &start(text), plan)
}
