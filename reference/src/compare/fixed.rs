//! Calls that do not depend on a seed: the sample tower and everything near
//! it, tried through.

use super::{Call, Entry, Slices, costs, restated, spreads, upgrades};
use crate::brute::record::{self, LENGTH, ROW};
use crate::brute::task::Task;
use crate::brute::{plan::ARRIVED, reader, state, tables};
use crate::generate::damage;
use crate::sample::{self, PLAN};

/// Calls made up one by one: all records at once would fill the memory.
pub type Calls = Box<dyn Iterator<Item = Call>>;

pub(super) fn task(text: &str) -> Task {
    reader::parse(text.as_bytes()).expect("a sound text")
}

pub(super) fn record(text: &str) -> Vec<u8> {
    record::encode(&task(text))
}

fn call(entry: Entry, slices: Slices) -> Call {
    Call::of(entry, slices)
}

/// The sample text with every byte removed, doubled or replaced, cut off at
/// every byte, and with every line given every value that may upset it.
fn texts() -> Vec<Vec<u8>> {
    let text = sample::sample().into_bytes();
    let ends: [&[u8]; 6] = [b"", b"\n", b"\n\n", b"\r\n", b" ", b"\nx"];
    let mut texts: Vec<Vec<u8>> = ends.iter().map(|end| [&text, *end].concat()).collect();
    for place in 0..text.len() {
        let (before, after) = (&text[..place], &text[place + 1..]);
        texts.push(before.to_vec());
        for middle in [&b""[..], &[text[place]; 2], b"\n", b"0", b"9", b",", b":", b"=", b"\r"] {
            texts.push([before, middle, after].concat());
        }
    }
    for (number, line) in sample::SAMPLE.split('/').enumerate() {
        let key = line.split('=').next().unwrap_or_default();
        for value in [damage::NUMBERS, damage::LISTS].concat() {
            let line = format!("{key}={value}");
            texts.push(sample::with_line(number + 1, &line).into_bytes());
        }
    }
    texts
}

fn reads() -> Calls {
    let read = |text: Vec<u8>| {
        let record = vec![0xc3; LENGTH];
        call(Entry::ReadText, Slices { text, record, ..Slices::default() })
    };
    Box::new(texts().into_iter().map(read))
}

/// Every cell of the record with other values, and records of other lengths.
fn records() -> Calls {
    let sound = record(&sample::sample());
    let lengths = [0, 1, LENGTH - 1, LENGTH, LENGTH + 1];
    let longer = [&sound[..], &[1]].concat();
    let resized = lengths.map(|length| longer[..length].to_vec());
    let changed = (0..LENGTH).flat_map(move |offset| {
        let held = sound[offset];
        [held.wrapping_add(1), held ^ 255, 2].map(|other| {
            let mut record = sound.clone();
            record[offset] = other;
            record
        })
    });
    let check = |record| call(Entry::CheckRecord, Slices { record, ..Slices::default() });
    Box::new(resized.into_iter().chain(changed).map(check))
}

fn states() -> Calls {
    let sound = state::encode(&[0, 0]);
    let mut states: Vec<Vec<u8>> = (0..=20).map(|length| vec![255; length]).collect();
    for offset in 0..ROW {
        for held in [0, 1, 2, 3, 4, 254, 255] {
            let mut state = sound.clone();
            state[offset] = held;
            states.push(state);
        }
    }
    let record = record(&sample::sample());
    let tables = vec![3, 2, 0, 1, 1, 0];
    let with_state = move |state: Vec<u8>| {
        let (record, tables, plan) = (record.clone(), tables.clone(), PLAN.to_vec());
        [
            (Entry::CheckState, vec![], vec![]),
            (Entry::Value, tables, vec![]),
            (Entry::CheckPlan, vec![], plan),
        ]
        .map(|(entry, tables, plan)| {
            let (record, state) = (record.clone(), state.clone());
            call(entry, Slices { record, state, tables, plan, ..Slices::default() })
        })
    };
    Box::new(states.into_iter().flat_map(with_state))
}

/// The sample and its variants in the specification.
pub(super) fn variants() -> Vec<String> {
    vec![
        sample::sample(),
        sample::without_patterns(),
        sample::changed("eff=0:3", "eff=0:0"),
        sample::changed("eff=1:1", "eff=0:2,1:1"),
        sample::changed("need=0:1/outcomes=2/eff=0:2", "need=0:1,1:0/outcomes=2/eff=0:2,1:0"),
        sample::changed("pattern=0/pattern=1", "pattern=0,1/pattern="),
        costs::with_cost_3(),
    ]
}

/// Builds, verdicts and values with tables of every length about the right one.
fn builds() -> Calls {
    let mut calls = Vec::new();
    for text in variants() {
        let (record, built) = (record(&text), tables::all_tables(&task(&text)));
        calls.push(call(Entry::Additive, Slices { record: record.clone(), ..Slices::default() }));
        for length in 0..=built.len() + 3 {
            let (record, tables) = (record.clone(), vec![0x7777; length]);
            calls.push(call(Entry::BuildTables, Slices { record, tables, ..Slices::default() }));
        }
        for values in task(&text).all_states() {
            let (record, state) = (record.clone(), state::encode(&values));
            let tables = built.clone();
            calls.push(call(Entry::Value, Slices { record, state, tables, ..Slices::default() }));
        }
    }
    Box::new(calls.into_iter())
}

/// Searches with every small limit and budget, and with plans and tables that
/// just fit or just do not.
fn searches() -> Calls {
    let mut calls = Vec::new();
    for text in variants() {
        let mut task = task(&text);
        let entries = tables::all_tables(&task).len();
        let mut search = |task: &Task, entries: usize, length: usize| {
            let (record, tables) = (record::encode(task), vec![0x7777; entries]);
            let plan = vec![0x77; length];
            calls.push(call(Entry::Search, Slices { record, tables, plan, ..Slices::default() }));
        };
        for length in [0, 6, 7, 8] {
            search(&task, entries, length);
            search(&task, entries + 2, length);
            search(&task, entries.saturating_sub(1), length);
        }
        for limit in (0..=6).chain([32, 255]) {
            for budget in 0..=60 {
                task.limit = limit;
                task.budget = budget;
                search(&task, entries, 9);
            }
        }
    }
    Box::new(calls.into_iter())
}

/// All plans of up to five bytes at the start of the sample, and its own plan
/// with every byte replaced by every other.
fn plans() -> Calls {
    let bytes = [0, 1, 2, 3, 4, 253, ARRIVED, 255];
    let mut longest = vec![Vec::new()];
    let mut all: Vec<Vec<u8>> = longest.clone();
    for _ in 0..5 {
        let longer = |plan: &Vec<u8>| bytes.map(|byte| [&plan[..], &[byte]].concat());
        longest = longest.iter().flat_map(longer).collect();
        all.extend_from_slice(&longest);
    }
    for place in 0..PLAN.len() {
        for byte in 0..=255 {
            let mut plan = PLAN.to_vec();
            plan[place] = byte;
            all.push(plan);
        }
    }
    let record = record(&sample::sample());
    let check = move |plan| {
        let (record, state) = (record.clone(), state::encode(&[0, 0]));
        call(Entry::CheckPlan, Slices { record, state, plan, ..Slices::default() })
    };
    Box::new(all.into_iter().map(check))
}

/// The fixed calls, part by part.
pub const PARTS: [fn() -> Calls; 16] = [
    reads,
    records,
    states,
    builds,
    spreads::near_the_sample,
    spreads::refused,
    spreads::deepest,
    searches,
    restated::near_the_sample,
    plans,
    costs::reads,
    costs::records,
    costs::near_the_sample,
    costs::long_paths,
    costs::dearest,
    upgrades::upgrades,
];
