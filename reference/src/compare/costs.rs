//! Costs of moves, on calls that do not depend on a seed: the sample tower with
//! every cost, plans about as long as a path may be, and the dearest tables.

use super::fixed::{Calls, task};
use super::{Call, Entry, Slices};
use crate::brute::plan::{ARRIVED, MOST_MOVES};
use crate::brute::record::{COSTS, LENGTH, encode};
use crate::brute::task::{Action, Task};
use crate::brute::{state, tables};
use crate::generate::{Random, damage, plans, tasks, text};
use crate::sample;

/// The task with the cost of each move as told by its number.
pub fn with_costs(task: &Task, cost: impl Fn(usize) -> u8) -> Task {
    let mut task = task.clone();
    for (number, action) in task.actions.iter_mut().enumerate() {
        action.cost = cost(number);
    }
    task
}

/// The sample with these costs.
fn costly_sample(costs: [u8; 4]) -> Task {
    with_costs(&task(&sample::sample()), |number| costs[number])
}

/// Lines of the sample with one cost, by the move that has it; the need of the
/// move is the line before.
fn lines_with(number: usize, cost: &str) -> Vec<String> {
    let mut lines: Vec<String> = sample::SAMPLE.split('/').map(str::to_owned).collect();
    let needs = (0..lines.len()).filter(|&line| lines[line].starts_with("need="));
    let need = needs.collect::<Vec<_>>()[number];
    lines.insert(need + 1, cost.to_owned());
    lines
}

/// Cost lines with every value that may upset them, behind each need, in every
/// place, doubled, and with other keys that begin or end alike.
fn texts() -> Vec<Vec<u8>> {
    let mut all: Vec<Vec<String>> = Vec::new();
    let keys =
        ["cost", "cost ", "Cost=1", "costs=1", "cost:1", "cos=1", "c", " cost=1", "cost=1=1"];
    for number in 0..4 {
        let values = damage::NUMBERS.iter().map(|value| format!("cost={value}"));
        let lines = values.chain(keys.map(str::to_owned));
        all.extend(lines.map(|line| lines_with(number, &line)));
        for further in ["cost=1", "cost=", "cost=0", "cost=9", "x"] {
            let mut doubled = lines_with(number, "cost=3");
            let place = doubled.iter().position(|line| line == "cost=3").unwrap_or(0);
            doubled.insert(place + 1, further.to_owned());
            all.push(doubled);
        }
    }
    for place in 0..=sample::SAMPLE.split('/').count() {
        let mut lines: Vec<String> = sample::SAMPLE.split('/').map(str::to_owned).collect();
        lines.insert(place, "cost=2".to_owned());
        all.push(lines.clone());
        // Where the text ends behind it.
        lines.truncate(place + 1);
        all.push(lines);
    }
    all.into_iter().map(|lines| lines.join("\n").into_bytes()).collect()
}

/// A text with all its costs written, with every byte removed, doubled or
/// replaced, and cut off at every byte.
fn damaged_texts() -> Vec<Vec<u8>> {
    let text = text::text_with(&costly_sample([1, 25, 255, 1]), |_| true, false);
    let mut texts = Vec::new();
    for place in 0..text.len() {
        let (before, after) = (&text[..place], &text[place + 1..]);
        texts.push(before.to_vec());
        for middle in [&b""[..], &[text[place]; 2], b"\n", b"0", b"6", b"=", b"c"] {
            texts.push([before, middle, after].concat());
        }
    }
    texts
}

pub fn reads() -> Calls {
    let read = |text: Vec<u8>| {
        let record = vec![0xc3; LENGTH];
        Call::of(Entry::ReadText, Slices { text, record, ..Slices::default() })
    };
    Box::new(texts().into_iter().chain(damaged_texts()).map(read))
}

/// The costs of the sample's record with other values, records of every length
/// between the forms, and every limit.
pub fn records() -> Calls {
    let sound = encode(&costly_sample([1, 3, 1, 255]));
    let mut records: Vec<Vec<u8>> =
        (COSTS - 1..LENGTH).map(|length| sound[..length].to_vec()).collect();
    let cells =
        (COSTS..LENGTH).flat_map(|offset| [0, 1, 2, 3, 254, 255].map(|held| (offset, held)));
    let limits = (0..=255).map(|held| (3, held));
    for (offset, held) in cells.chain(limits) {
        let mut record = sound.clone();
        record[offset] = held;
        records.push(record);
    }
    let check = |record| Call::of(Entry::CheckRecord, Slices { record, ..Slices::default() });
    Box::new(records.into_iter().map(check))
}

/// Costs that tell the moves apart, and move 1 with each that matters.
fn cost_lists() -> Vec<[u8; 4]> {
    let mut lists = vec![[2, 3, 4, 5], [5, 4, 3, 2], [255; 4], [7; 4], [1, 1, 3, 1], [1, 1, 1, 4]];
    lists.extend([1, 2, 3, 4, 127, 128, 254, 255].map(|cost| [1, cost, 1, 1]));
    lists
}

/// Builds, values and searches of the sample with costs, with patterns and
/// without, with every limit about the cost and every budget about the count.
pub fn near_the_sample() -> Calls {
    let tasks = cost_lists().into_iter().flat_map(|costs| {
        let with = costly_sample(costs);
        let without = Task { patterns: Vec::new(), ..with.clone() };
        [with, without]
    });
    Box::new(tasks.flat_map(calls_on))
}

fn calls_on(mut task: Task) -> Vec<Call> {
    let built = tables::all_tables(&task);
    let record = encode(&task);
    let lent = Slices { record, tables: vec![0x77; built.len()], ..Slices::default() };
    let mut calls = vec![Call::of(Entry::BuildTables, lent)];
    for values in task.all_states() {
        let (record, state) = (encode(&task), state::encode(&values));
        let tables = built.clone();
        calls.push(Call::of(Entry::Value, Slices { record, state, tables, ..Slices::default() }));
    }
    for limit in (0..=8).chain([12, 33, 254, 255]) {
        for budget in (0..=12).chain([20, 40, 3_000]) {
            task.limit = limit;
            task.budget = budget;
            let (record, tables) = (encode(&task), vec![0x77; built.len()]);
            let plan = vec![0x77; 9];
            calls.push(Call::of(
                Entry::Search,
                Slices { record, tables, plan, ..Slices::default() },
            ));
        }
    }
    calls
}

/// Plans on both sides of the longest path that passes, with every kind of byte
/// at the end; of moves that cost 1, 255, and 1 and 255 in turn.
pub fn long_paths() -> Calls {
    let turntable = tasks::turntable(&mut Random::new(1));
    let costs: [[u8; 3]; 4] = [[1; 3], [255; 3], [1, 255, 7], [8, 8, 255]];
    let tasks = costs.map(|costs| with_costs(&turntable, |number| costs[number]));
    let lengths = (29..=35).chain(MOST_MOVES - 3..=MOST_MOVES + 3);
    let each = move |task: Task| {
        let turned =
            lengths.clone().map(|turns| (turns, plans::turning(&task, &task.start, turns)));
        let (record, state) = (encode(&task), state::encode(&task.start));
        let call = move |plan| {
            let (record, state) = (record.clone(), state.clone());
            Call::of(Entry::CheckPlan, Slices { record, state, plan, ..Slices::default() })
        };
        turned.flat_map(|(turns, whole)| endings(&whole, turns)).map(call).collect::<Vec<_>>()
    };
    Box::new(tasks.into_iter().flat_map(each))
}

/// The plan, cut off behind its turns, and with other bytes behind those.
fn endings(whole: &[u8], turns: usize) -> Vec<Vec<u8>> {
    let mut all = vec![whole.to_vec(), whole[..turns].to_vec()];
    for byte in [0, 1, 2, 3, ARRIVED, 255] {
        all.push([&whole[..turns], &[byte]].concat());
        all.push([&whole[..turns + 1], &[byte]].concat());
        all.push([whole, &[byte]].concat());
    }
    all
}

/// Counting to the base of 16 in three variables: one move for each digit of
/// each variable, which carries. All 4,096 states are on one path.
pub fn counter_of_sixteens() -> Task {
    let step = |v: usize, digit: u8| {
        let need = |w: usize| (w <= v).then_some(if w < v { 15 } else { digit });
        let outcome = |w: usize| (w <= v).then_some(if w < v { 0 } else { digit + 1 });
        Action {
            precondition: (0..3).map(need).collect(),
            outcomes: vec![(0..3).map(outcome).collect()],
            cost: 1,
        }
    };
    Task {
        sizes: vec![16; 3],
        actions: (0..3).flat_map(|v| (0..15).map(move |digit| step(v, digit))).collect(),
        goal: vec![Some(15); 3],
        start: vec![0; 3],
        patterns: vec![vec![true; 3]],
        limit: 255,
        budget: 100,
    }
}

/// Tables up to the entry 1,044,225, and others as deep with costs by move, of
/// which neighbours differ much; values of what they hold, and of entries that
/// add up to more than 32 bits.
pub fn dearest() -> Calls {
    let binary = tasks::counter(&mut Random::new(1), 12);
    let sixteens = counter_of_sixteens();
    let mut tasks = Vec::new();
    for task in [binary, sixteens] {
        tasks.push(with_costs(&task, |_| 255));
        tasks.push(with_costs(&task, |number| [255, 1, 254, 2, 128][number % 5]));
        tasks.push(with_costs(&task, |number| 1 + (number * 23 % 255) as u8));
    }
    let of_task = |mut task: Task| {
        task.start.fill(0);
        let (record, lent) = (encode(&task), vec![0x7777; 4_097]);
        let slices = Slices { record, tables: lent, ..Slices::default() };
        let mut search = slices.clone();
        search.plan = vec![0x77; 20];
        let mut value = slices.clone();
        value.tables = tables::all_tables(&task);
        value.state = state::encode(&task.start);
        let calls = [(Entry::BuildTables, slices), (Entry::Search, search), (Entry::Value, value)];
        calls.map(|(entry, slices)| Call::of(entry, slices))
    };
    Box::new(tasks.into_iter().flat_map(of_task).chain(large_sums()))
}

/// Values of eight lent entries each, finite and not, about 2^16 and 2^32.
fn large_sums() -> Vec<Call> {
    let mut task = task(&sample::without_patterns());
    task.actions.clear();
    task.patterns = vec![vec![true, false]; 8];
    let entries = [0, 1, 65_534, 65_535, 65_536, 1 << 29, 1 << 31, u32::MAX - 1, u32::MAX];
    let mut calls = Vec::new();
    for entry in entries {
        for last in entries {
            let mut tables = [entry, 7, 7, 7].repeat(8);
            tables[28] = last;
            let (record, state) = (encode(&task), state::encode(&task.start));
            let slices = Slices { record, state, tables, ..Slices::default() };
            calls.push(Call::of(Entry::Value, slices));
        }
    }
    calls
}

/// The sample's text with the cost of move 1 told.
pub fn with_cost_3() -> String {
    lines_with(1, "cost=3").join("\n")
}
