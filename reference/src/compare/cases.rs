//! The calls of one case: a task, and every entry on it and on damage to it.

use super::{Call, Entry, Slices};
use crate::brute::task::{State, Task};
use crate::brute::upgrade::{FIRST_LENGTH, FIRST_MOST_LIMIT};
use crate::brute::{record, search, state, tables, value};
use crate::generate::{Random, costs, damage, plans, rows, tasks, text};

/// Bytes a plan may take without being called long.
const ROOM: usize = 64;

struct Case {
    random: Random,
    task: Task,
    /// The record of the task.
    record: Vec<u8>,
    calls: Vec<Call>,
}

impl Case {
    fn call(&mut self, entry: Entry, slices: Slices) {
        self.calls.push(Call::of(entry, slices));
    }

    /// The record, now and then damaged or with bytes after it.
    fn any_record(&mut self) -> Vec<u8> {
        match self.random.below(12) {
            0 => damage::record(&mut self.random, &self.record),
            1 => [&self.record[..], &[7; 9]].concat(),
            _ => self.record.clone(),
        }
    }

    /// The lent form of a random state, now and then damaged.
    fn any_state(&mut self) -> Vec<u8> {
        let values = tasks::state(&mut self.random, &self.task);
        let lent = state::encode(&values);
        if self.random.once_in(8) { damage::state(&mut self.random, &lent) } else { lent }
    }

    /// The number of entries the tables need, if they can be built at all.
    fn entries(&self) -> usize {
        tables::entries(&self.task, usize::MAX).unwrap_or(0)
    }

    /// A length of tables: mostly enough, exactly or with some to spare.
    fn tables_length(&mut self) -> usize {
        let needed = self.entries();
        match self.random.below(14) {
            0 => needed.saturating_sub(1),
            1 => self.random.below(needed + 1),
            2..=6 => needed + self.random.within(1..=20),
            _ => needed,
        }
    }

    fn noise_tables(&mut self, length: usize) -> Vec<u32> {
        let entry = |random: &mut Random| match random.below(12) {
            0 => u32::MAX,
            1 => random.pick(&[u32::MAX - 1, 0x7fff_ffff, 0x8000_0000, 0xffff, 0xfffe, 0x1_0000]),
            2..=4 => random.draw() as u32,
            5..=6 => random.below(1_044_226) as u32,
            _ => random.below(40) as u32,
        };
        (0..length).map(|_| entry(&mut self.random)).collect()
    }

    fn texts(&mut self) {
        // Costs of 1 left out, written, and either.
        let either: Vec<bool> = (0..64).map(|_| self.random.once_in(2)).collect();
        let mut texts = vec![
            text::text(&self.task, true),
            text::text_with(&self.task, |_| true, false),
            text::text_with(&self.task, |number| either[number], self.random.once_in(2)),
        ];
        let wholes = texts.clone();
        for _ in 0..6 {
            let whole = &wholes[self.random.below(wholes.len())];
            let mut damaged = damage::text(&mut self.random, whole);
            if self.random.once_in(3) {
                damaged = damage::text(&mut self.random, &damaged);
            }
            texts.push(damaged);
        }
        for text in texts {
            let length = damage::record_length(&mut self.random);
            // One byte throughout, so that it prints short.
            let record = vec![self.random.byte(); length];
            self.call(Entry::ReadText, Slices { text, record, ..Slices::default() });
        }
    }

    fn records(&mut self) {
        let mut records = vec![self.record.clone()];
        for _ in 0..6 {
            records.push(damage::record(&mut self.random, &self.record));
        }
        for record in records {
            self.call(Entry::CheckRecord, Slices { record, ..Slices::default() });
        }
        for _ in 0..2 {
            let record = self.any_record();
            self.call(Entry::Additive, Slices { record, ..Slices::default() });
        }
        for _ in 0..4 {
            let (record, values) = (self.any_record(), self.any_state());
            let state = if self.random.once_in(2) {
                values
            } else {
                damage::state(&mut self.random, &state::encode(&self.task.start))
            };
            self.call(Entry::CheckState, Slices { record, state, ..Slices::default() });
        }
    }

    /// Stored records of the first form, and records of today's beside them.
    fn upgrades(&mut self) {
        let mut first = self.record[..FIRST_LENGTH].to_vec();
        first[3] = first[3].min(FIRST_MOST_LIMIT);
        for number in 0..5 {
            let old = match number {
                0 => first.clone(),
                1 => [&first[..], &[self.random.byte(); 90][..self.random.within(1..=90)]].concat(),
                2 => self.record.clone(),
                _ => damage::record(&mut self.random, &first),
            };
            let length = damage::record_length(&mut self.random);
            let record = vec![self.random.byte(); length];
            self.call(Entry::UpgradeRecord, Slices { old, record, ..Slices::default() });
        }
    }

    fn tables(&mut self) {
        for _ in 0..2 {
            let record = self.any_record();
            let length = self.tables_length();
            let tables = self.noise_tables(length);
            self.call(Entry::BuildTables, Slices { record, tables, ..Slices::default() });
        }
    }

    /// Spreads of a pattern, or of the first number that none has, and of any
    /// number that none has. Rows are long, so that the calls are few.
    fn spreads(&mut self) {
        let patterns = self.task.patterns.len();
        let near = self.random.below(patterns + 1) as u64;
        let near = self.random.once_in(2).then_some(near);
        let far = rows::far_number(&mut self.random, patterns as u64);
        let far = self.random.once_in(6).then_some(far);
        for pattern in near.into_iter().chain(far) {
            let record = self.any_record();
            let length = self.tables_length();
            let tables = self.noise_tables(length);
            let row = rows::row(&mut self.random);
            let slices = Slices { record, tables, row, ..Slices::default() };
            self.calls.push(Call::spread(pattern, slices));
        }
    }

    /// Values on the tables of the task and on any others.
    fn values(&mut self) {
        let narrow = tables::entries(&self.task, usize::MAX).is_ok();
        let built = if narrow { tables::all_tables(&self.task) } else { Vec::new() };
        for number in 0..8 {
            let (record, state) = (self.any_record(), self.any_state());
            let tables = if number < 5 {
                built.clone()
            } else {
                let length = self.tables_length();
                self.noise_tables(length)
            };
            self.call(Entry::Value, Slices { record, state, tables, ..Slices::default() });
        }
    }

    /// The bytes of the plan the search finds, if it answers and finds one.
    fn found(&self) -> Option<Vec<u8>> {
        let answers = tables::entries(&self.task, usize::MAX).is_ok();
        if !answers || value::demand_additive(&self.task).is_err() {
            return None;
        }
        match search::run(&self.task, &tables::all_tables(&self.task)).ending {
            search::Ending::Found { plan, .. } => Some(plan.bytes()),
            _ => None,
        }
    }

    fn searches(&mut self, found: usize) {
        for _ in 0..4 {
            let record = self.any_record();
            let length = self.tables_length();
            let tables = self.noise_tables(length);
            let length = match self.random.below(8) {
                0 => found.saturating_sub(1),
                1 => self.random.below(found + 1),
                2..=3 => found,
                _ => found + self.random.below(ROOM),
            };
            let plan = vec![self.random.byte(); length];
            self.call(Entry::Search, Slices { record, tables, plan, ..Slices::default() });
        }
    }

    fn check_plan(&mut self, from: &State, plan: Vec<u8>) {
        let record = self.any_record();
        let mut state = state::encode(from);
        if self.random.once_in(20) {
            state = damage::state(&mut self.random, &state);
        }
        self.call(Entry::CheckPlan, Slices { record, state, plan, ..Slices::default() });
    }

    /// A plan as it is, and damaged.
    fn check_around(&mut self, from: &State, plan: Vec<u8>) {
        for _ in 0..3 {
            let damaged = plans::damaged(&mut self.random, &self.task, &plan);
            self.check_plan(from, damaged);
        }
        self.check_plan(from, plan);
    }

    fn plans(&mut self, found: Option<Vec<u8>>) {
        let start = self.task.start.clone();
        if let Some(plan) = found {
            self.check_around(&start, plan);
        }
        for _ in 0..3 {
            let from = tasks::state(&mut self.random, &self.task);
            let walk = plans::walk(&mut self.random, &self.task, &from);
            self.check_around(&from, walk);
            if let Some(plan) = plans::cheapest_bytes(&self.task, &from) {
                self.check_around(&from, plan);
            }
            let noise = plans::noise(&mut self.random, &self.task);
            self.check_plan(&from, noise);
        }
    }

    /// Plans about as deep as a plan may be, on a task of their own.
    fn deep_plans(&mut self) {
        let task = tasks::turntable(&mut self.random);
        self.task = costs::costly(&mut self.random, task);
        self.record = record::encode(&self.task);
        let start = self.task.start.clone();
        for near in [32, 255] {
            // The last move comes after as many turns.
            let turns = self.random.within(near - 4..=near + 3);
            let plan = plans::turning(&self.task, &start, turns);
            self.check_around(&start, plan);
        }
    }
}

fn random(seed: u64, case: u64) -> Random {
    Random::of_case(seed, case)
}

/// The calls of a case, in the order they are to be made.
pub fn calls(seed: u64, case: u64) -> Vec<Call> {
    let mut random = random(seed, case);
    let task = tasks::any(&mut random);
    let record = record::encode(&task);
    let mut case = Case { random, task, record, calls: Vec::new() };
    case.texts();
    case.records();
    case.tables();
    case.values();
    let found = case.found();
    case.searches(found.as_ref().map_or(0, Vec::len));
    case.plans(found);
    case.spreads();
    case.upgrades();
    case.deep_plans();
    case.calls
}

/// The small task of a case on which demand 3 is tried.
pub fn small_task(seed: u64, case: u64) -> Task {
    // Not the generator of the calls, so that either can be changed alone.
    tasks::small(&mut random(!seed, case))
}
