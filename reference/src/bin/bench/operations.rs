//! The entries that are measured, on inputs made ready for them.

use std::hint::black_box;

use reference::answer::Answer;
use reference::brute::state;
use reference::fast::Fast;
use reference::planner::Planner;

use crate::instances::Instance;

#[derive(Clone, Copy, Debug, PartialEq, Eq)]
pub enum Operation {
    ReadText,
    CheckRecord,
    BuildTables,
    Spread,
    Additive,
    Value,
    Search,
    CheckPlan,
    UpgradeRecord,
}

impl Operation {
    pub fn name(self) -> &'static str {
        match self {
            Operation::ReadText => "read_text",
            Operation::CheckRecord => "check_record",
            Operation::BuildTables => "build_tables",
            Operation::Spread => "spread",
            Operation::Additive => "additive",
            Operation::Value => "value",
            Operation::Search => "search",
            Operation::CheckPlan => "check_plan",
            Operation::UpgradeRecord => "upgrade_record",
        }
    }
}

/// The plan buffer, the table entries and the row that are lent.
const BUFFER: usize = 65_536;
const ENTRIES: usize = 32_768;
const COUNTS: usize = 1_044_227;

/// What a call is lent to read, and to write.
#[derive(Clone, PartialEq, Eq)]
pub struct Lent {
    text: Vec<u8>,
    record: Vec<u8>,
    /// The record in its first form.
    old: Vec<u8>,
    start: Vec<u8>,
    plan: Vec<u8>,
    /// The pattern whose spread is asked for: the last, or none.
    pattern: u64,
    built: Vec<u32>,
    written_record: Vec<u8>,
    written_tables: Vec<u32>,
    written_row: Vec<u32>,
    written_plan: Vec<u8>,
}

impl Lent {
    /// Values need built tables and checks a plan; both come from the fast
    /// make, whose answers are compared with the other's anyway.
    pub fn of(instance: &Instance) -> Self {
        let mut lent = Self {
            text: instance.text(),
            record: instance.record(),
            old: instance.stored(),
            start: state::encode(&instance.task.start),
            plan: Vec::new(),
            pattern: instance.task.patterns.len().saturating_sub(1) as u64,
            built: vec![0; ENTRIES],
            written_record: vec![0; instance.record().len()],
            written_tables: vec![0; ENTRIES],
            written_row: vec![0; COUNTS],
            written_plan: vec![0; BUFFER],
        };
        let Lent { record, built, written_plan, .. } = &mut lent;
        Fast.build_tables(record, built);
        if instance.operations.contains(&Operation::CheckPlan) {
            let found = Fast.search(record, built, written_plan);
            lent.plan = lent.written_plan[..found.third as usize].to_vec();
        }
        lent
    }

    pub fn text_length(&self) -> usize {
        self.text.len()
    }

    pub fn plan_length(&self) -> usize {
        self.plan.len()
    }

    /// Makes the call once.
    pub fn call(&mut self, planner: &dyn Planner, operation: Operation) -> Answer {
        let lent = black_box(self);
        black_box(match operation {
            Operation::ReadText => planner.read_text(&lent.text, &mut lent.written_record),
            Operation::CheckRecord => planner.check_record(&lent.record),
            Operation::BuildTables => planner.build_tables(&lent.record, &mut lent.written_tables),
            Operation::Spread => {
                let Lent { record, pattern, written_tables, written_row, .. } = lent;
                planner.spread(record, *pattern, written_tables, written_row)
            }
            Operation::Additive => planner.additive(&lent.record),
            Operation::Value => planner.value(&lent.record, &lent.start, &lent.built),
            Operation::Search => {
                planner.search(&lent.record, &mut lent.written_tables, &mut lent.written_plan)
            }
            Operation::CheckPlan => planner.check_plan(&lent.record, &lent.start, &lent.plan),
            Operation::UpgradeRecord => planner.upgrade_record(&lent.old, &mut lent.written_record),
        })
    }
}
