//! The differential test itself: it passes the reference, it notices makes
//! with a fault, and its calls leave memory as laid down.

mod common;

use std::collections::BTreeSet;

use common::cost_faults::{CostFault, searched};
use common::restating_faults::RestatingFault;
use common::spread_faults::SpreadFault;
use common::upgrade_faults::UpgradeFault;
use reference::answer::Answer;
use reference::brute::plan::ARRIVED;
use reference::brute::task::Task;
use reference::brute::{Brute, record};
use reference::compare::{
    Call, Difference, Entry, Made, Run, Tally, cases, costs, fixed, restated, spreads, sums,
    upgrades,
};
use reference::planner::Planner;

const SEED: u64 = 5;

fn run(planner: &dyn Planner, cases: u64) -> Result<Tally, Difference> {
    let mut run = Run::of(planner);
    (0..cases).try_for_each(|case| run.case(SEED, case))?;
    Ok(run.tally)
}

#[test]
fn the_reference_agrees_with_itself() {
    let tally = run(&Brute, 300).expect("no difference");
    println!("{tally}");
    // Every refusal number and every ending of the search comes up.
    let numbers: BTreeSet<u64> = tally.answers.keys().map(|key| key.1).collect();
    assert_eq!(numbers, (0..=18).collect());
    let searches = tally.answers.keys().filter(|key| key.0 == Entry::Search);
    let endings: BTreeSet<u64> = searches.map(|key| key.2).collect();
    assert_eq!(endings, (0..=3).collect());
    // The rule on restated values decides verdicts of either kind.
    let verdicts = &tally.verdicts;
    assert!(6 * verdicts.by_the_rule > verdicts.additive, "{verdicts}");
    assert!(4 * verdicts.conflicts > verdicts.additive, "{verdicts}");
    assert!(5 * verdicts.elsewhere > verdicts.conflicts, "{verdicts}");
    assert!(6 * tally.by_the_rule > tally.tasks, "{tally}");
}

#[test]
fn the_fixed_calls_agree() {
    let mut run = Run::of(&Brute);
    assert!(run.fixed().is_ok());
    println!("{}", run.tally);
}

/// What the paper lays down for each slice, whoever makes the call.
fn assert_memory(call: &Call) {
    let made = call.made(&Brute);
    let Answer { number, kind, third, .. } = made.answer;
    let writes =
        matches!(call.entry, Entry::ReadText | Entry::BuildTables | Entry::Spread | Entry::Search)
            || call.entry == Entry::UpgradeRecord;
    if !writes || number != 0 && number != 11 {
        assert!(call.untouched(&made), "{call:?}");
    }
    if call.entry == Entry::Search && (number == 0 || number == 11) {
        let plan = made.lent_plan();
        let length = if number == 0 && kind == 0 { third as usize } else { 0 };
        assert!(plan[length..].iter().all(|&byte| byte == 255), "{call:?}");
    }
}

#[test]
fn memory_is_left_as_laid_down() {
    for case in 0..300 {
        cases::calls(SEED + 1, case).iter().for_each(assert_memory);
    }
    for part in fixed::PARTS {
        part().for_each(|call| assert_memory(&call));
    }
}

/// A make that is the reference but for one fault.
#[derive(Clone, Copy)]
enum Faulty {
    LosesLastOutcome,
    LosesUnbrokenLine,
    TakesAnyBudget,
    RunsOneRound,
    SpendsEarly,
    NodsPlansThrough,
    LeavesTablesAsLent,
    FillsPlanWithZeros,
    WritesBehindTheRecord,
    SaysAdditive,
    CapsTheValue,
    Spreads(SpreadFault),
    Restates(RestatingFault),
    Costs(CostFault),
    Upgrades(UpgradeFault),
}

/// The record of the task after a change.
fn altered(record: &[u8], change: impl FnOnce(&mut Task)) -> Vec<u8> {
    let Ok(mut task) = record::decode(record) else {
        return record.to_vec();
    };
    change(&mut task);
    record::encode(&task)
}

fn lose_last_outcome(task: &mut Task) {
    if let Some(action) = task.actions.iter_mut().rev().find(|a| a.outcomes.len() > 1) {
        action.outcomes.pop();
    }
}

impl Planner for Faulty {
    fn read_text(&self, text: &[u8], record: &mut [u8]) -> Answer {
        if let Faulty::Costs(fault) = self {
            return fault.read_text(text, record);
        }
        let last = text.iter().rposition(|&byte| byte == b'\n').map_or(0, |place| place + 1);
        let text = if matches!(self, Faulty::LosesUnbrokenLine) { &text[..last] } else { text };
        let answer = Brute.read_text(text, record);
        if matches!(self, Faulty::WritesBehindTheRecord) && answer.number == 0 {
            record[record::LENGTH..].fill(255);
        }
        answer
    }

    fn check_record(&self, record: &[u8]) -> Answer {
        if let Faulty::Costs(fault) = self {
            return fault.check_record(record);
        }
        let answer = Brute.check_record(record);
        let at_budget = answer.number == 6 && answer.first == 4;
        if matches!(self, Faulty::TakesAnyBudget) && at_budget { Answer::default() } else { answer }
    }

    fn check_state(&self, record: &[u8], state: &[u8]) -> Answer {
        Brute.check_state(record, state)
    }

    fn build_tables(&self, record: &[u8], tables: &mut [u32]) -> Answer {
        match self {
            Faulty::LosesLastOutcome => {
                Brute.build_tables(&altered(record, lose_last_outcome), tables)
            }
            Faulty::LeavesTablesAsLent => Brute.build_tables(record, &mut tables.to_vec()),
            Faulty::Costs(fault) => fault.build_tables(record, tables),
            _ => Brute.build_tables(record, tables),
        }
    }

    fn spread(&self, record: &[u8], pattern: u64, tables: &mut [u32], row: &mut [u32]) -> Answer {
        match self {
            Faulty::Spreads(fault) => fault.spread(record, pattern, tables, row),
            _ => Brute.spread(record, pattern, tables, row),
        }
    }

    fn additive(&self, record: &[u8]) -> Answer {
        if let Faulty::Restates(fault) = self {
            return fault.additive(record);
        }
        let answer = Brute.additive(record);
        if matches!(self, Faulty::SaysAdditive) && answer.number == 0 {
            Answer::default()
        } else {
            answer
        }
    }

    fn value(&self, record: &[u8], state: &[u8], tables: &[u32]) -> Answer {
        let answer = Brute.value(record, state, tables);
        if let Faulty::Restates(fault) = self {
            return fault.value(record, answer);
        }
        if let Faulty::Costs(fault) = self {
            return fault.value(answer);
        }
        let first = if matches!(self, Faulty::CapsTheValue) {
            answer.first.min(u32::MAX.into())
        } else {
            answer.first
        };
        Answer { first, ..answer }
    }

    fn search(&self, record: &[u8], tables: &mut [u32], plan: &mut [u8]) -> Answer {
        if let Faulty::Restates(fault) = self {
            return fault.search(record, Brute.search(record, tables, plan));
        }
        if let Faulty::Costs(fault) = self {
            return fault.search(record, tables, plan);
        }
        let start = record::decode(record).map(|task| {
            let state = reference::brute::state::encode(&task.start);
            let mut built = vec![0; 40_000];
            Brute.build_tables(record, &mut built);
            Brute.value(record, &state, &built).first
        });
        let least = start.unwrap_or(0).min(255) as u8;
        let record = match self {
            Faulty::RunsOneRound => altered(record, |task| task.limit = task.limit.min(least)),
            Faulty::SpendsEarly => {
                altered(record, |task| task.budget = task.budget.saturating_sub(1))
            }
            _ => record.to_vec(),
        };
        let answer = Brute.search(&record, tables, plan);
        if matches!(self, Faulty::FillsPlanWithZeros) && answer.number == 0 && answer.kind != 0 {
            plan.fill(0);
        }
        answer
    }

    fn check_plan(&self, record: &[u8], state: &[u8], plan: &[u8]) -> Answer {
        if let Faulty::Costs(fault) = self {
            return fault.check_plan(record, state, plan);
        }
        let answer = Brute.check_plan(record, state, plan);
        let at_end = answer.number == 15 && plan.ends_with(&[ARRIVED]);
        if matches!(self, Faulty::NodsPlansThrough) && at_end {
            return Answer::kind(0, 1, plan.len() as u64, 0);
        }
        answer
    }

    fn upgrade_record(&self, old: &[u8], record: &mut [u8]) -> Answer {
        match self {
            Faulty::Upgrades(fault) => fault.upgrade_record(old, record),
            _ => Brute.upgrade_record(old, record),
        }
    }
}

#[test]
fn faulty_makes_are_noticed() {
    let makes = [
        Faulty::LosesLastOutcome,
        Faulty::LosesUnbrokenLine,
        Faulty::TakesAnyBudget,
        Faulty::RunsOneRound,
        Faulty::SpendsEarly,
        Faulty::NodsPlansThrough,
        Faulty::LeavesTablesAsLent,
        Faulty::FillsPlanWithZeros,
        Faulty::WritesBehindTheRecord,
        Faulty::SaysAdditive,
        Faulty::CapsTheValue,
    ];
    for (number, make) in makes.iter().enumerate() {
        assert!(run(make, 200).is_err(), "make {number} passes");
    }
}

/// Whether the two answer one of the spreads without a seed differently.
fn differs_near_the_sample(fault: SpreadFault) -> bool {
    let mut calls = spreads::near_the_sample().chain(spreads::refused()).chain(spreads::deepest());
    calls.any(|call| call.made(&Faulty::Spreads(fault)) != call.made(&Brute))
}

#[test]
fn faulty_spreads_are_noticed() {
    for fault in SpreadFault::ALL {
        assert!(differs_near_the_sample(fault), "{fault:?} passes the fixed calls");
        // Values of that size are rare among the cases.
        let rare = matches!(fault, SpreadFault::KeepsSixteenBitsOfTheValue);
        let noticed = run(&Faulty::Spreads(fault), 100).is_err();
        assert!(rare || noticed, "{fault:?} passes");
    }
}

#[test]
fn faulty_owner_rules_are_noticed() {
    for fault in RestatingFault::ALL {
        let make = Faulty::Restates(fault);
        assert!(run(&make, 200).is_err(), "{fault:?} passes");
        let differs = |call: Call| call.made(&make) != call.made(&Brute);
        assert!(restated::near_the_sample().any(differs), "{fault:?} passes the fixed calls");
    }
}

/// Whether the two answer one of the calls about costs without a seed differently.
fn differs_on_costs(make: &Faulty) -> bool {
    let parts = [costs::reads, costs::records, costs::near_the_sample, costs::long_paths];
    let calls = parts.into_iter().flat_map(|part| part()).chain(costs::dearest());
    calls.into_iter().any(|call| call.made(make) != call.made(&Brute))
}

#[test]
fn faulty_costs_are_noticed() {
    for fault in CostFault::ALL {
        let make = Faulty::Costs(fault);
        assert!(differs_on_costs(&make), "{fault:?} passes the fixed calls");
        // Dear and long enough tables are rare among the cases.
        let cases = if fault == CostFault::KeepsSixteenBitsOfEntries { 2_000 } else { 200 };
        assert!(run(&make, cases).is_err(), "{fault:?} passes");
    }
}

/// The search that has the faults is without them the reference's.
#[test]
fn the_search_of_faulty_costs_agrees_without_a_fault() {
    let is_search = |call: &Call| call.entry == Entry::Search;
    for call in (0..60).flat_map(|case| cases::calls(SEED, case)).filter(is_search) {
        let made = call.made(&Brute);
        assert_eq!(searched(None, &call.slices.record, made.answer), made.answer);
    }
}

#[test]
fn faulty_upgrades_are_noticed() {
    for fault in UpgradeFault::ALL {
        let make = Faulty::Upgrades(fault);
        assert!(run(&make, 200).is_err(), "{fault:?} passes");
        let differs = |call: Call| call.made(&make) != call.made(&Brute);
        assert!(upgrades::upgrades().any(differs), "{fault:?} passes the fixed calls");
    }
}

/// The sums tell a wrong count without another make to compare with.
#[test]
fn the_sums_notice_every_count() {
    let spreads = |case| cases::calls(SEED, case).into_iter().filter(|c| c.entry == Entry::Spread);
    let told = |call: &Call, made: &Made| sums::check(call, made).is_err();
    let mut tried = 0;
    for call in (0..20).flat_map(spreads) {
        let made = call.made(&Brute);
        assert!(!told(&call, &made));
        if made.answer.number != 0 {
            continue;
        }
        for place in (0..made.lent_row().len()).step_by(130_528) {
            let mut wrong = made.clone();
            let count = &mut wrong.left.row[reference::compare::GUARD + place];
            *count = count.wrapping_add(1);
            assert!(told(&call, &wrong), "{place}");
            tried += 1;
        }
    }
    assert!(tried > 30, "{tried}");
}
