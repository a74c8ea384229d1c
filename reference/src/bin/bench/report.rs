//! The Markdown tables.

use reference::answer::Answer;

use crate::Options;
use crate::added::{self, Figures};
use crate::instances::Instance;
use crate::operations::{Lent, Operation};
use crate::timing::{Measured, Times};

/// A line of the table: one operation of one instance.
pub struct Row {
    pub instance: String,
    pub operation: Operation,
    /// How much there is to it, in words.
    size: String,
    times: Option<(Times, Option<Times>)>,
}

fn states_of(instance: &Instance, pattern: &[bool]) -> u128 {
    let members = pattern.iter().zip(&instance.task.sizes).filter(|(member, _)| **member);
    members.map(|(_, &size)| u128::from(size)).product()
}

fn states(instance: &Instance) -> u128 {
    instance.task.patterns.iter().map(|pattern| states_of(instance, pattern)).sum()
}

/// The states that a spread counts.
fn counted(instance: &Instance) -> u128 {
    instance.task.patterns.last().map_or(0, |pattern| states_of(instance, pattern))
}

impl Row {
    pub fn of(instance: &Instance, lent: &Lent, operation: Operation) -> Self {
        let actions = instance.task.actions.len();
        let size = match operation {
            Operation::ReadText => format!("{} bytes", lent.text_length()),
            Operation::CheckRecord | Operation::UpgradeRecord | Operation::Search => {
                format!("{actions} actions")
            }
            Operation::BuildTables => format!("{} states, {actions} actions", states(instance)),
            Operation::Spread => format!("{} states", counted(instance)),
            Operation::Additive => {
                format!("{} patterns, {actions} actions", instance.task.patterns.len())
            }
            Operation::Value => format!("{} patterns", instance.task.patterns.len()),
            Operation::CheckPlan => format!("{} bytes", lent.plan_length()),
        };
        Self { instance: instance.name.clone(), operation, size, times: None }
    }

    pub fn with(mut self, measured: &Measured) -> Self {
        if self.operation == Operation::Search {
            self.size = searched(&measured.answer);
        }
        self.times = Some((measured.theirs, measured.ours));
        self
    }

    /// The least times, for what one operation adds to another.
    fn figures(&self) -> Option<Figures> {
        let (theirs, ours) = self.times?;
        let (instance, operation) = (self.instance.clone(), self.operation);
        let ours = ours.map(|ours| ours.least);
        Some(Figures { instance, operation, theirs: theirs.least, ours })
    }
}

/// How a search ended and after how many examinations.
fn searched(answer: &Answer) -> String {
    let ending = match (answer.number, answer.kind) {
        (0, 0) => "found",
        (0, 1) => "over",
        (0, 2) => "spent",
        (0, _) => "none",
        _ => return format!("refused {}", answer.number),
    };
    format!("{ending}, count {}", answer.second)
}

pub fn head(options: &Options) {
    let arguments: Vec<String> = std::env::args().skip(1).collect();
    let library = if cfg!(feature = "library") { " --features library" } else { "" };
    println!("Seed {}. Command, in `reference/`:\n", options.seed);
    println!("    cargo run --release --offline{library} --bin bench -- {}\n", arguments.join(" "));
}

fn duration(nanoseconds: f64) -> String {
    match nanoseconds {
        t if t < 1e3 => format!("{t:.0} ns"),
        t if t < 1e6 => format!("{:.2} µs", t / 1e3),
        t => format!("{:.2} ms", t / 1e6),
    }
}

/// The median, the least time in parentheses, and the spread.
fn told(times: &Times) -> String {
    let (median, least) = (duration(times.median), duration(times.least));
    format!("{median} ({least}, {:.0} %)", 100.0 * times.spread)
}

/// Both makes, and the ratios of their medians and of their least times.
pub fn times(rows: &[Row]) {
    println!("Median (least, middle half of the samples as a part of the median) per call.\n");
    println!("| instance | operation | size | ours | theirs | ratio | ratio of least |");
    println!("|---|---|---|---|---|---|---|");
    for row in rows {
        let Some((theirs, ours)) = &row.times else { continue };
        let (own, ratio, least) = match ours {
            Some(ours) => (
                told(ours),
                format!("{:.2}", ours.median / theirs.median),
                format!("{:.2}", ours.least / theirs.least),
            ),
            None => ["–"; 3].map(str::to_owned).into(),
        };
        let (name, operation, size) = (&row.instance, row.operation.name(), &row.size);
        let theirs = told(theirs);
        println!("| {name} | {operation} | {size} | {own} | {theirs} | {ratio} | {least} |");
    }
    println!();
    summary(rows);
    let figures: Vec<Figures> = rows.iter().filter_map(Row::figures).collect();
    added::report(&figures, "least times", duration);
}

/// The ratios of each operation taken together.
fn summary(rows: &[Row]) {
    let ratio =
        |row: &Row| row.times.and_then(|(theirs, ours)| ours.map(|ours| ours.least / theirs.least));
    let mut operations: Vec<Operation> = rows.iter().map(|row| row.operation).collect();
    operations.sort_by_key(|operation| operation.name());
    operations.dedup();
    if rows.iter().all(|row| ratio(row).is_none()) {
        return;
    }
    println!("| operation | instances | ratio of least, geometric mean | largest |");
    println!("|---|---|---|---|");
    for operation in operations {
        let of_operation = rows.iter().filter(|row| row.operation == operation);
        let ratios: Vec<f64> = of_operation.filter_map(ratio).collect();
        if ratios.is_empty() {
            continue;
        }
        let mean = (ratios.iter().map(|r| r.ln()).sum::<f64>() / ratios.len() as f64).exp();
        let largest = ratios.iter().copied().fold(0.0, f64::max);
        println!("| {} | {} | {mean:.2} | {largest:.2} |", operation.name(), ratios.len());
    }
}
