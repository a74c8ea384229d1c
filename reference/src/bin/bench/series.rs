//! Times over growing inputs, for the plots: examinations, states, actions.

use std::fs;
use std::io;
use std::path::Path;

use reference::brute::task::Task;
use reference::fast::Fast;

use crate::instances::{self, Instance};
use crate::operations::{Lent, Operation};
use crate::svg::{Line, Plot};
use crate::timing::measure;
use crate::{Options, ours};

/// The times of an operation over tasks, each with its place on the x axis.
fn lines(options: &Options, operation: Operation, tasks: Vec<(f64, Task)>) -> Vec<Line> {
    let mut theirs = Line { name: "theirs (fast Rust)", points: Vec::new() };
    let mut own = Line { name: "ours (library)", points: Vec::new() };
    for (x, task) in tasks {
        let instance = Instance { name: String::new(), task, operations: vec![operation] };
        let lent = Lent::of(&instance);
        let measured = measure(ours(operation), &Fast, &lent, operation, options.samples);
        // The count that was made stands for the one that was allowed.
        let x = if operation == Operation::Search { measured.answer.second as f64 } else { x };
        theirs.points.push((x, measured.theirs.median / 1e3));
        own.points.extend(measured.ours.map(|ours| (x, ours.median / 1e3)));
    }
    [theirs, own].into_iter().filter(|line| !line.points.is_empty()).collect()
}

fn examinations(options: &Options) -> Plot {
    let budgets = [1_000, 3_000, 10_000, 30_000, 100_000, 300_000, 1_000_000];
    let task = |budget: u32| (budget.into(), instances::rings(options.seed + 5, 48, true, budget));
    let tasks = budgets.into_iter().map(task).collect();
    Plot {
        title: "Search: rings of 48 actions with 4 patterns, budget grows",
        x: "examinations",
        y: "microseconds",
        lines: lines(options, Operation::Search, tasks),
    }
}

fn states(options: &Options) -> Plot {
    let task = |variables: usize| (f64::from(1 << variables), instances::counter(variables));
    Plot {
        title: "Tables: binary counter, one pattern, variables grow",
        x: "states",
        y: "microseconds",
        lines: lines(options, Operation::BuildTables, (2..=12).map(task).collect()),
    }
}

fn actions(options: &Options) -> Plot {
    let task = |actions: usize| (actions as f64, instances::large(options.seed, 2, 1, actions));
    Plot {
        title: "Tables: one pattern of 4,096 states, actions grow",
        x: "actions",
        y: "microseconds",
        lines: lines(options, Operation::BuildTables, [1, 2, 4, 8, 16, 32, 64].map(task).to_vec()),
    }
}

/// Writes the three plots.
pub fn plots(directory: &str, options: &Options) -> io::Result<()> {
    let directory = Path::new(directory);
    fs::create_dir_all(directory)?;
    fs::write(directory.join("search-examinations.svg"), examinations(options).svg())?;
    fs::write(directory.join("tables-states.svg"), states(options).svg())?;
    fs::write(directory.join("tables-actions.svg"), actions(options).svg())
}
