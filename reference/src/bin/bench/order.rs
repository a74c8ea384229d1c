//! Whether states are settled in the order of their costs. A worklist in another
//! order gives the same tables and is only slow, so that no comparison of answers
//! tells. Here tables with costs are held against the same with equal costs, by
//! the instructions of a build.

use std::path::Path;
use std::process::{Command, ExitCode, Stdio};

use reference::fast::Fast;
use reference::planner::Planner;

use crate::callgrind::{self, count, counted_call};
use crate::instances::{Instance, weighted_tables};
use crate::operations::{Lent, Operation};
use crate::{Options, ours};

/// The option of the run that is counted.
pub const COUNTED: &str = "--counted-order";

/// More times the instructions of the same table with equal costs than this are
/// too many. The fast make takes up to 2.2 times as many. For the counter with
/// jumps, who takes states in the order in which they were found takes 5.6 million
/// where 4,096 suffice; who sorts them by their cost, but in steps of 32, 27,712.
const MOST_RATIO: f64 = 3.0;

/// The library, or the fast make where none is linked.
fn planner() -> &'static dyn Planner {
    ours(Operation::BuildTables).unwrap_or(&Fast)
}

fn is_there(program: &str) -> bool {
    let tried = Command::new(program).arg("--version").stdout(Stdio::null()).status();
    tried.is_ok_and(|status| status.success())
}

/// The builds of every table, with its costs and with equal ones.
pub fn counted_calls(options: &Options) {
    let operations = vec![Operation::BuildTables];
    for twins in weighted_tables(options.seed) {
        for task in [twins.weighted.clone(), twins.equal()] {
            let name = twins.name.to_owned();
            let instance = Instance { name, task, operations: operations.clone() };
            counted_call(planner(), &Lent::of(&instance), Operation::BuildTables);
        }
    }
}

/// Prints the counts, and tells whether one of them is too high.
pub fn report(options: &Options) -> Result<ExitCode, String> {
    if !is_there("valgrind") {
        println!("valgrind is not there: the order of the worklist was not tested");
        return Ok(ExitCode::SUCCESS);
    }
    let too_many = callgrind::counted(options, COUNTED, |out| table(options, out))?;
    if too_many == 0 {
        println!("\nNo table takes more than {MOST_RATIO} times as many.");
        return Ok(ExitCode::SUCCESS);
    }
    println!("\n{too_many} tables take more than {MOST_RATIO} times as many.");
    Ok(ExitCode::FAILURE)
}

/// The number of tables that take too many instructions.
fn table(options: &Options, out: &Path) -> Result<usize, String> {
    println!("| instance | instructions | with equal costs | ratio |");
    println!("|---|---|---|---|");
    let mut too_many = 0;
    for (place, twins) in weighted_tables(options.seed).into_iter().enumerate() {
        let [weighted, equal] = [count(out, 2 * place + 1)?, count(out, 2 * place + 2)?];
        let ratio = weighted as f64 / equal as f64;
        println!("| {} | {weighted} | {equal} | {ratio:.2} |", twins.name);
        too_many += usize::from(ratio > MOST_RATIO);
    }
    Ok(too_many)
}
