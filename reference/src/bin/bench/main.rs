//! Times the planner library and the fast make on the same inputs, and prints
//! the ratios. Without the feature `library` the fast make is timed alone.

mod added;
mod callgrind;
mod instances;
mod operations;
mod order;
mod report;
mod series;
mod svg;
mod timing;

use std::process::ExitCode;

use reference::planner::Planner;

use operations::{Lent, Operation};
use report::Row;

const USAGE: &str =
    "bench [--seed S] [--samples N] [--only TEXT] [--callgrind] [--order] [--svg DIR]

  --seed S     seed of the random instances (default 1)
  --samples N  samples of each make for a median (default 31)
  --only TEXT  only instances or operations whose name has the text
  --callgrind  instruction counts instead of times, by valgrind
  --order      the instructions of tables with costs against those of the same
               with equal costs; ends with 1 where they are too many
  --svg DIR    also write plots to the directory";

pub struct Options {
    seed: u64,
    samples: usize,
    only: String,
    callgrind: bool,
    order: bool,
    /// The run under valgrind that is to be counted, of either kind.
    counted: bool,
    counted_order: bool,
    svg: Option<String>,
}

fn options() -> Result<Options, String> {
    let mut options = Options {
        seed: 1,
        samples: 31,
        only: String::new(),
        callgrind: false,
        order: false,
        counted: false,
        counted_order: false,
        svg: None,
    };
    let mut arguments = std::env::args().skip(1);
    while let Some(argument) = arguments.next() {
        let mut value = || arguments.next().ok_or(format!("{argument} needs a value"));
        let number = |text: String| text.parse().map_err(|_| format!("no number: {text}"));
        match argument.as_str() {
            "--callgrind" => options.callgrind = true,
            callgrind::COUNTED => options.counted = true,
            "--order" => options.order = true,
            order::COUNTED => options.counted_order = true,
            "--seed" => options.seed = number(value()?)?,
            "--samples" => options.samples = number(value()?)?.max(1) as usize,
            "--only" => options.only = value()?,
            "--svg" => options.svg = Some(value()?),
            _ => return Err(format!("unknown option {argument}")),
        }
    }
    Ok(options)
}

/// The planner library, if it is linked and has the entry.
#[cfg(feature = "library")]
fn ours(operation: Operation) -> Option<&'static dyn Planner> {
    use reference::library::Library;
    Library::has(operation.name()).then_some(&Library as &dyn Planner)
}

#[cfg(not(feature = "library"))]
fn ours(_: Operation) -> Option<&'static dyn Planner> {
    None
}

/// Every chosen operation of every instance, with what it is lent.
fn each(options: &Options, mut act: impl FnMut(Row, &Lent, Operation)) {
    for instance in instances::instances(options.seed) {
        let chosen = |name: &str| name.contains(&options.only);
        // A spread is held against the build that it contains.
        let spread = instance.operations.contains(&Operation::Spread) && chosen("spread");
        let beside = |o: &Operation| spread && *o == Operation::BuildTables;
        let wanted = |o: &Operation| chosen(&instance.name) || chosen(o.name()) || beside(o);
        let operations: Vec<Operation> =
            instance.operations.iter().copied().filter(wanted).collect();
        if operations.is_empty() {
            continue;
        }
        let lent = Lent::of(&instance);
        for operation in operations {
            act(Row::of(&instance, &lent, operation), &lent, operation);
        }
    }
}

fn run(options: &Options) -> Result<ExitCode, String> {
    if options.counted {
        each(options, |_, lent, operation| callgrind::counted_calls(lent, operation));
        return Ok(ExitCode::SUCCESS);
    }
    if options.counted_order {
        order::counted_calls(options);
        return Ok(ExitCode::SUCCESS);
    }
    report::head(options);
    if options.order {
        return order::report(options);
    }
    if options.callgrind {
        return callgrind::report(options).map(|()| ExitCode::SUCCESS);
    }
    let mut rows = Vec::new();
    each(options, |row, lent, operation| {
        let fast = &reference::fast::Fast;
        let measured = timing::measure(ours(operation), fast, lent, operation, options.samples);
        rows.push(row.with(&measured));
    });
    report::times(&rows);
    match &options.svg {
        Some(directory) => series::plots(directory, options).map_err(|error| error.to_string())?,
        None => {}
    }
    Ok(ExitCode::SUCCESS)
}

fn main() -> ExitCode {
    match options().and_then(|options| run(&options)) {
        Ok(code) => code,
        Err(fault) => {
            eprintln!("{fault}\n{USAGE}");
            ExitCode::from(2)
        }
    }
}
