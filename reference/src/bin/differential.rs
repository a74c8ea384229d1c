//! Compares the planner library with the reference and stops at the first
//! difference.

use std::process::ExitCode;
use std::time::{SystemTime, UNIX_EPOCH};

use reference::compare::{Call, Difference, Run};
use reference::library::Library;

const USAGE: &str = "differential [--cases N] [--seed S] [--case K] [--trace]

  --cases N  number of cases to run (default 1000)
  --seed S   seed of the run (default: from the clock)
  --case K   only case K of the seed, to replay a difference
  --trace    tell every call before it is made, to locate a crash";

struct Options {
    cases: u64,
    seed: u64,
    case: Option<u64>,
    trace: bool,
}

fn clock() -> u64 {
    let now = SystemTime::now().duration_since(UNIX_EPOCH);
    now.map_or(1, |since| since.as_nanos() as u64)
}

fn options() -> Result<Options, String> {
    let mut options = Options { cases: 1_000, seed: clock(), case: None, trace: false };
    let mut arguments = std::env::args().skip(1);
    while let Some(argument) = arguments.next() {
        if argument == "--trace" {
            options.trace = true;
            continue;
        }
        let value = arguments.next().ok_or(format!("{argument} needs a number"))?;
        let number = value.parse().map_err(|_| format!("no number: {value}"))?;
        match argument.as_str() {
            "--cases" => options.cases = number,
            "--seed" => options.seed = number,
            "--case" => options.case = Some(number),
            _ => return Err(format!("unknown option {argument}")),
        }
    }
    Ok(options)
}

fn tell(call: &Call) {
    eprintln!("{:?} lent\n{call}", call.entry);
}

/// The fixed calls and all cases, or the one case that is to be replayed.
fn compare(run: &mut Run, options: &Options) -> Result<(), Difference> {
    match options.case {
        Some(case) => run.case(options.seed, case),
        None => {
            run.fixed()?;
            (0..options.cases).try_for_each(|case| run.case(options.seed, case))
        }
    }
}

fn main() -> ExitCode {
    let options = match options() {
        Ok(options) => options,
        Err(fault) => {
            eprintln!("{fault}\n{USAGE}");
            return ExitCode::from(2);
        }
    };
    println!("seed {}", options.seed);
    let mut run = Run::of(&Library);
    if options.trace {
        run.watch = &tell;
    }
    let outcome = compare(&mut run, &options);
    print!("{}", run.tally);
    match outcome {
        Ok(()) => {
            println!("no difference in {} cases", options.case.map_or(options.cases, |_| 1));
            ExitCode::SUCCESS
        }
        Err(Difference { case, told }) => {
            print!("{told}");
            match case {
                Some(case) => {
                    println!("replay: differential --seed {} --case {case}", options.seed)
                }
                None => println!("replay: differential --cases 0"),
            }
            ExitCode::FAILURE
        }
    }
}
