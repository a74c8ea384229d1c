//! Instruction counts: the bench runs itself under valgrind's callgrind, which
//! counts within one function and writes a file whenever that returns.

use std::fs;
use std::path::{Path, PathBuf};
use std::process::{Command, Stdio};

use reference::planner::Planner;

use crate::added::{self, Figures};
use crate::operations::{Lent, Operation};
use crate::{Options, each, ours};

/// The option of the run that is counted.
pub const COUNTED: &str = "--counted";

/// The call that is counted; its name is looked for by valgrind.
#[unsafe(no_mangle)]
#[inline(never)]
extern "Rust" fn bench_counted_call(planner: &dyn Planner, lent: &mut Lent, operation: Operation) {
    lent.call(planner, operation);
}

/// A call that is counted, after one that is not.
pub fn counted_call(planner: &dyn Planner, lent: &Lent, operation: Operation) {
    let mut lent = lent.clone();
    lent.call(planner, operation);
    bench_counted_call(planner, &mut lent, operation);
}

/// Theirs, then ours.
pub fn counted_calls(lent: &Lent, operation: Operation) {
    let theirs: Option<&dyn Planner> = Some(&reference::fast::Fast);
    for planner in [theirs, ours(operation)].into_iter().flatten() {
        counted_call(planner, lent, operation);
    }
}

/// Runs the bench under valgrind, with the option that tells what is counted.
fn run_counted(options: &Options, counted: &str, out: &Path) -> Result<(), String> {
    let own = std::env::current_exe().map_err(|error| error.to_string())?;
    let status = Command::new("valgrind")
        .args(["--tool=callgrind", "--collect-atstart=no"])
        .args(["--toggle-collect=bench_counted_call", "--dump-after=bench_counted_call"])
        .arg(format!("--callgrind-out-file={}", out.display()))
        .arg(own)
        .args([counted, "--seed", &options.seed.to_string(), "--only", &options.only])
        .stderr(Stdio::null())
        .status()
        .map_err(|error| format!("valgrind: {error}"))?;
    if status.success() { Ok(()) } else { Err(format!("valgrind ended with {status}")) }
}

/// The instructions of the call with this number, from 1.
pub fn count(out: &Path, number: usize) -> Result<u64, String> {
    let mut name = out.as_os_str().to_owned();
    name.push(format!(".{number}"));
    let told = fs::read_to_string(&name).map_err(|error| format!("{name:?}: {error}"))?;
    let total = told.lines().find_map(|line| line.strip_prefix("totals: "));
    let total = total.and_then(|total| total.split_whitespace().next());
    total.and_then(|total| total.parse().ok()).ok_or(format!("{name:?} has no totals"))
}

/// Counts as the option tells, and hands what was counted on.
pub fn counted<T>(
    options: &Options,
    counted: &str,
    told: impl FnOnce(&Path) -> Result<T, String>,
) -> Result<T, String> {
    let name = format!("bench-callgrind-{}", std::process::id());
    let directory: PathBuf = std::env::temp_dir().join(name);
    fs::create_dir_all(&directory).map_err(|error| error.to_string())?;
    let out = directory.join("out");
    let told = run_counted(options, counted, &out).and_then(|()| told(&out));
    fs::remove_dir_all(&directory).map_err(|error| error.to_string())?;
    told
}

/// Prints the counts of every operation for both makes.
pub fn report(options: &Options) -> Result<(), String> {
    counted(options, COUNTED, |out| table(options, out))
}

fn table(options: &Options, out: &Path) -> Result<(), String> {
    println!("| instance | operation | instructions, ours | theirs | ratio |");
    println!("|---|---|---|---|---|");
    let mut number = 0;
    let mut next = || {
        number += 1;
        count(out, number).map(|count| count as f64)
    };
    let mut all = Vec::new();
    let mut told: Result<(), String> = Ok(());
    each(options, |row, _, operation| {
        let line = || {
            let theirs = next()?;
            let ours = ours(operation).map(|_| next()).transpose()?;
            let figures = Figures { instance: row.instance, operation, theirs, ours };
            println!("{}", figures.line(instructions));
            all.push(figures);
            Ok(())
        };
        if told.is_ok() {
            told = line();
        }
    });
    told?;
    added::report(&all, "instructions", instructions);
    Ok(())
}

fn instructions(count: f64) -> String {
    format!("{count:.0}")
}
