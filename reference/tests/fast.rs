//! The fast make gives the answers of the brute-force solver and leaves every
//! slice as it does.

use reference::compare::{Entry, Run};
use reference::fast::Fast;

#[test]
fn it_agrees_on_the_fixed_calls() {
    let mut run = Run::of(&Fast);
    if let Err(difference) = run.fixed() {
        panic!("{}", difference.told);
    }
}

#[test]
fn it_agrees_on_random_tasks() {
    let mut run = Run::of(&Fast);
    for case in 0..250 {
        if let Err(difference) = run.case(7, case) {
            panic!("case {case}: {}", difference.told);
        }
    }
    assert!(run.tally.calls(Entry::Spread) > 100);
    for entry in
        [Entry::ReadText, Entry::BuildTables, Entry::Search, Entry::CheckPlan, Entry::UpgradeRecord]
    {
        assert!(run.tally.calls(entry) > 250, "{entry:?}");
    }
}
