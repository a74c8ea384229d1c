//! Stored records of the first form, from the words of the request: 1 for each
//! used move, after the old 5 and 6, then 5 for a target that is too short.

mod common;

use common::{record, refused};
use reference::answer::Answer;
use reference::brute::Brute;
use reference::brute::record::{LENGTH, decode, encode};
use reference::brute::upgrade::FIRST_LENGTH;
use reference::generate::{Random, tasks};
use reference::planner::Planner;
use reference::sample::sample;

/// The sample's stored record.
fn stored() -> Vec<u8> {
    record(&sample())[..FIRST_LENGTH].to_vec()
}

/// A refusal that leaves the target as found.
fn assert_refused(old: &[u8], target: usize, answer: Answer) {
    let mut lent = vec![0x5a; target];
    assert_eq!(Brute.upgrade_record(old, &mut lent), answer);
    assert_eq!(lent, vec![0x5a; target]);
}

#[test]
fn a_stored_record_becomes_one_of_today() {
    assert_eq!(stored().len(), 9_464);
    let mut target = vec![0x5a; LENGTH + 3];
    assert_eq!(Brute.upgrade_record(&stored(), &mut target), Answer::default());
    assert_eq!(target[..LENGTH], record(&sample()));
    assert_eq!(target[LENGTH..], [0x5a; 3]);
}

#[test]
fn what_stands_behind_a_longer_one_is_not_looked_at() {
    let longer = [&stored()[..], &[9; 100]].concat();
    let mut target = vec![0; LENGTH];
    assert_eq!(Brute.upgrade_record(&longer, &mut target), Answer::default());
    assert_eq!(target, record(&sample()));
}

#[test]
fn refusals_in_their_order() {
    let mut faulty = stored();
    faulty[3] = 33;
    for target in [0, FIRST_LENGTH, LENGTH - 1, LENGTH, LENGTH + 1] {
        assert_refused(&[], target, refused(5, 0));
        assert_refused(&stored()[..9_463], target, refused(5, 9_463));
        assert_refused(&faulty[..9_463], target, refused(5, 9_463));
        assert_refused(&faulty, target, refused(6, 3));
    }
    assert_refused(&stored(), 9_527, refused(5, 9_527));
    assert_refused(&stored(), 0, refused(5, 0));
}

#[test]
fn the_rules_are_those_of_the_first_form() {
    let mut old = stored();
    old[3] = 32;
    assert_eq!(Brute.upgrade_record(&old, &mut vec![0; LENGTH]), Answer::default());
    for limit in [33, 255] {
        old[3] = limit;
        assert_refused(&old, LENGTH, refused(6, 3));
    }
    for (offset, held) in [(0, 0), (2, 9), (7, 1), (42, 0), (184, 9), (9_463, 0)] {
        let mut old = stored();
        old[offset] = held;
        let at = if offset == 7 { 4 } else { offset as u64 };
        assert_refused(&old, LENGTH, refused(6, at));
    }
}

/// The same task as before, and every move costs 1.
#[test]
fn every_upgraded_record_is_sound() {
    for case in 0..300 {
        let mut task = tasks::any(&mut Random::of_case(8, case));
        task.limit = task.limit.min(32);
        let mut target = vec![7; LENGTH];
        let old = &encode(&task)[..FIRST_LENGTH];
        assert_eq!(Brute.upgrade_record(old, &mut target), Answer::default());
        task.actions.iter_mut().for_each(|action| action.cost = 1);
        assert_eq!(decode(&target), Ok(task));
    }
}
