//! The reference's upcoming places, by walking tours of all small lengths.

use reference::library::REFERENCE;
use reference::serving::{check_case_9, follow};
use reference::tally::Tally;
use reference::upcoming::upcoming_offset;

#[test]
fn case_9_of_01() {
    assert_eq!(check_case_9(REFERENCE), Ok(()));
}

#[test]
fn as_one_walks() {
    let places = [0; 9];
    for run_in in 0..9 {
        for cycle in 1..9 {
            let (run_in, cycle) = (&places[..run_in], &places[..cycle]);
            assert_eq!(
                follow(REFERENCE, run_in, cycle, 0, &mut Tally::default()),
                Ok(())
            );
        }
    }
}

#[test]
fn an_empty_loop_begins_at_0() {
    for run_in in 0..9 {
        for t in 0..20 {
            let expected = if t < run_in { t } else { 0 };
            assert_eq!(upcoming_offset(run_in, 0, t), expected);
        }
    }
    assert_eq!(upcoming_offset(0, 0, u64::MAX), 0);
    assert_eq!(upcoming_offset(u64::MAX, 0, u64::MAX), 0);
}

#[test]
fn a_turn_later_the_same() {
    for (run_in, cycle) in [(2, 3), (0, 1 << 63), (3, u64::MAX - 6), (u64::MAX - 9, 7)] {
        for t in u64::MAX - 2..=u64::MAX {
            assert_eq!(
                upcoming_offset(run_in, cycle, t),
                upcoming_offset(run_in, cycle, t - cycle)
            );
        }
    }
    assert_eq!(upcoming_offset(0, u64::MAX, u64::MAX), 0);
    assert_eq!(upcoming_offset(u64::MAX, 1, u64::MAX - 1), u64::MAX - 1);
}
