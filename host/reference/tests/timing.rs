//! Two libraries timed by turns.

use reference::entry::plan_tour;
use reference::figures::x;
use reference::library::{Library, PlanTour, REFERENCE};
use reference::timing::{time_both, Effort, Times};

const SHORT: Effort = Effort {
    least: 10,
    most: 10,
    enough: 0.0,
};

fn with(plan_tour: PlanTour) -> Library {
    Library {
        plan_tour,
        ..REFERENCE
    }
}

/// Plans three times over.
fn thrice(file: &[u8], answer: &mut [u8], run_in: &mut [u8], cycle: &mut [u8]) -> u32 {
    plan_tour(file, answer, run_in, cycle);
    plan_tour(file, answer, run_in, cycle);
    plan_tour(file, answer, run_in, cycle)
}

#[test]
fn a_library_that_takes_longer_shows() {
    let file = x().text().into_bytes();
    let times = time_both(&file, REFERENCE, with(thrice), SHORT).unwrap();
    assert!((1.5..6.0).contains(&times.ratio()), "{times:?}");
    let times = time_both(&file, with(thrice), REFERENCE, SHORT).unwrap();
    assert!((0.16..0.7).contains(&times.ratio()), "{times:?}");
}

#[test]
fn a_library_that_answers_otherwise_is_not_timed() {
    let file = x().text().into_bytes();
    let dearer = with(|file, answer, run_in, cycle| {
        let number = plan_tour(file, answer, run_in, cycle);
        answer[8] += 1;
        number
    });
    assert!(time_both(&file, REFERENCE, dearer, SHORT).is_err());
    let refusing = with(|_, _, _, _| 6);
    assert!(time_both(&file, REFERENCE, refusing, SHORT).is_err());
    // Which tour is given is open, and so are its lengths.
    let longer = with(|file, answer, run_in, cycle| {
        let number = plan_tour(file, answer, run_in, cycle);
        answer[14] += 2;
        number
    });
    assert!(time_both(&file, REFERENCE, longer, SHORT).is_ok());
}

#[test]
fn refused_plans_are_timed_too() {
    let times = time_both(b"tour=2\n", REFERENCE, REFERENCE, SHORT).unwrap();
    assert!(times.reference > 0.0 && times.library > 0.0);
}

#[test]
fn the_least_of_two_and_their_ratio() {
    let one = Times {
        reference: 4.0,
        library: 8.0,
    };
    let other = Times {
        reference: 2.0,
        library: 9.0,
    };
    let least = one.least(&other);
    assert_eq!((least.reference, least.library), (2.0, 8.0));
    assert_eq!((one.ratio(), least.ratio()), (2.0, 4.0));
}
