//! The tours that the comparison checks, and its tally of them.

use reference::cases::{case, Case};
use reference::causes::{causes, Cause, CAUSES};
use reference::checker::check;
use reference::checking::{
    check_beside_harm, check_blocks, check_by_hand, check_chance_tours, check_drawn,
    check_every_list,
};
use reference::drawn::{respelled, Known, KINDS};
use reference::figures::x;
use reference::harness::check_once;
use reference::library::REFERENCE;
use reference::random::Random;
use reference::sketches::{block_tours, by_hand, every_list, long_tours, small_maps};
use reference::tally::Tally;
use reference::walks::Ways;
use std::collections::BTreeSet;

#[test]
fn what_was_worked_out_by_hand() {
    let mut met = BTreeSet::new();
    for hand in by_hand() {
        assert_eq!(check_by_hand(REFERENCE, &hand), Ok(()), "{}", hand.name);
        met.insert((hand.told.number, hand.told.accepts));
    }
    assert_eq!(met, BTreeSet::from([(0, 0), (0, 1), (9, 0)]));
}

#[test]
fn each_cause_has_its_index() {
    let all = [
        (
            vec![3],
            vec![0, 1],
            vec![
                (0, Cause::UnknownPlace),
                (0, Cause::WrongStart),
                (1, Cause::MissingRoad),
            ],
        ),
        (
            vec![0, 1],
            vec![1],
            vec![(2, Cause::MissingRoad), (3, Cause::MissingClosingRoad)],
        ),
        (vec![0, 1], vec![], vec![(2, Cause::EmptyLoop)]),
        (vec![], vec![], vec![(0, Cause::EmptyLoop)]),
        (vec![], vec![0, 2], vec![]),
    ];
    for (run_in, cycle, told) in all {
        assert_eq!(causes(&x(), &run_in, &cycle), told);
    }
}

#[test]
fn block_tours_come_to_what_they_tell() {
    let mut met = BTreeSet::new();
    for (case, drawn) in block_tours() {
        let told = check(&case.file, &drawn.run_in, &drawn.cycle);
        let number = told.map_or_else(|refusal| refusal.number(), |_| 0);
        assert!(
            case.kind.starts_with(&format!("number {number}")),
            "{}",
            case.kind
        );
        met.insert((number, told.is_ok_and(|worth| worth.accepted)));
    }
    let numbers = [1, 2, 3, 4, 9, 10].map(|number| (number, false));
    let both = [(0, false), (0, true)];
    assert_eq!(met, numbers.into_iter().chain(both).collect());
}

#[test]
fn all_lists_of_few_places() {
    let all = every_list(&[0, 1], 3);
    assert_eq!(all.len(), 1 + 2 + 4 + 8);
    assert_eq!(BTreeSet::from_iter(&all).len(), all.len());
    // Each map has tours, and all of them together have each cause alone.
    let mut alone = BTreeSet::new();
    for map in small_maps() {
        let mut tours = 0;
        for run_in in every_list(map.places, map.most.0) {
            for cycle in every_list(map.places, map.most.1) {
                match causes(&map.plan, &run_in, &cycle)[..] {
                    [] => tours += 1,
                    [(_, cause)] => drop(alone.insert(cause)),
                    _ => {}
                }
            }
        }
        assert!(tours > 5, "{}: {tours}", map.name);
    }
    // An unknown place has no road to it either.
    let all = CAUSES
        .into_iter()
        .filter(|cause| *cause != Cause::UnknownPlace);
    assert_eq!(alone, all.collect());
}

#[test]
fn long_tours_are_long() {
    let all = long_tours();
    let places = |known: Known| {
        let some = all.iter().filter(move |(_, drawn)| drawn.known == known);
        some.map(|(_, drawn)| drawn.run_in.len() + drawn.cycle.len())
    };
    assert!(
        places(Known::Tour)
            .filter(|&places| places >= 100_000)
            .count()
            >= 7
    );
    assert!(places(Known::BreaksAt(100_000)).count() >= 3);
}

/// Each spelling drives the same list of places.
#[test]
fn another_spelling_drives_the_same() {
    let mut random = Random::new(3);
    let ways = Ways::of(&x());
    for length in 1..40 {
        let walk = ways.walk(&mut random, length);
        let Some((run_in, cycle)) = ways.closed(&walk, &mut random) else {
            continue;
        };
        let driven = |run_in: &[u8], cycle: &[u8]| -> Vec<u8> {
            let endless = run_in.iter().chain(cycle.iter().cycle());
            endless.take(200).copied().collect()
        };
        let own = driven(&run_in, &cycle);
        for other in respelled(&(run_in, cycle), &mut random) {
            assert_eq!(driven(&other.run_in, &other.cycle), own, "{}", other.kind);
        }
    }
}

/// Some generated cases alone bring all that a run should have met of checking.
#[test]
fn nothing_of_checking_is_lacking_after_some_cases() {
    let of_checking = |tally: &Tally| -> Vec<String> {
        let words = ["check_tour", "drawn tour"];
        let lacks = tally.lacks().into_iter();
        lacks
            .filter(|what| words.iter().any(|word| what.contains(word)))
            .collect()
    };
    let mut tally = Tally::default();
    assert_eq!(
        of_checking(&tally).len(),
        8 + KINDS.len() + CAUSES.len() + 5
    );
    let mut number = 0;
    while !of_checking(&tally).is_empty() && number < 500 {
        let (case, mut random) = case(number);
        check_once(REFERENCE, &case, &mut tally).unwrap();
        check_chance_tours(REFERENCE, &case, &mut random, &mut tally).unwrap();
        number += 1;
    }
    assert_eq!(of_checking(&tally), Vec::<String>::new());
}

/// With nothing about the plan, the lists and the block too.
#[test]
fn the_reference_agrees_with_itself_in_bare_memory() {
    let mut tally = Tally::default();
    for (case, drawn) in block_tours() {
        check_blocks(REFERENCE, &case.bare(), &drawn, &mut tally).unwrap();
    }
    let map = small_maps().pop().unwrap();
    let case = Case::new(map.name, map.plan.text().into_bytes()).bare();
    check_every_list(REFERENCE, &case, &map, &mut tally).unwrap();
    check_beside_harm(REFERENCE, &case, &mut tally).unwrap();
    let (case, drawn) = long_tours().swap_remove(0);
    check_drawn(REFERENCE, &case.bare(), &drawn, (24, 0), &mut tally).unwrap();
}
