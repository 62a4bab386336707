//! The shapes of plans that are timed: what their names say, and good plans.

use reference::extremes::{COMPLETE, LITTLE, TINY};
use reference::figures::x;
use reference::plan::{Automaton, Plan, MAX_MOVES, MAX_ROADS, MAX_SIZE};
use reference::planner::best_tour;
use reference::product::Product;
use reference::random::Random;
use reference::reader::read;
use reference::rules::branching;
use reference::shapes::{large, numbered, Shape, SHAPES, TIMED};
use std::collections::BTreeSet;
use std::process::Command;

const SIZES: [u64; 7] = [64, 100, 128, 256, 512, 1_024, MAX_SIZE];

fn plans(shape: Shape, count: u64) -> impl Iterator<Item = Plan> {
    (0..count).map(move |number| numbered(shape, MAX_SIZE, number))
}

#[test]
fn names_are_distinct_and_all_that_are_compared_are_timed() {
    let names = BTreeSet::from(TIMED.map(Shape::name));
    assert_eq!(names.len(), TIMED.len());
    assert!(SHAPES.iter().all(|shape| TIMED.contains(shape)));
}

/// No road stands twice in a plan that reads back, and no number is out of range.
#[test]
fn every_plan_reads_back_and_keeps_within_its_size() {
    for shape in TIMED {
        for number in 0..40 {
            for size in SIZES {
                let plan = large(shape, size, &mut Random::new(number));
                let name = format!("{} {number} {size}", shape.name());
                assert_eq!(read(plan.text().as_bytes()).as_ref(), Ok(&plan), "{name}");
                assert!(plan.size() <= size, "{name}");
            }
        }
    }
}

#[test]
fn complete_and_little_plans_are_near_their_size() {
    for size in SIZES {
        for number in 0..100 {
            let complete = numbered(Shape::Complete, size, number);
            assert!(16 * complete.size() > 15 * size, "{size} {number}");
            let little = numbered(Shape::Little, size, number);
            assert!(5 * little.size() > 4 * size, "{size} {number}");
        }
    }
}

#[test]
fn complete_maps_lack_few_roads() {
    let mut places_met = BTreeSet::new();
    for plan in plans(Shape::Complete, 200) {
        let (places, roads) = (plan.labels.len() as u64, plan.roads.len() as u64);
        assert!((16..=64).contains(&places));
        assert!(COMPLETE.iter().any(|range| range.contains(&places)));
        let pairs = (places * (places - 1)).min(MAX_ROADS);
        assert!(10 * roads > 8 * pairs, "{places} {roads}");
        assert!(places < 35 || roads == MAX_ROADS, "{places} {roads}");
        places_met.insert(places);
    }
    assert!(places_met.len() > 20, "{places_met:?}");
    assert!(places_met.contains(&16) && places_met.contains(&64));
}

/// How many states follow each state under each label of three marks, once for
/// each; the ditch counts.
fn choices(rule: &Automaton, ditch: bool) -> BTreeSet<usize> {
    let labels = 0..8;
    let all = labels.flat_map(|label| (0..rule.states).map(move |state| (state, label)));
    all.map(|(state, label)| {
        let moves = rule.moves.iter();
        let fitting = moves.filter(|m| m.from == state && m.fits(label));
        let count = BTreeSet::from_iter(fitting.map(|m| m.to)).len();
        count.max(ditch as usize)
    })
    .collect()
}

#[test]
fn complete_plans_have_one_to_three_next_states() {
    let mut met = BTreeSet::new();
    for plan in plans(Shape::Complete, 100) {
        met.extend(choices(&plan.hard, false));
        for soft in &plan.soft {
            met.extend(choices(&soft.rule, true));
        }
    }
    assert_eq!(met, BTreeSet::from([1, 2, 3]));
}

#[test]
fn branching_rules_of_every_number_of_states() {
    let mut random = Random::new(17);
    for states in 1..=16 {
        for most in 1..=3 {
            let rule = branching(&mut random, states, 1, most);
            assert!(rule.moves.len() <= MAX_MOVES as usize);
            let met = choices(&rule, false);
            assert!(met.iter().all(|count| (1..=most).contains(count)));
            assert_eq!(rule.accept.count_ones(), 1);
            assert!((rule.accept as u32) < 1 << states);
        }
    }
}

/// What a planner writes down of a product may have room for so many arcs and no
/// more: there should be plans on both sides.
#[test]
fn complete_plans_have_few_arcs_and_many() {
    let arcs: Vec<usize> = plans(Shape::Complete, 50)
        .map(|plan| Product::of(&plan).arcs())
        .collect();
    let count = |asked: &dyn Fn(usize) -> bool| arcs.iter().filter(|&&n| asked(n)).count();
    assert!(count(&|n| n < 30_000) > 5, "{arcs:?}");
    assert!(count(&|n| (50_000..=65_535).contains(&n)) > 5, "{arcs:?}");
    assert!(count(&|n| (65_536..100_000).contains(&n)) > 5, "{arcs:?}");
}

#[test]
fn little_is_reached() {
    let (mut met, mut tours, mut roads) = (BTreeSet::new(), 0, BTreeSet::new());
    for plan in plans(Shape::Little, 400) {
        let reached = Product::of(&plan).len();
        assert!(reached <= LITTLE, "{reached}");
        met.insert(reached);
        tours += best_tour(&plan).is_some() as usize;
        roads.insert(plan.roads.len());
    }
    assert!(met.contains(&1) && met.len() > 20, "{met:?}");
    assert!((100..380).contains(&tours), "{tours}");
    assert!(roads.first() < Some(&30) && roads.last() > Some(&1_000));
}

#[test]
fn tiny_plans_are_tiny() {
    let bound = *TINY.end() as u64;
    let sizes: BTreeSet<u64> = plans(Shape::Tiny, 200).map(|plan| plan.size()).collect();
    assert!(sizes.iter().all(|&size| size <= bound), "{sizes:?}");
    assert!(sizes.len() > 20 && *sizes.first().unwrap() < 25);
    let with_rules = plans(Shape::Tiny, 200).filter(|plan| !plan.soft.is_empty());
    assert!(with_rules.count() > 100);
    assert_eq!(numbered(Shape::Tiny, MAX_SIZE, 0), x());
}

#[test]
fn the_program_writes_the_plan_with_a_number() {
    let folder = std::path::Path::new(env!("CARGO_TARGET_TMPDIR"));
    for shape in [Shape::Wide, Shape::Complete, Shape::Tiny] {
        let file = folder.join(format!("{}.plan", shape.name()));
        let status = Command::new(env!("CARGO_BIN_EXE_bench"))
            .args(["--write", shape.name(), "0"])
            .arg(&file)
            .status();
        assert!(status.unwrap().success());
        let text = std::fs::read_to_string(file).unwrap();
        assert_eq!(text, numbered(shape, MAX_SIZE, 0).text());
    }
}
