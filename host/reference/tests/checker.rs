//! Tours drawn by hand (02, note 4): the checker's own cases.

use reference::checker::{check, check_tour, Block, Worth};
use reference::entry::plan_tour;
use reference::figures::{at_the_bound, figures, soft, start_marked, x};
use reference::handmade::{
    eight_rules, first_only, lane, one_place, second_move, sides, silent, x_under,
};
use reference::plan::Plan;
use reference::reader::Refusal;
use reference::rules::{again, always, never};
use std::path::Path;

const FILL: u8 = 0xa5;

/// What is told of a tour: accepted, cost, kept.
fn worth(plan: &Plan, run_in: &[u8], cycle: &[u8]) -> (bool, u32, u8) {
    let told = check(plan.text().as_bytes(), run_in, cycle).expect("a tour");
    (told.accepted, told.cost, told.kept)
}

/// The index that breaks the tour.
fn broken(plan: &Plan, run_in: &[u8], cycle: &[u8]) -> u64 {
    match check(plan.text().as_bytes(), run_in, cycle) {
        Err(Refusal::Broken { index }) => index,
        other => panic!("{other:?}"),
    }
}

#[test]
fn tours_of_plan_x() {
    assert_eq!(worth(&x(), &[], &[0, 1]), (true, 0, 3));
    assert_eq!(worth(&x(), &[0], &[1, 0]), (true, 0, 3));
    assert_eq!(worth(&x(), &[], &[0, 2]), (true, 5, 0));
    assert_eq!(worth(&x(), &[], &[0, 1, 0, 2]), (true, 2, 1));
    assert_eq!(worth(&x(), &[0, 2], &[0, 1]), (true, 2, 1));
    assert_eq!(worth(&x(), &[0, 1], &[0, 2]), (true, 5, 0));
}

#[test]
fn not_accepted_is_no_refusal() {
    let plan = x_under(again(1));
    assert_eq!(worth(&plan, &[], &[0, 1]), (false, 0, 3));
    assert_eq!(worth(&plan, &[], &[0, 2]), (true, 5, 0));
    assert_eq!(worth(&plan, &[0, 2], &[0, 1]), (false, 2, 1));
    // Nor is it one where the planner finds no tour at all.
    let plan = x_under(silent());
    assert_eq!(worth(&plan, &[], &[0, 1, 0, 2]), (false, 2, 1));
}

#[test]
fn an_unknown_place_breaks_at_its_index() {
    for unknown in [3, 4, 127, 128, 200, 255] {
        assert_eq!(broken(&x(), &[unknown], &[0, 1]), 0);
        assert_eq!(broken(&x(), &[], &[unknown]), 0);
        assert_eq!(broken(&x(), &[0, unknown], &[0, 1]), 1);
        assert_eq!(broken(&x(), &[0, 1], &[unknown, 1]), 2);
        assert_eq!(broken(&x(), &[0, 1], &[0, unknown]), 3);
        assert_eq!(broken(&x(), &[0, 1, 0, unknown], &[]), 3);
    }
    // A number that is a place of larger plans only, beside one that is here.
    let largest = at_the_bound(false);
    let round: Vec<u8> = (0..128).collect();
    assert_eq!(worth(&largest, &[], &round), (true, 0, 0));
    let beyond: Vec<u8> = (0..=128).collect();
    assert_eq!(broken(&largest, &[], &beyond), 128);
}

#[test]
fn a_wrong_start_breaks_at_0() {
    assert_eq!(broken(&x(), &[1], &[0, 1]), 0);
    assert_eq!(broken(&x(), &[], &[1, 0]), 0);
    assert_eq!(broken(&x(), &[2], &[]), 0);
    let plan = Plan { start: 2, ..x() };
    assert_eq!(broken(&plan, &[], &[0, 2]), 0);
    assert_eq!(worth(&plan, &[2], &[0, 1]), (true, 2, 1));
}

#[test]
fn a_missing_road_breaks_at_the_later_place() {
    assert_eq!(broken(&x(), &[0, 0], &[1, 0]), 1);
    assert_eq!(broken(&x(), &[0, 1, 2], &[0, 1]), 2);
    // Between the run-in and the loop.
    assert_eq!(broken(&x(), &[0, 1], &[2, 0]), 2);
    assert_eq!(broken(&x(), &[0, 1], &[0, 1, 2, 0, 1]), 4);
    // A road has one way.
    let plan = Plan {
        roads: vec![(0, 1), (1, 0), (0, 2)],
        ..x()
    };
    assert_eq!(broken(&plan, &[0, 2], &[0, 1]), 2);
}

#[test]
fn a_missing_closing_road_breaks_at_the_total_length() {
    assert_eq!(broken(&x(), &[], &[0]), 1);
    assert_eq!(broken(&x(), &[0, 1], &[0]), 3);
    assert_eq!(broken(&x(), &[0], &[1, 0, 2]), 4);
    assert_eq!(broken(&x(), &[], &[0, 1, 0]), 3);
    // The road back to the run-in does not close the loop.
    assert_eq!(broken(&x(), &[0], &[1]), 2);
}

#[test]
fn an_empty_loop_breaks_at_the_length_of_the_run_in() {
    assert_eq!(broken(&x(), &[0], &[]), 1);
    assert_eq!(broken(&x(), &[0, 1, 0, 2], &[]), 4);
    assert_eq!(broken(&x(), &[], &[]), 0);
    assert_eq!(broken(&Plan { start: 1, ..x() }, &[], &[]), 0);
}

#[test]
fn the_least_index_of_several() {
    // A wrong start, two missing roads, an unknown place and no closing road.
    let mut places = [1, 2, 1, 0, 3, 0, 1, 2];
    let mut indices = Vec::new();
    for (at, mended) in [(0, 0), (2, 0), (3, 1), (4, 0), (5, 1), (6, 0)] {
        let (run_in, cycle) = places.split_at(3);
        indices.push(broken(&x(), run_in, cycle));
        places[at] = mended;
    }
    assert_eq!(indices, [0, 2, 3, 4, 5, 6]);
    assert_eq!(broken(&x(), &places[..3], &places[3..]), 8);
    assert_eq!(worth(&x(), &places[..2], &places[2..]), (true, 2, 1));
    // Faults of the run-in come before those of the loop, and its lack.
    assert_eq!(broken(&x(), &[0, 3], &[]), 1);
    assert_eq!(broken(&x(), &[1], &[]), 0);
    assert_eq!(broken(&x(), &[0, 1, 1], &[3]), 2);
    assert_eq!(broken(&x(), &[0, 1], &[1]), 2);
}

#[test]
fn without_roads_a_car_parks_at_the_start() {
    let roads = Vec::new();
    let plan = Plan { roads, ..x() };
    assert_eq!(worth(&plan, &[], &[0]), (true, 3, 2));
    assert_eq!(worth(&plan, &[0, 0], &[0, 0, 0]), (true, 3, 2));
    assert_eq!(broken(&plan, &[], &[0, 1]), 1);
    assert_eq!(broken(&plan, &[], &[1]), 0);
    assert_eq!(broken(&plan, &[0], &[]), 1);
}

#[test]
fn readings_that_01_shuts_out() {
    // An accepting state in the run-in alone.
    assert_eq!(worth(&lane(first_only()), &[0], &[1]), (true, 1, 0));
    let hard = Plan {
        hard: first_only(),
        ..lane(always())
    };
    assert_eq!(worth(&hard, &[0, 1, 1], &[1, 1]), (false, 0, 1));
    // Case 8: the start's label is read.
    assert_eq!(worth(&start_marked(), &[0], &[1]), (true, 0, 1));
    assert_eq!(worth(&start_marked(), &[0, 1, 1], &[1]), (true, 0, 1));
    // Every fitting move is followed.
    assert_eq!(worth(&lane(second_move()), &[0], &[1]), (true, 0, 1));
    // The ditch is for a state without a fitting move: here the second label
    // finds none, whatever stands behind it.
    let unmarked = Plan {
        labels: vec![0, 1],
        ..start_marked()
    };
    assert_eq!(worth(&unmarked, &[0], &[1]), (true, 1, 0));
}

#[test]
fn two_turns_may_be_needed_for_the_state_to_return() {
    let plan = one_place(sides(), Vec::new());
    for turn in 1..6 {
        assert_eq!(worth(&plan, &[], &vec![0; turn]), (true, 0, 0));
        assert_eq!(worth(&plan, &[0], &vec![0; turn]), (true, 0, 0));
    }
}

#[test]
fn cost_and_kept_of_eight_rules() {
    for kept in 0..=255 {
        let plan = eight_rules(kept, [1, 2, 4, 8, 16, 32, 64, 128]);
        assert_eq!(worth(&plan, &[], &[0]), (true, !kept as u32, kept));
    }
    let most = eight_rules(0, [4_000_000; 8]);
    assert_eq!(worth(&most, &[0], &[0]), (true, 32_000_000, 0));
}

#[test]
fn every_byte_of_the_block() {
    let call = |plan: &Plan, run_in: &[u8], cycle: &[u8]| {
        let mut block = [FILL; 26];
        let number = check_tour(plan.text().as_bytes(), run_in, cycle, &mut block);
        assert_eq!(number, block[0] as u32);
        assert_eq!(block[24..], [FILL; 2]);
        block[..24].to_vec()
    };
    let mut given = vec![0; 24];
    (given[1], given[2]) = (0x0f, 1);
    given[8..12].copy_from_slice(&[0x00, 0x24, 0xf4, 0x00]);
    assert_eq!(call(&eight_rules(0x0f, [4_000_000; 8]), &[], &[0]), given);

    let mut given = vec![0; 24];
    (given[1], given[8]) = (1, 2);
    assert_eq!(call(&x_under(silent()), &[], &[0, 1, 0, 2]), given);

    let mut given = vec![0; 24];
    given[0] = 9;
    given[16..18].copy_from_slice(&[0x34, 0x12]);
    let run_in = [0, 1].repeat(0x1234 / 2);
    assert_eq!(call(&x(), &run_in, &[]), given);
    assert_eq!(call(&x(), &run_in, &[1, 0]), given);

    let mut given = vec![0; 24];
    given[0] = 4;
    assert_eq!(call(&at_the_bound(true), &[9], &[9]), given);
}

#[test]
fn a_plan_s_faults_come_first() {
    let told = |file: &[u8], block: usize| {
        let mut bytes = vec![FILL; block];
        let number = check_tour(file, &[77], &[], &mut bytes);
        let line = bytes.get(4..8);
        let line = line.map_or(0, |line| u32::from_le_bytes(line.try_into().unwrap()));
        (number, line)
    };
    let text = x().text();
    assert_eq!(told(text.as_bytes(), 24), (9, 0));
    assert_eq!(told(at_the_bound(true).text().as_bytes(), 24), (4, 0));
    let bad_range = text.replacen("start=0", "start=3", 1);
    assert_eq!(told(bad_range.as_bytes(), 24), (3, 7));
    let behind = text.lines().count() as u32 + 1;
    assert_eq!(told(format!("{text}\n").as_bytes(), 24), (2, behind));
    assert_eq!(told(b"", 24), (2, 1));
    assert_eq!(told(&[b'1'; 60_001], 24), (1, 0));
    for block in 0..24 {
        let mut bytes = vec![FILL; block];
        assert_eq!(check_tour(text.as_bytes(), &[], &[0, 1], &mut bytes), 7);
        assert_eq!(check_tour(b"", &[], &[], &mut bytes), 7);
        assert_eq!(bytes, vec![FILL; block]);
    }
}

#[test]
fn long_lists() {
    let mut cycle = [0, 1].repeat(50_000);
    assert_eq!(worth(&x(), &[], &cycle), (true, 0, 3));
    assert_eq!(worth(&x(), &cycle, &[0, 2]), (true, 5, 0));
    assert_eq!(worth(&x(), &cycle, &cycle), (true, 0, 3));
    cycle.extend([0, 2]);
    assert_eq!(worth(&x(), &[], &cycle), (true, 2, 1));
    cycle.push(2);
    assert_eq!(broken(&x(), &[], &cycle), 100_002);
    assert_eq!(broken(&x(), &[0, 1], &cycle), 100_004);
    assert_eq!(broken(&x(), &cycle[..100_001], &[]), 100_001);
    assert_eq!(broken(&x(), &[], &cycle[..100_001]), 100_001);
}

/// Whatever the planner answers is accepted, at its cost and with its kept byte.
#[test]
fn the_planner_s_own_tours() {
    let folder = Path::new(env!("CARGO_MANIFEST_DIR")).join("../../plans");
    let files = std::fs::read_dir(folder).unwrap().flatten();
    let plans = files.filter(|file| file.path().extension().is_some_and(|end| end == "plan"));
    let mut all: Vec<Vec<u8>> = plans
        .map(|file| std::fs::read(file.path()).unwrap())
        .collect();
    all.extend(figures().into_iter().map(|figure| figure.file));
    let mut tours = 0;
    for file in all {
        let (mut answer, mut run_in, mut cycle) = ([0; 16], [0; 2_048], [0; 20_480]);
        if plan_tour(&file, &mut answer, &mut run_in, &mut cycle) != 0 {
            continue;
        }
        let long = |at: usize| u32::from_le_bytes(answer[at..at + 4].try_into().unwrap());
        let length = |at: usize| u16::from_le_bytes([answer[at], answer[at + 1]]) as usize;
        let told = check(&file, &run_in[..length(12)], &cycle[..length(14)]);
        let given = Worth {
            accepted: true,
            cost: long(8),
            kept: answer[1],
        };
        assert_eq!(told, Ok(given));
        tours += 1;
    }
    // Six of the examples; the figures 1 to 4, 6 to 8, 10 twice, and 11.
    assert_eq!(tours, 6 + 10);
}

#[test]
fn the_block_as_bytes() {
    let block = Block {
        number: 1,
        kept: 2,
        accepts: 3,
        line: 0x0706_0504,
        cost: 0x0b0a_0908,
        index: 0x1716_1514_1312_1110,
    };
    let bytes = block.bytes();
    assert_eq!(bytes[..4], [1, 2, 3, 0]);
    assert!((4..12).chain(16..24).all(|at| bytes[at] == at as u8));
    assert_eq!(bytes[12..16], [0; 4]);
}

#[test]
fn a_rule_for_every_mark_on_the_way() {
    let soft = vec![soft(1, again(0)), soft(2, again(1)), soft(4, never(0))];
    let plan = Plan { soft, ..x() };
    assert_eq!(worth(&plan, &[], &[0, 1]), (true, 6, 1));
    assert_eq!(worth(&plan, &[], &[0, 2]), (true, 1, 6));
    assert_eq!(worth(&plan, &[0, 1], &[0, 2]), (true, 5, 2));
    assert_eq!(worth(&plan, &[], &[0, 2, 0, 1]), (true, 4, 3));
}
