//! The figures of 01 and the readings it shuts out, put to the reference.

use reference::brute::all_short_tours;
use reference::entry::plan_tour;
use reference::figures::{at_the_bound, figures, soft, start_marked, x};
use reference::handmade::{first_only, lane, one_place, second_move, sides, silent, x_under};
use reference::harness::check_figure;
use reference::library::REFERENCE;
use reference::plan::Plan;
use reference::reader::{read, Refusal};
use reference::rules::{again, always, once, settle};
use reference::tour::judge;

/// What the reference says of a file: number, line, cost, kept, count.
fn answer(file: &[u8]) -> (u32, u32, u32, u8, u8) {
    let (mut block, mut run_in, mut cycle) = ([0xaa; 16], [0; 2_048], [0; 20_480]);
    let number = plan_tour(file, &mut block, &mut run_in, &mut cycle);
    assert_eq!(number, block[0] as u32);
    let word = |at: usize| u32::from_le_bytes(block[at..at + 4].try_into().unwrap());
    (number, word(4), word(8), block[1], block[2])
}

fn kept(plan: &Plan) -> u8 {
    let (number, _, _, kept, _) = answer(plan.text().as_bytes());
    assert_eq!(number, 0);
    kept
}

#[test]
fn cases_1_to_8_and_10_to_12() {
    for figure in figures() {
        assert_eq!(
            check_figure(REFERENCE, &figure),
            Ok(()),
            "case {}",
            figure.name
        );
    }
}

#[test]
fn sizes_of_cases_1_and_11() {
    assert_eq!(x().size(), 18);
    assert_eq!(at_the_bound(false).size(), 2_048);
    assert_eq!(at_the_bound(true).size(), 4_096);
}

#[test]
fn a_written_plan_reads_back() {
    for plan in [x(), start_marked(), at_the_bound(false)] {
        assert_eq!(read(plan.text().as_bytes()), Ok(plan));
    }
}

#[test]
fn a_cut_file_lacks_its_next_line() {
    let text = x().text();
    for cut in 0..text.len() {
        let line = text[..cut].matches('\n').count() as u32 + 1;
        assert_eq!(
            read(&text.as_bytes()[..cut]),
            Err(Refusal::Form { line }),
            "cut at {cut}"
        );
    }
}

#[test]
fn form_before_range_and_first_line_first() {
    let base = x().text();
    let with = |old: &str, new: &str| {
        assert!(base.contains(old));
        read(base.replacen(old, new, 1).as_bytes())
    };
    // Lines 1 to 7: tour, marks, places, three labels, start; 9 is a road.
    assert_eq!(
        with("road=0,1\n", "road=3,1\n"),
        Err(Refusal::Range { line: 9 })
    );
    assert_eq!(
        with("road=0,1\n", "road=3,x\n"),
        Err(Refusal::Form { line: 9 })
    );
    assert_eq!(
        with("road=0,1\n", "road=3,01\n"),
        Err(Refusal::Form { line: 9 })
    );
    assert_eq!(
        with("road=0,1\n", "road=0,1,1\n"),
        Err(Refusal::Form { line: 9 })
    );
    assert_eq!(
        with("road=0,1\n", "road=0\n"),
        Err(Refusal::Form { line: 9 })
    );
    assert_eq!(
        with("road=0,1\n", "road=0,1\r\n"),
        Err(Refusal::Form { line: 9 })
    );
    assert_eq!(with("start=0", "start=3"), Err(Refusal::Range { line: 7 }));
    assert_eq!(
        with("start=0", "start=18446744073709551616"),
        Err(Refusal::Range { line: 7 })
    );
    assert_eq!(with("start=0", "start="), Err(Refusal::Form { line: 7 }));
    assert_eq!(with("marks=2", "marks=9"), Err(Refusal::Range { line: 2 }));
    assert_eq!(with("places=3", "places=2"), Err(Refusal::Form { line: 6 }));
    assert_eq!(
        read(format!("{base}\n").as_bytes()),
        Err(Refusal::Form {
            line: base.lines().count() as u32 + 1
        })
    );
}

#[test]
fn length_before_lines() {
    let long = |digits: usize| format!("tour={}\n", "1".repeat(digits)).into_bytes();
    assert_eq!(read(&long(60_000 - 6)), Err(Refusal::Range { line: 1 }));
    assert_eq!(read(&long(60_001 - 6)), Err(Refusal::TooLong));
}

#[test]
fn order_of_4_5_6_and_7() {
    let none = x_under(silent()).text();
    let large = at_the_bound(true).text();
    let call = |file: &str, block: usize, run_in: usize| {
        plan_tour(
            file.as_bytes(),
            &mut vec![0; block],
            &mut vec![0; run_in],
            &mut [0; 72],
        )
    };
    assert_eq!(call(&none, 16, 18), 6);
    assert_eq!(call(&none, 16, 17), 5);
    assert_eq!(call(&large, 16, 0), 4);
    assert_eq!(call(&large, 15, 0), 7);
    assert_eq!(call("", 0, 0), 7);
}

#[test]
fn accepting_only_in_the_run_in_is_not_accepting() {
    assert_eq!(kept(&lane(first_only())), 0);
    let hard = Plan {
        hard: first_only(),
        soft: Vec::new(),
        ..lane(always())
    };
    assert_eq!(answer(hard.text().as_bytes()).0, 6);
}

#[test]
fn a_lone_place_that_has_roads_but_none_to_itself_is_no_loop() {
    let plan = Plan {
        roads: vec![(0, 1), (1, 0)],
        hard: settle(0),
        marks: 1,
        labels: vec![0, 1],
        ..lane(always())
    };
    assert_eq!(answer(plan.text().as_bytes()).0, 6);
    assert!(!judge(&plan, &[], &[0]).is_tour);
    assert!(!judge(&plan, &[0], &[1]).is_tour);
    // A place without any road out is another matter (02, note 7).
    let plan = Plan {
        roads: vec![(0, 1)],
        ..plan
    };
    assert_eq!(answer(plan.text().as_bytes()), (0, 0, 0, 1, 1));
    assert!(!judge(&plan, &[], &[0]).is_tour);
    assert!(judge(&plan, &[0], &[1]).is_tour);
}

#[test]
fn case_6_is_place_0_repeated() {
    let roads = Vec::new();
    let file = Plan { roads, ..x() }.text();
    let (mut block, mut run_in, mut cycle) = ([0; 16], [9; 18], [9; 72]);
    let number = plan_tour(file.as_bytes(), &mut block, &mut run_in, &mut cycle);
    let length = |at: usize| u16::from_le_bytes([block[at], block[at + 1]]) as usize;
    let (before, turn) = (length(12), length(14));
    assert_eq!((number, block[1], block[2], block[8]), (0, 2, 1, 3));
    assert!(turn > 0);
    assert!(run_in[..before]
        .iter()
        .chain(&cycle[..turn])
        .all(|&place| place == 0));
    assert!(run_in[before..]
        .iter()
        .chain(&cycle[turn..])
        .all(|&byte| byte == 9));
}

#[test]
fn every_fitting_move_counts() {
    assert_eq!(kept(&lane(second_move())), 1);
}

#[test]
fn the_heaviest_rule_may_have_to_go() {
    // Place 1 has mark 0, place 2 marks 1 and 2, and no road leads back.
    let plan = Plan {
        marks: 3,
        labels: vec![0, 1, 6],
        roads: vec![(0, 1), (1, 1), (0, 2), (2, 2)],
        soft: vec![soft(3, once(0)), soft(2, once(1)), soft(2, again(2))],
        ..x()
    };
    assert_eq!(kept(&plan), 6);
    assert_eq!(answer(plan.text().as_bytes()).2, 3);
}

#[test]
fn the_ditch_takes_a_state_that_has_no_move_and_no_other() {
    // The start's mark lets the one move of state 0 fit; without the mark no
    // move does, and what comes later cannot mend it.
    assert_eq!(kept(&start_marked()), 1);
    let unmarked = Plan {
        labels: vec![0, 1],
        ..start_marked()
    };
    assert_eq!(kept(&unmarked), 0);
    assert_eq!(judge(&unmarked, &[0], &[1]).kept, 0);
}

#[test]
fn the_judge_on_tours_of_x() {
    let verdict = judge(&x(), &[], &[0, 1, 0, 2]);
    assert!(verdict.is_tour && verdict.hard);
    assert_eq!((verdict.kept, verdict.cost), (1, 2));
    assert!(!judge(&x(), &[], &[]).is_tour);
    assert!(!judge(&x(), &[1], &[0, 1]).is_tour);
    assert!(!judge(&x(), &[], &[0, 1, 0]).is_tour);
    assert_eq!(all_short_tours(&x(), 100, 6).kept, Some(3));
}

#[test]
fn two_turns_may_be_needed_for_the_state_to_return() {
    // The state changes sides at every turn of the one-place loop.
    let plan = one_place(sides(), vec![soft(1, always())]);
    let verdict = judge(&plan, &[], &[0]);
    assert!(verdict.hard);
    assert_eq!(verdict.kept, 1);
    assert_eq!(kept(&plan), 1);
}
