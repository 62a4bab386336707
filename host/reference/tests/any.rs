//! Move lines of five numbers (02, note 1): reader, rules, generator, damage
//! and tally.

use reference::cases::{case, harmed_cases, x_with_any};
use reference::damage::damage;
use reference::entry::plan_tour;
use reference::figures::{soft, x};
use reference::guards::{either, spelled};
use reference::handmade::one_place;
use reference::plan::{Automaton, Move, Plan, MAX_MOVES};
use reference::planner::best_tour;
use reference::random::Random;
use reference::reader::{read, Refusal};
use reference::rules::{again, always, go, go_any, never, once, rule, some_rule};
use reference::tally::Tally;
use reference::tour::judge;
use std::collections::BTreeSet;

/// Plan X with another line in the place of its hard move, or of the first move
/// of its first soft rule, and the number of that line.
fn with_move(hard: bool, line: &str) -> (Vec<u8>, u32) {
    let old = if hard { "move=0,0,0,0" } else { "move=0,1,0,1" };
    let mut lines: Vec<String> = x().text().lines().map(String::from).collect();
    let at = lines.iter().position(|line| line == old).unwrap();
    lines[at] = line.into();
    let text = lines.join("\n") + "\n";
    (text.into_bytes(), at as u32 + 1)
}

fn first_move(hard: bool, line: &str) -> Move {
    let plan = read(&with_move(hard, line).0).unwrap();
    let rule = if hard {
        plan.hard
    } else {
        plan.soft[0].rule.clone()
    };
    rule.moves[0]
}

#[test]
fn four_numbers_and_five() {
    for hard in [true, false] {
        assert_eq!(first_move(hard, "move=0,1,2,0"), go(0, 1, 2, 0));
        assert_eq!(first_move(hard, "move=0,1,2,0,0"), go_any(0, 1, 2, 0, 0));
        assert_eq!(first_move(hard, "move=0,1,2,3,0"), go_any(0, 1, 2, 3, 0));
    }
    assert_eq!(first_move(false, "move=1,0,0,2,1"), go_any(1, 0, 0, 2, 1));
    assert_eq!(first_move(false, "move=1,0,0,1"), go(1, 0, 0, 1));
}

#[test]
fn another_count_of_numbers_has_no_form() {
    for hard in [true, false] {
        for count in [1, 2, 3, 6, 7, 8, 100] {
            for number in ["0", "9", "99999999999999999999"] {
                let (text, line) =
                    with_move(hard, &format!("move={}", vec![number; count].join(",")));
                assert_eq!(
                    read(&text),
                    Err(Refusal::Form { line }),
                    "{count} of {number}"
                );
            }
        }
    }
}

#[test]
fn each_of_the_five_has_its_range() {
    // X has two marks; its hard rule has one state, its first soft rule two.
    let soft_lines = [
        "2,0,0,0,0",
        "0,4,0,0,0",
        "0,0,4,0,0",
        "0,0,0,4,0",
        "0,0,0,0,2",
    ];
    let hard_lines = [
        "1,0,0,0,0",
        "0,4,0,0,0",
        "0,0,4,0,0",
        "0,0,0,4,0",
        "0,0,0,0,1",
    ];
    for (hard, lines) in [(true, hard_lines), (false, soft_lines)] {
        for numbers in lines {
            let (text, line) = with_move(hard, &format!("move={numbers}"));
            assert_eq!(read(&text), Err(Refusal::Range { line }), "{numbers}");
        }
        for any in ["256", "4294967296", "18446744073709551616"] {
            let (text, line) = with_move(hard, &format!("move=0,0,0,{any},0"));
            assert_eq!(read(&text), Err(Refusal::Range { line }), "{any}");
        }
    }
}

#[test]
fn without_marks_any_is_0() {
    let bare = |any| one_place(rule(1, 1, vec![go_any(0, 0, 0, any, 0)]), Vec::new());
    assert_eq!(read(bare(0).text().as_bytes()), Ok(bare(0)));
    assert_eq!(
        read(bare(1).text().as_bytes()),
        Err(Refusal::Range { line: 12 })
    );
}

#[test]
fn form_of_the_whole_line_before_any_range() {
    let both = [
        "9,9,9",
        "9,0,0,0,",
        "9,0,0,0,0,0",
        "0,9,0,0,x",
        "0,0,9,0,01",
        "0,0,0,9,",
        "0,0,0,9,-1",
        "0,0,0,9,0,0",
        "0,0,0,9,0,0,0",
        "0,0,0,0,9 ",
        "9,9,9,9,9,9",
        "9,9,9,,9",
        "9,9,9,9,",
        "9,9,9,9;9",
        "9,9,9,9,9\r",
    ];
    for hard in [true, false] {
        for numbers in both {
            let (text, line) = with_move(hard, &format!("move={numbers}"));
            assert_eq!(read(&text), Err(Refusal::Form { line }), "{numbers}");
        }
    }
}

#[test]
fn a_written_plan_reads_back() {
    let plan = x_with_any();
    assert!(plan.text().contains("move=0,0,0,0,0\n") && plan.text().contains("move=0,0,0,3,1\n"));
    assert_eq!(read(plan.text().as_bytes()), Ok(plan));
    let mut random = Random::new(1);
    for _ in 0..200 {
        let plan = reference::cases::tiny(&mut random);
        assert_eq!(read(plan.text().as_bytes()), Ok(plan));
    }
}

#[test]
fn fits_as_the_note_says() {
    let bits = |set: u8| (0..8).filter(move |bit| set >> bit & 1 == 1);
    for numbers in 0..1 << 12 {
        let [need, bar, any, label] = [0, 3, 6, 9].map(|at| (numbers >> at & 7) as u8);
        let has = |bit: u8| label >> bit & 1 == 1;
        let old = bits(need).all(has) && !bits(bar).any(has);
        assert_eq!(go(0, need, bar, 0).fits(label), old);
        let new = old && (any == 0 || bits(any).any(has));
        assert_eq!(go_any(0, need, bar, any, 0).fits(label), new);
    }
    assert!(go_any(0, 0, 0, 0x81, 0).fits(0x80) && !go_any(0, 0, 0, 0x81, 0).fits(0x7e));
}

#[test]
fn a_choice_needs_a_label_that_both_moves_fit() {
    let rule = |a: u8, b: u8| Automaton {
        states: 2,
        moves: vec![go_any(0, 0, b, a, 0), go_any(0, 0, a, b, 1)],
        ..always()
    };
    assert!(!rule(1, 2).chooses() && !rule(3, 4).chooses());
    assert!(rule(0, 0).chooses());
    let open = Automaton {
        moves: vec![go_any(0, 0, 0, 1, 0), go_any(0, 0, 0, 2, 1)],
        ..rule(1, 2)
    };
    assert!(open.chooses());
    // One bars what is the only mark that the other asks for.
    let shut = Automaton {
        moves: vec![
            go_any(0, 0, 2, 3, 0),
            go_any(0, 0, 1, 2, 1),
            go_any(0, 0, 1, 1, 0),
        ],
        ..rule(1, 2)
    };
    assert!(!shut.chooses());
}

/// Number, cost and kept by the reference.
fn answer(plan: &Plan) -> (u32, u32, u8) {
    let (mut block, mut run_in, mut cycle) = ([0; 16], [0; 2_048], [0; 20_480]);
    let number = plan_tour(plan.text().as_bytes(), &mut block, &mut run_in, &mut cycle);
    let cost = u32::from_le_bytes(block[8..12].try_into().unwrap());
    (number, cost, block[1])
}

#[test]
fn either_mark_will_do() {
    // Plan X without the road to place 1, which alone has mark 0.
    let only = |rule| Plan {
        roads: vec![(0, 2), (2, 0)],
        soft: vec![soft(3, rule)],
        ..x()
    };
    assert_eq!(answer(&only(again(0))), (0, 3, 0));
    assert_eq!(answer(&only(either(&again(0), 1, 2))), (0, 0, 1));
    assert_eq!(answer(&only(either(&never(0), 1, 2))), (0, 3, 0));
    let hard = |rule| Plan {
        hard: rule,
        ..only(always())
    };
    assert_eq!(answer(&hard(again(0))), (6, 0, 0));
    assert_eq!(answer(&hard(either(&again(0), 1, 2))), (0, 0, 1));
    assert_eq!(answer(&x_with_any()), (0, 0, 3));
}

#[test]
fn a_state_that_no_any_lets_go_on_falls_into_the_ditch() {
    let rule = |moves| Automaton { moves, ..always() };
    let plan = |moves| Plan {
        soft: vec![soft(1, rule(moves))],
        ..x()
    };
    // No place has both marks and the start has none.
    assert_eq!(answer(&plan(vec![go_any(0, 0, 0, 3, 0)])), (0, 1, 0));
    assert_eq!(
        answer(&plan(vec![go_any(0, 0, 0, 3, 0), go(0, 0, 3, 0)])),
        (0, 0, 1)
    );
    assert_eq!(answer(&plan(vec![go_any(0, 0, 1, 1, 0)])), (0, 1, 0));
    assert_eq!(answer(&plan(vec![go_any(0, 0, 0, 0, 0)])), (0, 0, 1));
    assert!(judge(&x_with_any(), &[], &[0, 1]).kept == 3);
    assert!(judge(&x_with_any(), &[], &[0, 2]).kept == 1);
}

/// The plan with a move for each mark of any, as one wrote it before.
fn without_any(plan: &Plan) -> Plan {
    let mut plan = plan.clone();
    for rule in plan.automata_mut() {
        let apart = |m: &Move| -> Vec<Move> {
            let four = go(m.from, m.need, m.bar, m.to);
            match m.any.unwrap_or(0) {
                0 => vec![four],
                any => (0..8)
                    .filter(|bit| any >> bit & 1 == 1)
                    .map(|bit| Move {
                        need: m.need | 1 << bit,
                        ..four
                    })
                    .collect(),
            }
        };
        rule.moves = rule.moves.iter().flat_map(apart).collect();
    }
    plan
}

#[test]
fn a_move_for_each_mark_of_any_means_the_same() {
    let mut tried = 0;
    for number in (0..2_000).filter(|number| number % 16 < 9) {
        let plan = read(&case(number).0.file).unwrap();
        let apart = without_any(&plan);
        if plan.fives() == 0
            || apart
                .automata()
                .any(|rule| rule.moves.len() > MAX_MOVES as usize)
        {
            continue;
        }
        assert_eq!(apart.fives(), 0);
        assert_eq!(answer(&plan), answer(&apart), "case {number}");
        if let Some((tour, _)) = best_tour(&apart) {
            let verdicts = [&plan, &apart].map(|plan| judge(plan, &tour.run_in, &tour.cycle));
            assert_eq!(verdicts[0], verdicts[1]);
        }
        tried += 1;
    }
    assert!(tried > 500, "{tried}");
}

#[test]
fn another_spelling_means_the_same() {
    let mut random = Random::new(2);
    let mut spelled_anew = 0;
    for _ in 0..500 {
        let rule = some_rule(&mut random, 4, 3);
        let other = spelled(&mut random, &rule, 3);
        spelled_anew += (rule != other) as usize;
        for (m, n) in rule.moves.iter().zip(&other.moves) {
            assert_eq!((m.from, m.to), (n.from, n.to));
            assert!(
                (0..8).all(|label| m.fits(label) == n.fits(label)),
                "{m:?} {n:?}"
            );
        }
    }
    assert!(spelled_anew > 250);
    let widened = either(&once(0), 1, 4);
    assert_eq!(widened.moves[..2], [go_any(0, 0, 0, 5, 1), go(0, 0, 5, 0)]);
}

#[test]
fn the_generator_makes_every_kind_of_any() {
    let (mut plans, mut with_five, mut kinds) = (0, 0, [0; 5]);
    for number in (0..4_000).filter(|number| !(9..14).contains(&(number % 16))) {
        let Ok(plan) = read(&case(number).0.file) else {
            continue;
        };
        plans += 1;
        with_five += (plan.fives() > 0) as usize;
        for m in plan.automata().flat_map(|rule| &rule.moves) {
            let Some(any) = m.any else { continue };
            let (in_need, in_bar) = (any & m.need, any & m.bar);
            kinds[0] += (any == 0) as usize;
            kinds[1] += (any != 0 && in_need == any) as usize;
            kinds[2] += (any != 0 && in_bar == any) as usize;
            kinds[3] += (in_need != 0 && in_bar != 0 && in_need | in_bar == any) as usize;
            kinds[4] += (any != 0 && in_need | in_bar == 0) as usize;
        }
    }
    let share = with_five as f64 / plans as f64;
    assert!((0.6..0.7).contains(&share), "{with_five} of {plans}");
    assert!(kinds.iter().all(|&count| count > 100), "{kinds:?}");
}

/// What a harmed file's move lines show.
fn shown(file: &[u8], met: &mut BTreeSet<&'static str>) {
    let Err(refusal) = read(file) else { return };
    let line = file
        .split(|&byte| byte == b'\n')
        .nth(refusal.line().max(1) as usize - 1);
    let Some(numbers) = line.and_then(|line| line.strip_prefix(b"move=")) else {
        return;
    };
    let numbers: Vec<Option<f64>> = numbers
        .split(|&byte| byte == b',')
        .map(|number| std::str::from_utf8(number).ok()?.parse().ok())
        .collect();
    let beyond = numbers.iter().flatten().any(|&number| number > 255.0);
    let good = numbers.iter().all(Option::is_some);
    match (refusal.number(), numbers.len()) {
        (2, 3) if good => met.insert("three numbers"),
        (2, 6) if good && !beyond => met.insert("six numbers"),
        (2, 7) if good && !beyond => met.insert("seven numbers"),
        (2, _) if beyond => met.insert("form and range"),
        (3, 5) if numbers[3] > Some(255.0) => met.insert("any out of range"),
        (3, 5) if numbers[4] > Some(15.0) => met.insert("the fifth out of range"),
        _ => false,
    };
}

const HARMS: [&str; 6] = [
    "any out of range",
    "form and range",
    "seven numbers",
    "six numbers",
    "the fifth out of range",
    "three numbers",
];

#[test]
fn the_damage_reaches_moves_of_all_counts() {
    let mut met = BTreeSet::new();
    let mut random = Random::new(3);
    for _ in 0..3_000 {
        let plan = reference::cases::tiny(&mut random);
        shown(&damage(plan.text().as_bytes(), &mut random).1, &mut met);
    }
    assert_eq!(Vec::from_iter(met), HARMS);
    for plan in ["plan X, ", "plan X with any, "] {
        let mut met = BTreeSet::new();
        let all = harmed_cases().into_iter();
        for case in all.filter(|case| case.kind.starts_with(plan)) {
            shown(&case.file, &mut met);
        }
        assert_eq!(Vec::from_iter(met), HARMS);
    }
}

#[test]
fn the_tally_counts_plans_with_a_line_of_five() {
    let mut tally = Tally::default();
    let lacks = |tally: &Tally| {
        tally
            .lacks()
            .contains(&"a move line of five numbers".into())
    };
    tally.plan("X", &x());
    assert!(lacks(&tally));
    tally.plan("X", &x_with_any());
    assert_eq!(tally.fives, 1);
    assert!(!lacks(&tally));
    let zero = Plan {
        hard: x_with_any().hard,
        ..x()
    };
    tally.plan("X", &zero);
    assert_eq!(tally.fives, 2);
}
