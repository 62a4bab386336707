//! Rules that only watch (02, note 5): reader, ties, generator, damage and tally.

use reference::brute::all_short_tours;
use reference::cases::{case, harmed_cases, oversized, small, tiny, watching, Case};
use reference::checker::check;
use reference::damage::damage;
use reference::entry::plan_tour;
use reference::figures::{figures, soft, x};
use reference::handmade::{eight_rules, silent, x_watching};
use reference::harness::check_figure;
use reference::library::REFERENCE;
use reference::plan::{Automaton, Plan};
use reference::planner::best_tour;
use reference::random::Random;
use reference::reader::{read, Refusal};
use reference::rules::{again, always, never, once};
use reference::sketches::every_list;
use reference::tally::Tally;
use reference::tour::judge;
use reference::transcript::Transcript;
use reference::watchers::{hand_worked, with_watchers};
use std::cmp::Reverse;
use std::collections::BTreeSet;

/// Plan X with another line in the place of its first weight line, line 20.
fn with_weight(number: &str) -> Result<Plan, Refusal> {
    let text = x().text();
    let line = format!("weight={number}\n");
    read(text.replacen("weight=3\n", &line, 1).as_bytes())
}

#[test]
fn a_weight_is_0_to_4_000_000() {
    for weight in [0, 1, 2, 3_999_999, 4_000_000] {
        let plan = with_weight(&weight.to_string()).unwrap();
        assert_eq!(plan.soft[0].weight, weight);
        assert_eq!(read(plan.text().as_bytes()), Ok(plan));
    }
    let beyond = ["4000001", "4294967296", "18446744073709551616"];
    for number in beyond {
        let refusal = Refusal::Range { line: 20 };
        assert_eq!(with_weight(number), Err(refusal), "{number}");
    }
    let formless = ["", "00", "000", "-0", "+0", " 0", "0 ", "0,0", "0.0", "0x0"];
    for number in formless {
        let refusal = Refusal::Form { line: 20 };
        assert_eq!(with_weight(number), Err(refusal), "{number}");
    }
}

/// Number, cost, kept and count by the reference.
fn answer(plan: &Plan) -> (u32, u32, u8, u8) {
    let (mut block, mut run_in, mut cycle) = ([0; 16], [0; 2_048], [0; 20_480]);
    let number = plan_tour(plan.text().as_bytes(), &mut block, &mut run_in, &mut cycle);
    let cost = u32::from_le_bytes(block[8..12].try_into().unwrap());
    (number, cost, block[1], block[2])
}

/// The best of what tours keep, in the words of 01: less cost is better, and at
/// equal cost the lowest rule that one keeps and the other does not.
fn best(plan: &Plan, all: impl IntoIterator<Item = u8>) -> (u32, u8) {
    let cost = |kept: u8| -> u32 {
        let lost = plan.soft.iter().enumerate();
        lost.filter(|(i, _)| kept >> i & 1 == 0)
            .map(|(_, soft)| soft.weight)
            .sum()
    };
    let worth = |kept: &u8| (Reverse(cost(*kept)), kept.reverse_bits());
    let kept = all.into_iter().max_by_key(worth).unwrap();
    (cost(kept), kept)
}

/// What all tours of few places keep that the hard rule accepts.
fn kept_by_short_tours(plan: &Plan) -> BTreeSet<u8> {
    let places: Vec<u8> = (0..plan.labels.len() as u8).collect();
    let cycles = every_list(&places, 4);
    let mut all = BTreeSet::new();
    for run_in in every_list(&places, 2) {
        for cycle in &cycles {
            let verdict = judge(plan, &run_in, cycle);
            if verdict.is_tour && verdict.hard {
                all.insert(verdict.kept);
            }
        }
    }
    all
}

#[test]
fn what_was_worked_out_by_hand() {
    for figure in hand_worked() {
        let name = figure.name;
        assert_eq!(check_figure(REFERENCE, &figure), Ok(()), "{name}");
        // The slow judge says the same.
        if let Ok(plan) = read(&figure.file) {
            assert_ne!(plan.watching(), 0, "{name}");
            let told = (figure.cost, figure.kept);
            assert_eq!(best(&plan, kept_by_short_tours(&plan)), told, "{name}");
            let search = all_short_tours(&plan, 250, 6);
            assert_eq!(search.kept, Some(figure.kept), "{name}");
        }
    }
}

/// Every choice of three rules over plan X's map in every order, with every
/// weight of 0, 1 and 2.
#[test]
fn every_order_and_every_weight() {
    let all: [Automaton; 5] = [again(0), again(1), never(0), never(1), once(1)];
    let weights = || 0..3;
    let (mut tried, mut decided) = (0, 0);
    for choice in every_list(&[0, 1, 2, 3, 4], 3) {
        if choice.len() < 3 {
            continue;
        }
        let rules: Vec<Automaton> = choice.iter().map(|&i| all[i as usize].clone()).collect();
        let plan = |weights: [u32; 3]| Plan {
            soft: (0..3).map(|i| soft(weights[i], rules[i].clone())).collect(),
            ..x()
        };
        // What a tour keeps has nothing to do with the weights.
        let kept = kept_by_short_tours(&plan([1, 1, 1]));
        for weights in
            weights().flat_map(|a| weights().flat_map(move |b| weights().map(move |c| [a, b, c])))
        {
            let plan = plan(weights);
            let (cost, best) = best(&plan, kept.clone());
            assert_eq!(
                answer(&plan),
                (0, cost, best, best.count_ones() as u8),
                "{plan:?}"
            );
            tried += 1;
            decided += kept.iter().any(|&other| {
                let first = (best ^ other).trailing_zeros();
                plan.cost(other) == cost && first < 3 && weights[first as usize] == 0
            }) as usize;
        }
    }
    assert_eq!(tried, 125 * 27);
    assert!(decided > 500, "{decided}");
}

#[test]
fn the_order_in_the_file_decides() {
    let plan = |weights: [u32; 2], rules: [Automaton; 2]| {
        let [one, other] = rules;
        let rules = vec![soft(weights[0], one), soft(weights[1], other)];
        Plan { soft: rules, ..x() }
    };
    // Both watch and exclude each other.
    assert_eq!(answer(&plan([0, 0], [never(1), again(1)])), (0, 0, 1, 1));
    assert_eq!(answer(&plan([0, 0], [again(1), never(1)])), (0, 0, 1, 1));
    // One of them weighs something: then cost decides, in either order.
    assert_eq!(answer(&plan([0, 1], [never(1), again(1)])), (0, 0, 2, 1));
    assert_eq!(answer(&plan([1, 0], [never(1), again(1)])), (0, 0, 1, 1));
    // A tie at a cost: whoever is first of all decides, watching or not.
    let three = |first: [u32; 3]| Plan {
        soft: vec![
            soft(first[0], again(1)),
            soft(first[1], never(1)),
            soft(first[2], again(1)),
        ],
        ..x()
    };
    assert_eq!(answer(&three([0, 4, 4])), (0, 4, 5, 2));
    assert_eq!(answer(&three([4, 8, 4])), (0, 8, 5, 2));
    let three = |first: [u32; 3]| Plan {
        soft: vec![
            soft(first[0], never(1)),
            soft(first[1], again(1)),
            soft(first[2], again(1)),
        ],
        ..x()
    };
    assert_eq!(answer(&three([4, 0, 4])), (0, 4, 1, 1));
    assert_eq!(answer(&three([4, 4, 0])), (0, 4, 1, 1));
    assert_eq!(answer(&three([0, 4, 0])), (0, 0, 6, 2));
}

#[test]
fn eight_rules_that_only_watch() {
    for kept in 0..=255 {
        let plan = eight_rules(kept, [0; 8]);
        let count = kept.count_ones() as u8;
        assert_eq!(answer(&plan), (0, 0, kept, count));
        let told = check(plan.text().as_bytes(), &[0], &[0]).unwrap();
        assert_eq!((told.accepted, told.cost, told.kept), (true, 0, kept));
    }
}

/// A tour with the plan, and the plan without a weight.
#[test]
fn the_kept_byte_of_a_tour_has_nothing_to_do_with_weights() {
    let mut tried = 0;
    for number in (0..1_000).filter(|number| number % 16 < 9) {
        let plan = read(&case(number).0.file).unwrap();
        let mut light = plan.clone();
        for soft in &mut light.soft {
            soft.weight = 0;
        }
        let Some((tour, _)) = best_tour(&plan) else {
            continue;
        };
        let [own, other] = [&plan, &light].map(|plan| judge(plan, &tour.run_in, &tour.cycle));
        assert_eq!(
            (other.hard, other.kept, other.cost),
            (own.hard, own.kept, 0)
        );
        let told = check(light.text().as_bytes(), &tour.run_in, &tour.cycle).unwrap();
        assert_eq!((told.accepted, told.kept, told.cost), (true, own.kept, 0));
        tried += 1;
    }
    assert!(tried > 200, "{tried}");
}

#[test]
fn a_rule_that_only_watches_never_changes_the_cost() {
    let (mut tried, mut moved) = (0, 0);
    for number in (0..6_000).filter(|number| number % 16 < 9) {
        let plan = read(&case(number).0.file).unwrap();
        if plan.watching() == 0 {
            continue;
        }
        let mut without = plan.clone();
        without.soft.retain(|soft| soft.weight > 0);
        let [own, other] = [&plan, &without].map(answer);
        assert_eq!(own.0, other.0, "case {number}");
        assert_eq!(own.1, other.1, "case {number}");
        tried += 1;
        // What weighs something may be kept otherwise.
        let weighing = (0..plan.soft.len()).filter(|i| plan.weighing() >> i & 1 == 1);
        let bits = weighing.enumerate();
        let same = bits.fold(0, |all, (to, from)| all | (own.2 >> from & 1) << to);
        moved += (same != other.2) as usize;
    }
    assert!(tried > 400 && moved > 20, "{tried} {moved}");
}

/// What a transcript has of figures of 01, as it was before a weight could be 0:
/// the answer with its places, and a checksum of all that was lent.
const BEFORE: [(&str, &str); 6] = [
    (
        "1",
        "0 50bf70a669a5f67b 0 00030200000000000000000001000200 runin=0 loop=1,0 ffc5db1702564dc8",
    ),
    (
        "2",
        "0 2f34b01af234d84d 0 00000000000000000500000002000200 runin=0,2 loop=0,2 4536ac16c8457743",
    ),
    (
        "3",
        "0 169656b96601df34 0 00010100000000000200000002000400 runin=0,2 loop=0,1,0,2 1a6ad423be56d229",
    ),
    (
        "4",
        "0 12145a41045d33bc 0 00010100000000000400000000000200 runin= loop=0,1 6c76373993eb311c",
    ),
    (
        "7",
        "0 1de4a7c45eef4a64 0 00010100000000000200000001000200 runin=0 loop=1,0 512b56b38396c189",
    ),
    (
        "8",
        "0 b015882a15ceabda 0 00010100000000000000000001000100 runin=0 loop=1 66704b3f913420b6",
    ),
];

#[test]
fn plans_without_weight_0_are_answered_as_before() {
    for (name, line) in BEFORE {
        let mut figures = figures().into_iter();
        let figure = figures.find(|figure| figure.name == name).unwrap();
        assert_eq!(read(&figure.file).unwrap().watching(), 0);
        let case = Case::new(name, figure.file);
        assert_eq!(Transcript::default().line(REFERENCE, 0, &case, 0), line);
    }
}

/// The answer with its places.
fn tour(plan: &Plan) -> Option<(Vec<u8>, Vec<u8>, u8)> {
    let (tour, kept) = best_tour(plan)?;
    Some((tour.run_in, tour.cycle, kept))
}

/// Plans without weight 0 know nothing of it: a rule that watches and that every
/// tour keeps, or none, changes no place of the tour, wherever it stands; nor
/// does a common factor of the weights.
#[test]
fn what_all_tours_keep_changes_nothing() {
    let mut tried = 0;
    for number in (0..2_000).filter(|number| number % 16 < 9) {
        let plan = read(&case(number).0.file).unwrap();
        if plan.watching() != 0 {
            continue;
        }
        let own = tour(&plan);
        for at in 0..=plan.soft.len() {
            for (bit, rule) in [(1, always()), (0, silent())] {
                let mut other = plan.clone();
                other.soft.insert(at, soft(0, rule));
                let below = (1u8 << at) - 1;
                let told = own.clone().map(|(run_in, cycle, kept)| {
                    let kept = kept & below | bit << at | (kept & !below) << 1;
                    (run_in, cycle, kept)
                });
                assert_eq!(tour(&other), told, "case {number}");
            }
        }
        let mut heavier = plan.clone();
        for soft in &mut heavier.soft {
            soft.weight *= 2;
        }
        assert_eq!(tour(&heavier), own, "case {number}");
        tried += 1;
    }
    assert!(tried > 400, "{tried}");
}

#[test]
fn the_generator_changes_weights_and_nothing_else() {
    let (mut same, mut some, mut all) = (0, 0, 0);
    let mut random = Random::new(5);
    for _ in 0..3_000 {
        random.word();
        let plan = x_watching();
        let weighed = Plan {
            soft: plan.soft.iter().map(|s| soft(7, s.rule.clone())).collect(),
            ..plan
        };
        let before = random.aside().word();
        let other = with_watchers(&random, weighed.clone());
        assert_eq!(random.aside().word(), before);
        match other.watching() {
            0 => same += 1,
            15 => all += 1,
            _ => some += 1,
        }
        let mut back = other.clone();
        for soft in &mut back.soft {
            assert!([0, 7].contains(&soft.weight));
            soft.weight = 7;
        }
        assert_eq!(back, weighed);
    }
    assert!(
        same > 1_800 && some > 600 && all > 200,
        "{same} {some} {all}"
    );
}

type Maker = fn(&mut Random) -> Plan;

#[test]
fn the_generator_makes_every_kind() {
    let makers: [(&str, Maker); 4] = [
        ("tiny", tiny),
        ("small", small),
        ("watching", watching),
        ("oversized", oversized),
    ];
    for (name, make) in makers {
        let mut random = Random::new(6);
        let (mut beside, mut alone) = (0, 0);
        for _ in 0..1_000 {
            let plan = make(&mut random);
            let rules = plan.soft.len();
            beside += (plan.watching() != 0 && plan.weighing() != 0) as usize;
            alone += (rules > 1 && plan.weighing() == 0) as usize;
        }
        assert!(beside > 50 && alone > 20, "{name}: {beside} {alone}");
    }
}

#[test]
fn the_damage_reaches_weights() {
    let due = ["", "-0", "0", "00", "4000000", "4000001", "4294967296"];
    let shown = |file: &[u8], met: &mut BTreeSet<String>| {
        for line in file.split(|&byte| byte == b'\n') {
            let number = line.strip_prefix(b"weight=");
            let number = number.and_then(|number| std::str::from_utf8(number).ok());
            met.extend(
                number
                    .filter(|number| due.contains(number))
                    .map(String::from),
            );
        }
    };
    let mut met = BTreeSet::new();
    let mut random = Random::new(7);
    for _ in 0..3_000 {
        let mut plan = tiny(&mut random);
        for soft in &mut plan.soft {
            soft.weight = 5;
        }
        shown(&damage(plan.text().as_bytes(), &mut random).1, &mut met);
    }
    assert_eq!(Vec::from_iter(met), due);
    for plan in ["plan X, ", "plan X with any, "] {
        let mut met = BTreeSet::new();
        let all = harmed_cases().into_iter();
        for case in all.filter(|case| case.kind.starts_with(plan)) {
            shown(&case.file, &mut met);
        }
        assert_eq!(Vec::from_iter(met), due);
    }
}

#[test]
fn the_tally_tells_the_kinds_apart() {
    let of_watching = |tally: &Tally| -> Vec<String> {
        let due = Tally::default().watched.due().map(|(what, _)| what);
        let lacks = tally.lacks().into_iter();
        lacks.filter(|what| due.contains(what)).collect()
    };
    let mut tally = Tally::default();
    let watched = |tally: &Tally| tally.watched.due().map(|(_, count)| count);
    assert_eq!(of_watching(&tally).len(), 8);
    let weights = |weights: &[u32]| Plan {
        soft: weights.iter().map(|&w| soft(w, always())).collect(),
        ..x()
    };
    // Plans: one without weight 0, one with a single rule, one with both sorts,
    // one with weight 0 alone.
    for weights in [vec![1, 2], vec![0], vec![0, 3], vec![0, 0]].map(|w| weights(&w)) {
        tally.watched.plan(&weights);
    }
    assert_eq!(watched(&tally), [1, 1, 0, 0, 0, 0, 0, 0]);
    // Nothing decides between a tour and itself, and a weight does not count.
    tally.watched.answer(&weights(&[1, 2]), 1, &[1, 2]);
    assert_eq!(watched(&tally), [1, 1, 0, 0, 0, 0, 0, 0]);
    tally.watched.answer(&weights(&[4, 4, 0]), 1, &[1, 6]);
    assert_eq!(watched(&tally), [1, 1, 0, 1, 0, 0, 0, 0]);
    // The rule before the others decides, against them.
    tally.watched.answer(&weights(&[0, 4, 4]), 5, &[2, 5]);
    assert_eq!(watched(&tally), [1, 1, 1, 1, 1, 1, 0, 1]);
    // The rule behind the others decides; another cost is no tie.
    tally.watched.answer(&weights(&[4, 4, 0]), 7, &[3, 5]);
    assert_eq!(watched(&tally), [1, 1, 2, 1, 2, 1, 1, 1]);
    tally.watched.answer(&weights(&[4, 4, 0]), 7, &[1]);
    assert_eq!(watched(&tally), [1, 1, 3, 1, 2, 1, 1, 1]);
    assert_eq!(of_watching(&tally), Vec::<String>::new());
}

#[test]
fn some_cases_bring_all_that_is_due() {
    let mut tally = Tally::default();
    let lacking = |tally: &Tally| tally.watched.due().iter().any(|(_, count)| *count < 3);
    let mut number = 0;
    while lacking(&tally) && number < 1_000 {
        let (case, mut random) = case(number);
        reference::harness::check(REFERENCE, &case, &mut random, &mut tally).unwrap();
        number += 1;
    }
    assert!(!lacking(&tally), "{}", tally.watched);
}
