//! Roads that are written twice (02, note 6): reader, order, generator, damage
//! and tally.

use reference::cases::{case, harmed_cases, oversized, small, tied, tiny, watching, Case};
use reference::checker::{check, check_with};
use reference::checking::check_fixed_copy;
use reference::copies::{busy, with_copies, KINDS};
use reference::damage::damage;
use reference::entry::{plan_tour, plan_with, Block};
use reference::figures::{figures, x};
use reference::fixed_copies::fixed_copies;
use reference::harness;
use reference::library::REFERENCE;
use reference::loads::loads;
use reference::maps::once_each;
use reference::plan::{Plan, Road, MAX_ROADS, MAX_SIZE};
use reference::random::Random;
use reference::reader::{read, read_with, Refusal};
use reference::shapes::{large, SHAPES};
use reference::sketches::{long_tours, small_maps};
use reference::tally::Tally;
use reference::watchers::hand_worked;
use std::collections::BTreeSet;

/// A reader that lets copies pass, as all did before.
fn lenient(file: &[u8]) -> Result<Plan, Refusal> {
    read_with(file, |_| false)
}

fn x_with(roads: &[Road]) -> Plan {
    let roads = roads.to_vec();
    Plan { roads, ..x() }
}

fn doubled(line: usize) -> Result<Plan, Refusal> {
    let line = line as u32;
    Err(Refusal::Doubled { line })
}

#[test]
fn what_was_worked_out_by_hand() {
    let mut met = BTreeSet::new();
    for fixed in fixed_copies() {
        let name = fixed.figure.name;
        assert_eq!(check_fixed_copy(REFERENCE, &fixed), Ok(()), "{name}");
        met.insert(fixed.figure.number);
    }
    assert_eq!(met, BTreeSet::from([0, 1, 2, 3, 7, 10]));
}

/// The later copy by the words of the note: the first road line that has the
/// road of an earlier one.
fn later_copy(roads: &[Road]) -> Option<usize> {
    (0..roads.len()).find(|&at| roads[..at].iter().any(|road| *road == roads[at]))
}

/// All lists of up to four roads between three places.
#[test]
fn every_short_list_of_roads() {
    let all: Vec<Road> = (0..9).map(|n| (n / 3, n % 3)).collect();
    let mut lists: Vec<Vec<Road>> = vec![Vec::new()];
    let (mut passed, mut refused) = (0, 0);
    for _ in 0..=4 {
        for roads in &lists {
            let plan = x_with(roads);
            let told = read(plan.text().as_bytes());
            match later_copy(roads) {
                // The first road of plan X is line 9.
                Some(at) => {
                    assert_eq!(told, doubled(9 + at));
                    assert_eq!(plan.road_line(at), 9 + at);
                    refused += 1;
                }
                None => {
                    assert_eq!(told, Ok(plan));
                    passed += 1;
                }
            }
        }
        let longer = |list: &Vec<Road>| {
            let list = list.clone();
            all.iter().map(move |&road| [&list[..], &[road]].concat())
        };
        lists = lists.iter().flat_map(longer).collect();
    }
    assert_eq!(passed, 1 + 9 + 9 * 8 + 9 * 8 * 7 + 9 * 8 * 7 * 6);
    assert_eq!(passed + refused, 1 + 9 + 81 + 729 + 6561);
}

/// No two roads are taken for one another: all 16,384 of the largest map, some
/// hundred at a time, and each of them is known again.
#[test]
fn every_road_is_told_from_every_other() {
    let mut all: Vec<Road> = (0..128u8)
        .flat_map(|a| (0..128).map(move |b| (a, b)))
        .collect();
    let mut random = Random::new(1);
    for _ in 0..5 {
        for roads in all.chunks(MAX_ROADS as usize - 1) {
            let plan = |roads: Vec<Road>| Plan {
                labels: vec![0; 128],
                roads,
                ..x()
            };
            let single = plan(roads.to_vec());
            assert!(lenient(single.text().as_bytes()) == read(single.text().as_bytes()));
            let from = random.below(roads.len());
            let to = random.between(from + 1, roads.len());
            let mut roads = roads.to_vec();
            roads.insert(to, roads[from]);
            let line = plan(Vec::new()).road_line(to);
            assert_eq!(read(plan(roads).text().as_bytes()), doubled(line));
        }
        random.shuffle(&mut all);
    }
}

#[test]
fn the_block_of_a_doubled_road() {
    let file = x_with(&[(0, 1), (1, 0), (0, 1)]).text();
    let (mut block, mut run_in, mut cycle) = ([0xa5; 18], [0xa5; 40], [0xa5; 80]);
    let number = plan_tour(file.as_bytes(), &mut block, &mut run_in, &mut cycle);
    let told = Block {
        number: 10,
        line: 11,
        ..Block::default()
    };
    assert_eq!(number, 10);
    assert_eq!(block[..16], told.bytes());
    assert_eq!(block[16..], [0xa5; 2]);
    assert!(run_in.iter().chain(&cycle).all(|&byte| byte == 0xa5));
}

/// One road of each map copied, to each later line, and each return road.
#[test]
fn a_copy_anywhere_and_a_return_anywhere() {
    for plan in [x(), busy(&mut Random::new(3)), tiny(&mut Random::new(4))] {
        let count = plan.roads.len().min(20);
        for from in 0..count {
            let (a, b) = plan.roads[from];
            for to in (from + 1..=count).chain([plan.roads.len()]) {
                let mut copied = plan.clone();
                copied.roads.insert(to, (a, b));
                copied.roads.truncate(MAX_ROADS as usize);
                if to < copied.roads.len() {
                    let told = doubled(copied.road_line(to));
                    assert_eq!(read(copied.text().as_bytes()), told);
                }
                let mut back = plan.clone();
                back.roads.retain(|&road| road != (b, a) || a == b);
                if a != b && to <= back.roads.len() && back.roads.len() < MAX_ROADS as usize {
                    back.roads.insert(to, (b, a));
                    assert_eq!(read(back.text().as_bytes()), Ok(back));
                }
            }
        }
    }
}

/// The answer with its places: block, run-in and loop.
fn answer(
    read: fn(&[u8]) -> Result<Plan, Refusal>,
    file: &[u8],
) -> (u32, [u8; 16], Vec<u8>, Vec<u8>) {
    let (mut block, mut run_in, mut cycle) = ([0; 16], vec![0xa5; 2_048], vec![0xa5; 20_480]);
    let number = plan_with(read, file, &mut block, &mut run_in, &mut cycle);
    (number, block, run_in, cycle)
}

/// Generated plans with a doubled road, as the text has them.
fn doubled_plans(count: usize) -> Vec<Plan> {
    let mut random = Random::new(8);
    let mut all = Vec::new();
    for turn in 0.. {
        let file = KINDS[turn % KINDS.len()].file(&mut random);
        if let (Err(Refusal::Doubled { .. }), Ok(plan)) = (read(&file), lenient(&file)) {
            all.push(plan);
        }
        if all.len() == count {
            break;
        }
    }
    all
}

/// Without its later copies a plan is answered as it was with them before they
/// were refused, to the byte; and so are its tours.
#[test]
fn without_the_copies_all_is_as_it_was() {
    let (mut tours, mut none) = (0, 0);
    for plan in doubled_plans(400) {
        let file = plan.text().into_bytes();
        let single = Plan {
            roads: once_each(plan.roads.clone()),
            ..plan.clone()
        };
        assert!(single.roads.len() < plan.roads.len());
        let single_file = single.text().into_bytes();
        assert_eq!(read(&single_file), Ok(single));
        assert_eq!(answer(read, &file).0, 10);
        let before = answer(lenient, &file);
        assert_eq!(answer(read, &single_file), before);
        match before.0 {
            0 => tours += 1,
            number => {
                assert_eq!(number, 6);
                none += 1;
            }
        }
        let mut random = Random::new(file.len() as u64);
        let ways = reference::walks::Ways::of(&plan);
        let walk = ways.walk(&mut random, 20);
        for lists in [
            ways.closed(&walk, &mut random),
            ways.open(&walk, &mut random),
        ] {
            let Some((run_in, cycle)) = lists else {
                continue;
            };
            let told = check_with(lenient, &file, &run_in, &cycle);
            assert_eq!(check(&single_file, &run_in, &cycle), told);
            let refusal = read(&file).unwrap_err();
            assert_eq!(check(&file, &run_in, &cycle), Err(refusal));
        }
    }
    assert!(tours > 100 && none > 50, "{tours} {none}");
}

/// A plan without a doubled road has the answer that it had, line and all where
/// it is refused; the reader that lets copies pass is the one before.
#[test]
fn plans_without_a_doubled_road_are_answered_as_before() {
    let mut tried = 0;
    for number in (0..3_000).filter(|number| number % 16 != 14) {
        let file = case(number).0.file;
        let told = read(&file);
        match told {
            Err(Refusal::Doubled { .. }) => assert_ne!(told, lenient(&file)),
            _ => {
                assert_eq!(told, lenient(&file));
                tried += 1;
            }
        }
    }
    assert!(tried > 2_000, "{tried}");
}

#[test]
fn a_repeated_move_changes_nothing() {
    let mut tried = 0;
    for number in (0..1_000).filter(|number| number % 16 < 9) {
        let plan = read(&case(number).0.file).unwrap();
        let mut other = plan.clone();
        for rule in other.automata_mut() {
            let moves = rule.moves.clone();
            rule.moves.extend(moves);
            rule.moves.truncate(64);
        }
        tried += (plan != other) as usize;
        let [own, other] = [plan, other].map(|plan| answer(read, plan.text().as_bytes()));
        assert_eq!(own, other, "case {number}");
    }
    assert!(tried > 400, "{tried}");
}

fn single(plan: &Plan) -> bool {
    later_copy(&plan.roads).is_none()
}

type Maker = fn(&mut Random) -> Plan;

#[test]
fn plans_that_are_meant_to_be_good_have_no_road_twice() {
    let makers: [(&str, Maker); 6] = [
        ("tiny", tiny),
        ("tied", tied),
        ("watching", watching),
        ("small", small),
        ("oversized", oversized),
        ("busy", busy),
    ];
    for (name, make) in makers {
        let mut random = Random::new(10);
        for _ in 0..200 {
            assert!(single(&make(&mut random)), "{name}");
        }
    }
    for shape in SHAPES {
        for seed in 0..12 {
            for size in [64, 100, 128, 256, 512, 1_024, MAX_SIZE] {
                let plan = large(shape, size, &mut Random::new(seed));
                assert!(single(&plan), "{} {seed} {size}", shape.name());
            }
        }
    }
    for load in loads() {
        assert!(read(&load.file).is_ok(), "{}", load.name);
    }
    for figure in figures().into_iter().chain(hand_worked()) {
        assert!(!matches!(read(&figure.file), Err(Refusal::Doubled { .. })));
    }
    assert!(small_maps().iter().all(|map| single(&map.plan)));
    for (case, _) in long_tours() {
        assert!(read(&case.file).is_ok());
    }
}

/// Which numbers each kind comes to, with plans of all sorts.
#[test]
fn each_kind_is_what_its_name_says() {
    for kind in &KINDS {
        let mut random = Random::new(11);
        let mut met = BTreeSet::new();
        for _ in 0..100 {
            let told = read(&kind.file(&mut random));
            met.insert(told.map_or_else(Refusal::number, |_| 0));
        }
        let due: &[u32] = match kind.name {
            "copy with a fault of its own" | "copy behind a fault" | "faulty road twice" => &[2, 3],
            "return road added" | "move repeated" | "as many roads as can be" => &[0],
            _ => &[10],
        };
        assert_eq!(Vec::from_iter(met), due, "{}", kind.name);
    }
}

#[test]
fn a_sixth_of_the_large_plans_is_changed_and_nothing_else() {
    let mut random = Random::new(12);
    let mut changed = 0;
    for _ in 0..1_200 {
        random.word();
        let before = random.aside().word();
        let file = with_copies(&random, x());
        assert_eq!(random.aside().word(), before);
        changed += (file != x().text().into_bytes()) as usize;
    }
    assert!((120..240).contains(&changed), "{changed}");
}

/// About one case of ten is refused with 10, some of each sort that may be.
#[test]
fn the_share_of_doubled_roads() {
    let (mut all, mut kinds) = (0, BTreeSet::new());
    for number in 0..4_000 {
        let case = case(number).0;
        if let Err(Refusal::Doubled { .. }) = read(&case.file) {
            all += 1;
            kinds.insert(match number % 16 {
                9..=12 => "damaged",
                13 => "made for it",
                14 => "large",
                _ => "meant to be good",
            });
        }
    }
    assert!((240..480).contains(&all), "{all}");
    assert_eq!(Vec::from_iter(kinds), ["damaged", "large", "made for it"]);
}

#[test]
fn the_damage_reaches_roads() {
    let mut met = BTreeSet::new();
    let mut random = Random::new(13);
    for _ in 0..3_000 {
        let plan = tiny(&mut random);
        let (kind, file, _) = damage(plan.text().as_bytes(), &mut random);
        if let Err(Refusal::Doubled { .. }) = read(&file) {
            met.insert(kind);
        }
    }
    for due in ["road line added", "road line replaced", "line doubled"] {
        assert!(met.contains(due), "{due}: {met:?}");
    }
    // Each road of plan X before and behind each, and in the place of each other.
    for name in ["plan X, ", "plan X with any, "] {
        let count = |harm: &str, wanted: fn(Result<Plan, Refusal>) -> bool| {
            let all = harmed_cases().into_iter();
            let harmed = all.filter(|case| case.kind == format!("{name}{harm}"));
            harmed.filter(|case| wanted(read(&case.file))).count()
        };
        let is_doubled = |told| matches!(told, Err(Refusal::Doubled { .. }));
        assert_eq!(count("road line added", is_doubled), 4 * 4 * 2);
        assert_eq!(count("road line replaced", is_doubled), 4 * 3);
        assert_eq!(count("road line replaced", |told| told.is_ok()), 4);
        // The last road line that is doubled stands where the hard rule should.
        assert_eq!(count("line doubled", is_doubled), 3);
    }
}

#[test]
fn the_tally_tells_the_kinds_apart() {
    let mut tally = Tally::default();
    let counts = |tally: &Tally| tally.copied.due().map(|(_, count)| count);
    let lacking = |tally: &Tally| {
        let due = tally.copied.due().map(|(what, _)| what);
        let lacks = tally.lacks();
        due.iter().filter(|what| lacks.contains(what)).count()
    };
    assert_eq!(lacking(&tally), 14);
    let mut put = |file: &[u8]| {
        let before = counts(&tally);
        tally.copied.file(file, read(file).as_ref());
        let after = counts(&tally);
        let changed = (0..14).filter(|&i| after[i] != before[i]);
        changed.collect::<Vec<usize>>()
    };
    let text = |roads: &[Road]| x_with(roads).text().into_bytes();
    let copied = text(&[(0, 1), (1, 0), (0, 1), (2, 0)]);
    let spoilt = |old: &str, new: &str| {
        let text = String::from_utf8(copied.clone()).unwrap();
        assert!(text.contains(old));
        text.replacen(old, new, 1).into_bytes()
    };
    assert_eq!(put(&text(&[(0, 1), (0, 1)])), [0]);
    assert_eq!(put(&copied), [1]);
    assert_eq!(put(&text(&[(1, 1), (1, 1)])), [0, 3]);
    assert_eq!(put(&text(&[(1, 1), (0, 1), (1, 1)])), [1, 3]);
    assert_eq!(put(&text(&[(0, 1), (0, 1), (0, 1)])), [0, 4]);
    assert_eq!(put(&text(&[(0, 1), (0, 1), (0, 2), (0, 2)])), [0, 5]);
    assert_eq!(put(&spoilt("rules", "rule")), [1, 6]);
    assert_eq!(put(&spoilt("weight=3", "weight=4000001")), [1, 7]);
    assert_eq!(put(&spoilt("start=0", "start=3")), [9]);
    assert_eq!(put(&spoilt("label=1", "label=01")), [9]);
    assert_eq!(put(&spoilt("road=0,1\nroad=2", "road=0,01\nroad=2")), [10]);
    assert_eq!(put(&spoilt("road=0,1\nroad=2", "road=0,257\nroad=2")), [10]);
    assert_eq!(put(&text(&[(0, 1), (1, 0)])), [11]);
    assert_eq!(put(&text(&[(0, 1), (1, 1), (0, 0)])), []);
    let mut moves = x_with(&[(0, 1), (1, 1)]);
    assert_eq!(put(moves.text().as_bytes()), []);
    moves.hard.moves.push(moves.hard.moves[0]);
    assert_eq!(put(moves.text().as_bytes()), [12]);
    let one_way = (0..127).flat_map(|a| (a + 1..128).map(move |b| (a, b)));
    let one_way: Vec<Road> = one_way.take(1_024).collect();
    let wide = |roads: &[Road]| {
        let plan = Plan {
            labels: vec![0; 128],
            soft: Vec::new(),
            ..x_with(roads)
        };
        plan.text().into_bytes()
    };
    assert_eq!(put(&wide(&one_way[..1_023])), []);
    assert_eq!(put(&wide(&one_way)), [13]);
    assert_eq!(put(&wide(&[&one_way[..999], &[(0, 1)]].concat())), [1]);
    assert_eq!(put(&wide(&[&one_way[..1_000], &[(0, 1)]].concat())), [2]);
    let large = Plan {
        labels: vec![0; 128],
        ..x_with(&[(0, 1), (0, 1)])
    };
    assert_eq!(large.size(), 128 * 6);
    let larger = Plan {
        soft: [&large.soft[..], &large.soft].concat(),
        ..large
    };
    assert_eq!(put(larger.text().as_bytes()), [0, 8]);
    assert_eq!(put(b""), []);
    assert_eq!(put(&[b'1'; 60_001]), []);
    assert_eq!(lacking(&tally), 0);
}

#[test]
fn some_cases_bring_all_that_is_due() {
    let mut tally = Tally::default();
    let lacking = |tally: &Tally| tally.copied.due().iter().any(|(_, count)| *count == 0);
    let mut number = 0;
    while lacking(&tally) && number < 600 {
        let (case, mut random) = case(number);
        harness::check(REFERENCE, &case, &mut random, &mut tally).unwrap();
        number += 1;
    }
    assert!(!lacking(&tally), "{}", tally.copied);
}

/// The number counts in the tally of both entries.
#[test]
fn the_numbers_are_due() {
    let wanted = ["the number 10", "the number 10 of check_tour"];
    let lacks = |tally: &Tally| wanted.map(|what| tally.lacks().contains(&what.to_string()));
    let mut tally = Tally::default();
    assert_eq!(lacks(&tally), [true, true]);
    let file = x_with(&[(0, 1), (0, 1)]).text().into_bytes();
    let case = Case::new("doubled", file);
    harness::check_once(REFERENCE, &case, &mut tally).unwrap();
    assert_eq!(lacks(&tally), [false, true]);
    reference::checking::check_beside_harm(REFERENCE, &case, &mut tally).unwrap();
    assert_eq!(lacks(&tally), [false, false]);
}
