//! Dead ends, at which a car parks (02, note 7): which places are joined, planner
//! and checker, generator and tally.

use reference::brute::all_short_tours;
use reference::cases::{case, oversized, small, tiny, Case};
use reference::causes::causes;
use reference::checker::{check, Worth};
use reference::checking::check_chance_tours;
use reference::drawn::{parked, parked_nowhere, wrongly_parked, Known};
use reference::entry::plan_tour;
use reference::figures::{figures, soft, x, Figure};
use reference::fixed_parking::fixed_parking;
use reference::handmade::{dead_end, one_place, silent, two_places, x_under, x_with};
use reference::harness::{self, check_figure};
use reference::library::REFERENCE;
use reference::loads::loads;
use reference::maps::{all_roads, once_each, row};
use reference::parked::Parked;
use reference::parking::{with_dead_ends, KINDS};
use reference::plan::{Plan, Road, MAX_ROADS, MAX_SIZE};
use reference::planner::{best_tour, best_tour_over};
use reference::random::Random;
use reference::reader::{read, Refusal};
use reference::rules::{again, always, never, once, settle};
use reference::shapes::{large, Shape, SHAPES};
use reference::sketches::every_list;
use reference::tally::Tally;
use reference::tour::judge;
use reference::walks::Ways;
use std::collections::BTreeSet;

/// Note 7 by its words: a place without a road out leads to itself; and, as 01
/// has it, each place and the next are joined by a road.
fn joined_by_the_words(plan: &Plan, from: u8, to: u8) -> bool {
    let road = plan.roads.iter().any(|road| *road == (from, to));
    let is_place = (from as usize) < plan.labels.len();
    let has_a_road_out = plan.roads.iter().any(|road| road.0 == from);
    road || from == to && is_place && !has_a_road_out
}

/// The plan with a road from each dead end to itself, which has no dead end.
fn spelled_out(plan: &Plan) -> Plan {
    let places = 0..plan.labels.len() as u8;
    let ends = places.filter(|&place| plan.roads.iter().all(|road| road.0 != place));
    let stays: Vec<Road> = ends.map(|end| (end, end)).collect();
    Plan {
        roads: [&plan.roads[..], &stays].concat(),
        ..plan.clone()
    }
}

/// Generated plans of all sorts that are not refused.
fn plans(count: u64) -> Vec<Plan> {
    let files = (0..count).map(|number| case(number).0.file);
    files.filter_map(|file| read(&file).ok()).collect()
}

#[test]
fn which_places_are_joined() {
    let largest = Plan {
        labels: vec![0; 128],
        roads: row(0, 128),
        ..one_place(always(), Vec::new())
    };
    let stay = Plan {
        roads: [row(0, 128), vec![(127, 127)]].concat(),
        ..largest.clone()
    };
    let fixed = [x(), x_with(&[]), x_with(&[(1, 1), (1, 0)]), largest, stay];
    let (mut ends, mut others) = (0, 0);
    for plan in plans(200).into_iter().chain(fixed) {
        let mut all = BTreeSet::new();
        let numbers = 0..=plan.labels.len() as u8 + 2;
        let numbers: BTreeSet<u8> = numbers.chain([64, 127, 128, 255]).collect();
        for &from in &numbers {
            for &to in &numbers {
                let joined = plan.joined(from, to);
                assert_eq!(joined, joined_by_the_words(&plan, from, to));
                if joined {
                    all.insert((from, to));
                }
            }
        }
        // The steps are the pairs that are joined, each once.
        assert_eq!(plan.steps().count(), all.len());
        assert_eq!(plan.steps().collect::<BTreeSet<Road>>(), all);
        for &place in &numbers {
            let parks = plan.parks(place);
            assert_eq!(
                parks,
                all.contains(&(place, place)) && !plan.roads.contains(&(place, place))
            );
            if (place as usize) < plan.labels.len() {
                assert_eq!(parks, plan.dead_ends() >> place & 1 == 1);
                // Every place leads somewhere.
                assert!(all.iter().any(|step| step.0 == place));
                *if parks { &mut ends } else { &mut others } += 1;
            }
        }
    }
    assert!(ends > 100 && others > 500, "{ends} {others}");
}

#[test]
fn what_was_worked_out_by_hand() {
    let mut met = BTreeSet::new();
    for figure in fixed_parking() {
        let name = figure.name;
        assert_eq!(check_figure(REFERENCE, &figure), Ok(()), "{name}");
        met.insert(figure.number);
        // The slow judge says the same where all short tours tell.
        let plan = read(&figure.file).unwrap();
        if plan.labels.len() <= 3 {
            let kept = (figure.number == 0).then_some(figure.kept);
            assert_eq!(all_short_tours(&plan, 1_000, 7).kept, kept, "{name}");
        }
    }
    assert_eq!(met, BTreeSet::from([0, 6]));
    let names: BTreeSet<&str> = fixed_parking().iter().map(|figure| figure.name).collect();
    assert_eq!(names.len(), fixed_parking().len());
}

/// Number, cost and kept by the reference.
fn answer(plan: &Plan) -> (u32, u32, u8) {
    let (mut block, mut run_in, mut cycle) = ([0; 16], [0; 2_048], [0; 20_480]);
    let number = plan_tour(plan.text().as_bytes(), &mut block, &mut run_in, &mut cycle);
    let cost = u32::from_le_bytes(block[8..12].try_into().unwrap());
    (number, cost, block[1])
}

#[test]
fn the_note_s_own_case() {
    let case_6 = x_with(&[]);
    assert_eq!(answer(&case_6), (0, 3, 2));
    let figure = figures().into_iter().find(|figure| figure.name == "6");
    assert_eq!(figure.unwrap().file, case_6.text().into_bytes());
    // The plan that must drive to its end and park there.
    assert_eq!(answer(&dead_end(again(0), Vec::new())), (0, 0, 0));
    let (tour, _) = best_tour(&dead_end(again(0), Vec::new())).unwrap();
    let driven = [&tour.run_in[..], &tour.cycle].concat();
    assert_eq!(driven[0], 0);
    assert!(driven[1..].iter().all(|&place| place == 1));
    // With any road out it may not.
    for back in [0, 2] {
        let plan = Plan {
            labels: vec![0, 1, 0],
            roads: vec![(0, 1), (1, back)],
            ..dead_end(settle(0), Vec::new())
        };
        assert_eq!(answer(&plan).0, 6);
    }
}

/// The best of all tours of few places, by the words of 01 and the note.
fn best_by_the_words(plan: &Plan) -> Option<(u32, u8)> {
    let with_roads = spelled_out(plan);
    let places: Vec<u8> = (0..plan.labels.len() as u8).collect();
    let cycles = every_list(&places, 4);
    let mut best: Option<u8> = None;
    for run_in in every_list(&places, 2) {
        for cycle in &cycles {
            let walk = [&run_in[..], cycle].concat();
            let closing = cycle.last().zip(cycle.first());
            let is_tour = walk.first() == Some(&plan.start)
                && walk
                    .windows(2)
                    .all(|pair| joined_by_the_words(plan, pair[0], pair[1]))
                && closing.is_some_and(|(&last, &first)| joined_by_the_words(plan, last, first));
            let verdict = judge(&with_roads, &run_in, cycle);
            assert_eq!(verdict.is_tour, is_tour);
            if is_tour && verdict.hard && best.is_none_or(|held| plan.better(verdict.kept, held)) {
                best = Some(verdict.kept);
            }
        }
    }
    best.map(|kept| (plan.cost(kept), kept))
}

/// Every map of two places and every seventh of three, under several hard rules.
#[test]
fn every_small_map() {
    let (mut tours, mut parked, mut none) = (0, 0, 0);
    for (places, every) in [(2, 1), (3, 7)] {
        let all = all_roads(places);
        for set in (0..1u32 << all.len()).step_by(every) {
            let roads = (0..all.len()).filter(|i| set >> i & 1 == 1);
            let roads: Vec<Road> = roads.map(|i| all[i]).collect();
            for hard in [always(), again(1), settle(0), never(0)] {
                let start = (set as usize % places) as u8;
                let plan = Plan {
                    labels: x().labels[..places].to_vec(),
                    roads: roads.clone(),
                    start,
                    hard,
                    ..x()
                };
                let told = match best_by_the_words(&plan) {
                    Some((cost, kept)) => (0, cost, kept),
                    None => (6, 0, 0),
                };
                assert_eq!(answer(&plan), told, "{plan:?}");
                match best_tour(&plan) {
                    Some((tour, _)) if plan.parks(tour.cycle[0]) => parked += 1,
                    Some(_) => tours += 1,
                    None => none += 1,
                }
            }
        }
    }
    assert!(
        tours > 100 && parked > 50 && none > 50,
        "{tours} {parked} {none}"
    );
}

/// A dead end is as a place with a road to itself and no other: the answer is the
/// same, places and all, and so is what the checker tells of any lists.
#[test]
fn a_dead_end_is_as_a_place_with_a_road_to_itself() {
    let (mut with_ends, mut lists) = (0, 0);
    for (number, plan) in (0..).zip(plans(2_000)) {
        let other = spelled_out(&plan);
        assert_eq!(other.dead_ends(), 0);
        if other.roads.len() > MAX_ROADS as usize {
            continue;
        }
        with_ends += (plan != other) as usize;
        assert_eq!(best_tour(&plan), best_tour(&other));
        let mut random = Random::new(number);
        let ways = Ways::of(&plan);
        let walk = ways.walk(&mut random, 9);
        let [file, other_file] = [&plan, &other].map(|plan| plan.text().into_bytes());
        let mut drawn = parked(&ways, &mut random);
        drawn.push(parked_nowhere(&ways, &walk, &mut random));
        if let Some(tour) = ways.closed(&walk, &mut random) {
            drawn.extend(wrongly_parked(&ways, &tour, &mut random));
        }
        for drawn in drawn {
            let told = check(&file, &drawn.run_in, &drawn.cycle);
            assert_eq!(told, check(&other_file, &drawn.run_in, &drawn.cycle));
            match drawn.known {
                Known::Tour => assert!(told.is_ok()),
                Known::BreaksAt(index) => assert_eq!(told, Err(Refusal::Broken { index })),
                Known::Nothing => {}
            }
            lists += 1;
        }
    }
    assert!(with_ends > 300 && lists > 2_000, "{with_ends} {lists}");
}

/// Parking adds tours and takes none: whoever had a tour has one as good or a
/// better one, and a plan without a dead end has the same steps as before.
#[test]
fn what_was_a_tour_is_one() {
    let (mut same, mut given, mut better) = (0, 0, 0);
    for plan in plans(3_000) {
        let before = best_tour_over(&plan, plan.roads.iter().copied());
        let now = best_tour(&plan);
        if plan.dead_ends() == 0 {
            assert!(plan.steps().eq(plan.roads.iter().copied()));
            assert_eq!(before, now);
            same += 1;
            continue;
        }
        match (before, now) {
            (Some((tour, before)), Some((_, now))) => {
                assert!(!plan.better(before, now));
                better += plan.better(now, before) as usize;
                assert!(judge(&plan, &tour.run_in, &tour.cycle).is_tour);
            }
            (None, Some((tour, _))) => {
                assert!(plan.parks(tour.cycle[0]));
                given += 1;
            }
            (before, now) => assert_eq!(before, now),
        }
    }
    assert!(
        same > 500 && given > 50 && better > 10,
        "{same} {given} {better}"
    );
}

/// Once a tour is at a dead end it stays there, so its loop is that place alone.
#[test]
fn a_parked_car_stays() {
    let mut tried = 0;
    for plan in plans(1_500) {
        if let Some((tour, _)) = best_tour(&plan) {
            let walk = [&tour.run_in[..], &tour.cycle].concat();
            if let Some(at) = walk.iter().position(|&place| plan.parks(place)) {
                assert!(walk[at..].iter().all(|&place| place == walk[at]));
                assert!(tour.cycle.iter().all(|&place| place == walk[at]));
                tried += 1;
            }
        }
    }
    assert!(tried > 100, "{tried}");
}

#[test]
fn where_a_stay_breaks_a_tour() {
    let plan = Plan {
        labels: vec![0, 1, 0],
        roads: vec![(0, 1), (1, 0), (1, 2)],
        ..dead_end(always(), vec![soft(1, again(0))])
    };
    let file = plan.text().into_bytes();
    let told = |run_in: &[u8], cycle: &[u8]| check(&file, run_in, cycle);
    let at = |index| Err(Refusal::Broken { index });
    let parked = Ok(Worth {
        accepted: true,
        cost: 1,
        kept: 0,
    });
    assert_eq!(told(&[0, 1], &[2]), parked);
    assert_eq!(told(&[0, 1, 2], &[2]), parked);
    assert_eq!(told(&[0, 1, 0, 1, 2, 2, 2], &[2, 2]), parked);
    assert_eq!(told(&[0, 0], &[1, 0]), at(1));
    assert_eq!(told(&[0, 1, 1], &[2]), at(2));
    assert_eq!(told(&[0, 1], &[1, 2]), at(2));
    assert_eq!(told(&[], &[0, 1, 1]), at(2));
    assert_eq!(told(&[0], &[1]), at(2));
    assert_eq!(told(&[0, 1, 0], &[1, 0, 1]), at(6));
    assert_eq!(told(&[0, 1, 2], &[2, 0]), at(4));
    assert_eq!(told(&[0, 1], &[2, 2, 1]), at(4));
    assert_eq!(told(&[0], &[1, 2, 2]), at(4));
    assert_eq!(told(&[0, 1, 2], &[]), at(3));
    assert_eq!(told(&[0, 1, 3], &[3, 3]), at(2));
    assert_eq!(told(&[0, 1, 2, 3], &[3]), at(3));
    assert_eq!(told(&[], &[200, 200]), at(0));
}

#[test]
fn walks_and_ways() {
    let ways = Ways::of(&x_with(&[(0, 1), (0, 2)]));
    assert_eq!(ways.dead_ends_reached(), [1, 2]);
    assert_eq!(ways.way_to(2), Some(vec![0, 2]));
    assert_eq!(ways.way_to(0), Some(vec![0]));
    let walk = ways.walk(&mut Random::new(1), 5);
    assert_eq!(walk.len(), 5);
    assert!(walk[1..]
        .iter()
        .all(|&place| place == walk[1] && place != 0));
    let ways = Ways::of(&x_with(&[(0, 0), (1, 2)]));
    assert_eq!(ways.dead_ends_reached(), [0u8; 0]);
    assert_eq!(ways.way_to(2), None);
    let ways = Ways::of(&x_with(&[(1, 2), (2, 1)]));
    assert_eq!(ways.dead_ends_reached(), [0]);
}

/// What is drawn is what its kind says, by the causes of note 4.
#[test]
fn what_is_drawn() {
    let mut random = Random::new(2);
    let (mut tours, mut broken) = (0, 0);
    for plan in plans(600) {
        let ways = Ways::of(&plan);
        let walk = ways.walk(&mut random, 8);
        let mut all = parked(&ways, &mut random);
        all.push(parked_nowhere(&ways, &walk, &mut random));
        if let Some(tour) = ways.closed(&walk, &mut random) {
            all.extend(wrongly_parked(&ways, &tour, &mut random));
        }
        for drawn in all {
            let causes = causes(&plan, &drawn.run_in, &drawn.cycle);
            match causes.iter().map(|(index, _)| *index).min() {
                Some(index) => {
                    assert_eq!(drawn.known, Known::BreaksAt(index), "{drawn:?}");
                    broken += 1;
                }
                None => {
                    assert_eq!(drawn.known, Known::Tour, "{drawn:?}");
                    let end = drawn.cycle[0];
                    assert!(plan.parks(end) && drawn.cycle.iter().all(|&place| place == end));
                    tours += 1;
                }
            }
        }
    }
    assert!(tours > 100 && broken > 300, "{tours} {broken}");
}

/// The dead ends that some way leads to from the start.
fn reached(plan: &Plan) -> Vec<u8> {
    Ways::of(plan).dead_ends_reached()
}

#[test]
fn each_kind_is_what_its_name_says() {
    let names: BTreeSet<&str> = KINDS.iter().map(|kind| kind.name).collect();
    assert_eq!(names.len(), KINDS.len());
    for kind in &KINDS {
        let mut random = Random::new(14);
        let mut numbers = BTreeSet::new();
        let (mut parked, mut wanted) = (0, 0);
        for _ in 0..200 {
            let plan = kind.plan(&mut random);
            assert_eq!(
                read(plan.text().as_bytes()),
                Ok(plan.clone()),
                "{}",
                kind.name
            );
            assert!(plan.size() <= MAX_SIZE);
            let best = best_tour(&plan);
            let parks = best
                .as_ref()
                .is_some_and(|(tour, _)| plan.parks(tour.cycle[0]));
            parked += parks as usize;
            numbers.insert(if best.is_some() { 0 } else { 6 });
            let everywhere = (0..plan.labels.len() as u8).map(|place| (place, place));
            let other = best_tour_over(&plan, plan.steps().chain(everywhere));
            wanted += match (&best, other) {
                (Some((_, own)), Some((_, other))) => plan.better(other, *own) as usize,
                (None, Some(_)) => 1,
                _ => 0,
            };
            let ends = reached(&plan);
            match kind.name {
                "no roads" => assert!(plan.roads.is_empty()),
                "start without a road out" => {
                    assert!(plan.parks(plan.start) && !plan.roads.is_empty())
                }
                "parking alone accepted" => {
                    assert!(parks);
                    let driving = best_tour_over(&plan, plan.roads.iter().copied());
                    assert!(driving.is_none());
                }
                "dead end not reached" => {
                    assert!(plan.dead_ends() != 0);
                    assert!(plan.dead_ends().count_ones() as usize > ends.len());
                }
                "parking not accepted" => {
                    // Where it parks, if it does, is not the place that is barred.
                    let barred = |end: &&u8| plan.labels[**end as usize] == 1;
                    let end = ends.iter().find(barred).expect("it is reached");
                    assert!(best.is_none_or(|(tour, _)| tour.cycle[0] != *end));
                }
                "dead ends to choose from" => assert!(ends.len() >= 2),
                "start with a road out that should park" => assert!(!plan.parks(plan.start)),
                "rules that parking alone keeps" | "loops before a dead end" => {
                    assert!(!ends.is_empty())
                }
                "dead end far away" => {
                    assert!(plan.labels.len() > 64 && parks && ends.len() == 1)
                }
                "far away, with a road out" => assert!(plan.labels.len() > 64 && !parks),
                _ => {}
            }
        }
        let due: &[u32] = match kind.name {
            "parking alone accepted" | "rules that parking alone keeps" | "dead end far away" => {
                &[0]
            }
            _ => &[0, 6],
        };
        assert_eq!(Vec::from_iter(numbers), due, "{}", kind.name);
        let (least_parked, least_wanted) = match kind.name {
            "parking not accepted" => (0, 0),
            "far away, with a road out" => (0, 20),
            "dead end not reached" => (0, 0),
            "parking wanted where a road leads on" => (5, 100),
            "start with a road out that should park" => (5, 100),
            _ => (25, 0),
        };
        let told = format!("{}: {parked} {wanted}", kind.name);
        assert!(parked >= least_parked && wanted >= least_wanted, "{told}");
    }
}

#[test]
fn a_fourth_of_the_large_plans_gets_dead_ends_and_nothing_else() {
    let mut random = Random::new(15);
    let (mut changed, mut start) = (0, 0);
    for _ in 0..1_200 {
        random.word();
        let before = random.aside().word();
        let other = with_dead_ends(&random, x());
        assert_eq!(random.aside().word(), before);
        let kept = |road: &Road| other.roads.contains(road);
        let lost: Vec<Road> = x().roads.into_iter().filter(|road| !kept(road)).collect();
        assert!(lost.iter().all(|road| other.parks(road.0)));
        assert!(x().roads.into_iter().filter(kept).eq(other.roads.clone()));
        changed += (!lost.is_empty()) as usize;
        start += other.parks(other.start) as usize;
        assert_eq!(
            Plan {
                roads: x().roads,
                ..other
            },
            x()
        );
    }
    assert!((240..360).contains(&changed), "{changed}");
    assert!((80..changed).contains(&start), "{start}");
}

/// What other generators make has dead ends too, and what is timed has none
/// unless its shape says so.
#[test]
fn dead_ends_elsewhere() {
    type Maker = fn(&mut Random) -> Plan;
    let makers: [(&str, Maker); 3] = [("tiny", tiny), ("small", small), ("oversized", oversized)];
    for (name, make) in makers {
        let mut random = Random::new(16);
        let some = (0..200).filter(|_| make(&mut random).dead_ends() != 0);
        assert!(some.count() > 20, "{name}");
    }
    for shape in SHAPES {
        let with_ends = (0..9).filter(|&seed| {
            let plan = large(shape, MAX_SIZE, &mut Random::new(seed));
            plan.dead_ends() != 0
        });
        let may = [Shape::Wide, Shape::Rules, Shape::Fan, Shape::Beads].contains(&shape);
        assert!(may || with_ends.count() == 0, "{}", shape.name());
    }
    for load in loads() {
        let plan = read(&load.file).unwrap();
        let walk = [&load.run_in[..], &load.cycle].concat();
        assert!(
            walk.iter().all(|&place| !plan.parks(place)),
            "{}",
            load.name
        );
    }
}

#[test]
fn the_tally_tells_the_kinds_apart() {
    let due = || Parked::default().due().map(|(what, _)| what);
    let lacks = Tally::default().lacks();
    assert!(due().iter().all(|what| lacks.contains(what)));
    let names: BTreeSet<String> = due().into();
    assert_eq!(names.len(), due().len());

    let mut counted = Parked::default();
    let mut put = |change: &dyn Fn(&mut Parked)| {
        let before = counted.due().map(|(_, count)| count);
        change(&mut counted);
        let after = counted.due().map(|(_, count)| count);
        let changed = (0..after.len()).filter(|&i| after[i] != before[i]);
        changed.collect::<Vec<usize>>()
    };
    let nothing: Vec<usize> = Vec::new();
    // Plans.
    let mut plan = |plan: &Plan| put(&|counted| counted.plan(plan));
    assert_eq!(plan(&x()), nothing);
    assert_eq!(plan(&x_with(&[])), [0, 3]);
    assert_eq!(plan(&x_with(&[(1, 0), (2, 0)])), [1]);
    assert_eq!(plan(&x_with(&[(0, 1), (0, 2)])), [2]);
    assert_eq!(plan(&x_with(&[(0, 0), (1, 1)])), [3]);
    // Answers.
    let many = Plan {
        labels: vec![1; 128],
        roads: row(0, 128),
        ..two_places(vec![soft(1, always()); 3])
    };
    assert_eq!((many.size(), many.parks(127)), (1_024, true));
    let larger = Plan {
        soft: vec![soft(1, always()); 4],
        ..many.clone()
    };
    let mut tour = |plan: &Plan, cycle: &[u8]| put(&|counted| counted.tour(plan, cycle));
    assert_eq!(tour(&x(), &[0, 1]), nothing);
    assert_eq!(tour(&x_with(&[]), &[0]), [4]);
    assert_eq!(tour(&x_with(&[(0, 1)]), &[1, 1]), [5]);
    assert_eq!(tour(&many, &[127]), [5, 7]);
    assert_eq!(tour(&larger, &[127]), [5, 6, 7]);
    assert_eq!(tour(&x_with(&[(0, 0), (0, 1)]), &[0]), [8]);
    assert_eq!(tour(&x_with(&[(0, 0), (1, 1)]), &[0]), nothing);
    let mut none = |plan: &Plan| put(&|counted| counted.no_tour(plan));
    assert_eq!(none(&x_under(silent())), nothing);
    assert_eq!(none(&x_with(&[(0, 1)])), [9]);
    assert_eq!(none(&x_with(&[(0, 0)])), [10]);
    let mut best = |plan: &Plan| {
        let kept = best_tour(plan).map(|(_, kept)| kept);
        put(&|counted| counted.best(plan, kept))
    };
    assert_eq!(best(&x()), nothing);
    assert_eq!(best(&x_with(&[])), [11]);
    assert_eq!(best(&x_with(&[(0, 2), (2, 0), (0, 1)])), [12]);
    assert_eq!(best(&x_under(settle(0))), [13]);
    let staying = vec![soft(1, once(0)), soft(1, settle(0))];
    let staying = Plan {
        soft: staying,
        ..x()
    };
    assert_eq!(best(&staying), [14]);
    // Proposed tours.
    let end = dead_end(always(), Vec::new());
    let mut drawn = |run_in: &[u8], cycle: &[u8], accepted| {
        put(&|counted| counted.drawn(&end, run_in, cycle, accepted))
    };
    assert_eq!(drawn(&[0], &[1], true), [15]);
    assert_eq!(drawn(&[0, 1], &[1], true), [16]);
    assert_eq!(drawn(&[0], &[1, 1], false), [15, 17]);
    let mut broken = |plan: &Plan, run_in: &[u8], cycle: &[u8], index| {
        let file = plan.text().into_bytes();
        assert_eq!(check(&file, run_in, cycle), Err(Refusal::Broken { index }));
        put(&|counted| counted.broken(plan, run_in, cycle, index))
    };
    assert_eq!(broken(&x(), &[0, 0], &[1, 0], 1), [18]);
    assert_eq!(broken(&x(), &[0], &[0, 1], 1), [19]);
    assert_eq!(broken(&x(), &[], &[0, 0, 1], 1), [20]);
    assert_eq!(broken(&x(), &[0], &[1, 0, 0], 3), [20]);
    assert_eq!(broken(&x(), &[0], &[1], 2), [21]);
    assert_eq!(broken(&x(), &[], &[0, 1, 0], 3), [21]);
    assert_eq!(broken(&end, &[0, 1], &[0], 2), [22]);
    assert_eq!(broken(&end, &[], &[0, 1], 2), [22]);
    assert_eq!(broken(&end, &[0], &[2], 1), [23]);
    assert_eq!(broken(&end, &[0, 2], &[2, 3], 1), [23]);
    assert_eq!(broken(&end, &[0, 2, 2], &[], 1), [23]);
    assert_eq!(broken(&end, &[], &[2, 2], 0), [23]);
    assert_eq!(broken(&end, &[0, 2], &[], 1), nothing);
    assert_eq!(broken(&end, &[0, 2], &[3], 1), nothing);
    assert_eq!(broken(&end, &[0, 1, 1], &[], 3), nothing);
    assert_eq!(broken(&end, &[], &[], 0), nothing);
    assert_eq!(broken(&end, &[1], &[1], 0), nothing);
    assert_eq!(broken(&x(), &[0, 1], &[2, 0], 2), nothing);
    assert_eq!(broken(&x(), &[0], &[1, 0, 2], 4), nothing);
    assert!(counted.due().iter().all(|(_, count)| *count > 0));
}

/// A few hundred cases bring each of these several times.
#[test]
fn some_cases_bring_all_that_is_due() {
    let mut tally = Tally::default();
    let lacking = |tally: &Tally| tally.parked.due().iter().any(|(_, count)| *count < 3);
    let mut number = 0;
    while lacking(&tally) && number < 1_000 {
        let (case, mut random) = case(number);
        harness::check(REFERENCE, &case, &mut random, &mut tally).unwrap();
        check_chance_tours(REFERENCE, &case, &mut random, &mut tally).unwrap();
        number += 1;
    }
    assert!(!lacking(&tally), "{}", tally.parked);
}

/// Refusal 6 is given less often, and still often enough.
#[test]
fn the_share_of_plans_without_a_tour() {
    let (mut all, mut none, mut before) = (0, 0, 0);
    for plan in plans(4_000) {
        all += 1;
        none += best_tour(&plan).is_none() as usize;
        before += best_tour_over(&plan, plan.roads.iter().copied()).is_none() as usize;
    }
    assert!(
        none > all / 5 && before > none + all / 20,
        "{all} {none} {before}"
    );
}

/// The figures are files that a plan's text gives back, with dead ends or what is
/// to be told from them.
#[test]
fn the_fixed_plans_are_plans() {
    for Figure { name, file, .. } in fixed_parking() {
        let plan = read(&file).unwrap();
        assert_eq!(plan.text().into_bytes(), file, "{name}");
        assert_eq!(once_each(plan.roads.clone()), plan.roads, "{name}");
        assert!(check_figure_in_bare_memory(&file), "{name}");
    }
}

fn check_figure_in_bare_memory(file: &[u8]) -> bool {
    let case = Case::new("bare", file.to_vec()).bare();
    harness::check_once(REFERENCE, &case, &mut Tally::default()).is_ok()
}
