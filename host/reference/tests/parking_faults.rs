//! The comparison has teeth for dead ends (02, note 7) too: planners and checkers
//! that park where they should not, or do not where they should, are found out by
//! the fixed cases, and by the generated ones alone.

use reference::acceptance::Drive;
use reference::cases::{case, Case};
use reference::checker::{check, tell, Worth};
use reference::checking::{check_by_hand, check_chance_tours, check_every_list};
use reference::entry::{plan_by, plan_tour};
use reference::figures::figures;
use reference::fixed_parking::fixed_parking;
use reference::harness::{self, check_figure};
use reference::library::{Library, PlanTour, REFERENCE};
use reference::plan::{Plan, Road};
use reference::planner::{best_tour, best_tour_over, Tour};
use reference::reader::{read, Refusal};
use reference::sketches::{by_hand, small_maps, SmallMap};
use reference::tally::Tally;
use reference::tour::judge;
use reference::walks::Ways;
use std::sync::OnceLock;

/// The name of the first figure to which the harness objects.
fn planner_found_out(library: Library) -> Option<&'static str> {
    let mut all = figures().into_iter().chain(fixed_parking());
    let found = all.find(|figure| check_figure(library, figure).is_err());
    found.map(|figure| figure.name)
}

/// The number of the first of 2,000 cases in which the harness objects.
fn planner_found_out_by_chance(library: Library) -> Option<u64> {
    let mut tally = Tally::default();
    (0..2_000)
        .filter(|number| number % 16 != 14)
        .find(|&number| {
            let (case, mut random) = case(number);
            harness::check(library, &case, &mut random, &mut tally).is_err()
        })
}

/// The name of the first fixed tour or map to which the harness objects.
fn checker_found_out(library: Library) -> Option<&'static str> {
    static MAPS: OnceLock<Vec<(Case, SmallMap)>> = OnceLock::new();
    let maps = MAPS.get_or_init(|| {
        let case = |map: &SmallMap| Case::new(map.name, map.plan.text().into_bytes());
        let maps = small_maps().into_iter();
        maps.map(|map| (case(&map), map)).collect()
    });
    let mut hands = by_hand().into_iter();
    if let Some(hand) = hands.find(|hand| check_by_hand(library, hand).is_err()) {
        return Some(hand.name);
    }
    let mut tally = Tally::default();
    let mut maps = maps.iter();
    let found = maps.find(|(case, map)| check_every_list(library, case, map, &mut tally).is_err());
    found.map(|(_, map)| map.name)
}

/// The number of the first of 1,000 cases to whose tours the harness objects.
fn checker_found_out_by_chance(library: Library) -> Option<u64> {
    let mut tally = Tally::default();
    (0..1_000)
        .filter(|number| number % 16 != 14)
        .find(|&number| {
            let (case, mut random) = case(number);
            check_chance_tours(library, &case, &mut random, &mut tally).is_err()
        })
}

fn with_planner(plan_tour: PlanTour) -> Library {
    Library {
        plan_tour,
        ..REFERENCE
    }
}

#[test]
fn the_reference_is_not_found_out() {
    assert_eq!(planner_found_out(REFERENCE), None);
    assert_eq!(planner_found_out_by_chance(REFERENCE), None);
    assert_eq!(checker_found_out(REFERENCE), None);
    assert_eq!(checker_found_out_by_chance(REFERENCE), None);
}

/// What these lists are worth, whether or not they are a tour.
fn worth_of(plan: &Plan, run_in: &[u8], cycle: &[u8]) -> Worth {
    let drive = Drive::new(plan, run_in, cycle);
    let soft = plan.soft.iter().enumerate();
    let kept = soft.fold(0, |kept, (i, soft)| {
        kept | (drive.accepted_by(&soft.rule) as u8) << i
    });
    Worth {
        accepted: drive.accepted_by(&plan.hard),
        cost: plan.cost(kept),
        kept,
    }
}

/// Where a step of a proposed tour stands.
#[derive(Clone, Copy, PartialEq, Eq)]
enum Part {
    RunIn,
    ToLoop,
    Loop,
    Closing,
}

/// One step of a proposed tour.
#[derive(Clone, Copy)]
struct Step {
    part: Part,
    from: u8,
    to: u8,
    /// How many steps in a row before this one were stays.
    stays: usize,
}

impl Step {
    fn stays(&self) -> bool {
        self.from == self.to
    }
}

/// What a checker tells that asks `joined` at each step.
fn told_by(
    (file, run_in, cycle): (&[u8], &[u8], &[u8]),
    joined: impl Fn(&Plan, Step) -> bool,
) -> Result<Worth, Refusal> {
    let plan = read(file)?;
    let broken = |index: usize| {
        Err(Refusal::Broken {
            index: index as u64,
        })
    };
    let walk = [run_in, cycle].concat();
    if walk.first() != Some(&plan.start) {
        return broken(0);
    }
    let before = run_in.len();
    let mut stays = 0;
    for index in 1..=walk.len() {
        if cycle.is_empty() && index == before {
            return broken(before);
        }
        let (part, to) = match index {
            _ if index == walk.len() => (Part::Closing, cycle[0]),
            _ if index < before => (Part::RunIn, walk[index]),
            _ if index == before => (Part::ToLoop, walk[index]),
            _ => (Part::Loop, walk[index]),
        };
        let from = walk[index - 1];
        let step = Step {
            part,
            from,
            to,
            stays,
        };
        if !joined(&plan, step) {
            return broken(index);
        }
        stays = if step.stays() { stays + 1 } else { 0 };
    }
    Ok(worth_of(&plan, run_in, cycle))
}

/// Each dead end with itself, if it is one to this reader.
fn parking(plan: &Plan, parks: impl Fn(u8) -> bool) -> Vec<Road> {
    let places = (0..plan.labels.len() as u8).filter(|&place| parks(place));
    let parked = places.map(|place| (place, place));
    plan.roads.iter().copied().chain(parked).collect()
}

fn leaves(plan: &Plan, place: u8) -> bool {
    plan.roads.iter().any(|&(from, _)| from == place)
}

fn enters(plan: &Plan, place: u8) -> bool {
    plan.roads.iter().any(|&(_, to)| to == place)
}

/// The steps in the place of the plan's, and a place that the tour goes to next
/// from each dead end.
fn onward(plan: &Plan, to: impl Fn(u8) -> Vec<u8>) -> Vec<Road> {
    let places = (0..plan.labels.len() as u8).filter(|&place| plan.parks(place));
    let from_ends = places.flat_map(|end| to(end).into_iter().map(move |to| (end, to)));
    plan.roads.iter().copied().chain(from_ends).collect()
}

/// Makes tests that a planner and a checker with these steps are found out.
macro_rules! steps_fault {
    ($name:ident, $steps:expr) => {
        steps_fault!($name, $steps, checker_found_out);
    };
    ($name:ident, $steps:expr, $by_fixed_tours:expr) => {
        mod $name {
            use super::*;

            const STEPS: fn(&Plan) -> Vec<Road> = $steps;

            #[test]
            fn planner() {
                let faulty = with_planner(|file, answer, run_in, cycle| {
                    let best = |plan: &Plan| best_tour_over(plan, STEPS(plan).into_iter());
                    plan_by((read, best), file, answer, run_in, cycle)
                });
                assert!(planner_found_out(faulty).is_some());
                assert!(planner_found_out_by_chance(faulty).is_some());
            }

            #[test]
            fn checker() {
                let faulty = Library {
                    check_tour: |file, run_in, cycle, block| {
                        let joined =
                            |plan: &Plan, step: Step| STEPS(plan).contains(&(step.from, step.to));
                        tell(told_by((file, run_in, cycle), joined), block)
                    },
                    ..REFERENCE
                };
                assert!($by_fixed_tours(faulty).is_some());
                assert!(checker_found_out_by_chance(faulty).is_some());
            }
        }
    };
}

steps_fault!(never_parks, |plan| plan.roads.clone());

steps_fault!(parks_everywhere, |plan| parking(plan, |_| true));

steps_fault!(parks_at_the_start_alone, |plan| {
    parking(plan, |place| plan.parks(place) && place == plan.start)
});

steps_fault!(never_parks_at_the_start, |plan| {
    parking(plan, |place| plan.parks(place) && place != plan.start)
});

steps_fault!(parks_at_the_start_whatever_leaves_it, |plan| {
    parking(plan, |place| plan.parks(place) || place == plan.start)
});

steps_fault!(looks_at_the_first_road_alone, |plan| {
    let first = plan.roads.first().copied();
    parking(plan, |place| first.is_none_or(|(from, _)| from != place))
});

steps_fault!(looks_at_the_last_road_alone, |plan| {
    let last = plan.roads.last().copied();
    parking(plan, |place| last.is_none_or(|(from, _)| from != place))
});

steps_fault!(overlooks_the_first_road, |plan| {
    let others = plan.roads.get(1..).unwrap_or(&[]);
    parking(plan, |place| others.iter().all(|road| road.0 != place))
});

steps_fault!(overlooks_the_last_road, |plan| {
    let others = plan
        .roads
        .split_last()
        .map_or(&[][..], |(_, others)| others);
    parking(plan, |place| others.iter().all(|road| road.0 != place))
});

steps_fault!(parks_where_no_road_leads_to, |plan| {
    parking(plan, |place| !enters(plan, place))
});

steps_fault!(parks_where_no_road_leads_from_or_to, |plan| {
    parking(plan, |place| !leaves(plan, place) && !enters(plan, place))
});

steps_fault!(parks_only_where_a_road_leads_to, |plan| {
    parking(plan, |place| plan.parks(place) && enters(plan, place))
});

steps_fault!(parks_in_a_plan_without_roads_alone, |plan| {
    parking(plan, |_| plan.roads.is_empty())
});

steps_fault!(never_parks_in_a_plan_without_roads, |plan| {
    parking(plan, |place| plan.parks(place) && !plan.roads.is_empty())
});

steps_fault!(parks_where_one_road_leads_out, |plan| {
    let out = |place: u8| plan.roads.iter().filter(|road| road.0 == place).count();
    parking(plan, |place| out(place) <= 1)
});

steps_fault!(parks_where_every_road_leads_back, |plan| {
    parking(plan, |place| {
        let back = |&(_, to): &Road| plan.roads.contains(&(to, place));
        let mut out = plan.roads.iter().filter(|road| road.0 == place);
        out.all(back)
    })
});

steps_fault!(parks_where_every_road_leads_to_a_dead_end, |plan| {
    parking(plan, |place| {
        let mut out = plan.roads.iter().filter(|road| road.0 == place);
        out.all(|&(_, to)| plan.parks(to))
    })
});

steps_fault!(parks_where_no_road_leads_to_a_higher_number, |plan| {
    parking(plan, |place| {
        !plan
            .roads
            .iter()
            .any(|road| road.0 == place && road.1 > place)
    })
});

steps_fault!(never_parks_at_place_0, |plan| {
    parking(plan, |place| plan.parks(place) && place != 0)
});

steps_fault!(never_parks_at_the_last_number, |plan| {
    let last = plan.labels.len() as u8 - 1;
    parking(plan, |place| plan.parks(place) && place != last)
});

steps_fault!(parks_at_the_last_number_whatever_leaves_it, |plan| {
    let last = plan.labels.len() as u8 - 1;
    parking(plan, |place| plan.parks(place) || place == last)
});

steps_fault!(parks_at_the_first_dead_end_alone, |plan| {
    let first = plan.dead_ends().trailing_zeros();
    parking(plan, |place| place as u32 == first)
});

steps_fault!(parks_at_the_last_dead_end_alone, |plan| {
    let bits = plan.dead_ends();
    parking(plan, |place| bits >> place == 1)
});

steps_fault!(leads_from_a_dead_end_to_the_start, |plan| {
    onward(plan, |_| vec![plan.start])
});

steps_fault!(leads_from_a_dead_end_to_itself_and_the_start, |plan| {
    onward(plan, |end| vec![end, plan.start])
});

steps_fault!(turns_round_at_a_dead_end, |plan| {
    onward(plan, |end| {
        let back = plan.roads.iter().filter(|road| road.1 == end);
        back.map(|road| road.0).collect()
    })
});

steps_fault!(parks_or_turns_round_at_a_dead_end, |plan| {
    onward(plan, |end| {
        let back = plan.roads.iter().filter(|road| road.1 == end);
        back.map(|road| road.0).chain([end]).collect()
    })
});

steps_fault!(leads_from_a_dead_end_to_every_place, |plan| {
    onward(plan, |_| (0..plan.labels.len() as u8).collect())
});

/// No fixed tour is of a plan with so many places.
fn not_by_fixed_tours(_: Library) -> Option<&'static str> {
    Some("by the generated ones alone")
}

steps_fault!(
    mixes_up_places_64_apart,
    |plan| parking(plan, |place| {
        !plan.roads.iter().any(|road| road.0 % 64 == place % 64)
    }),
    not_by_fixed_tours
);

steps_fault!(
    never_parks_from_place_64_on,
    |plan| parking(plan, |place| plan.parks(place) && place < 64),
    not_by_fixed_tours
);

steps_fault!(
    parks_from_place_64_on_whatever_leaves_it,
    |plan| parking(plan, |place| plan.parks(place) || place >= 64),
    not_by_fixed_tours
);

/// Makes a test that a planner is found out.
macro_rules! planner_fault {
    ($name:ident, $best:expr) => {
        #[test]
        fn $name() {
            let faulty = with_planner(|file, answer, run_in, cycle| {
                let best: fn(&Plan) -> Option<(Tour, u8)> = $best;
                plan_by((read, best), file, answer, run_in, cycle)
            });
            assert!(planner_found_out(faulty).is_some());
            assert!(planner_found_out_by_chance(faulty).is_some());
        }
    };
}

/// The tours that drive to a dead end and park there at once, with their worth.
fn tours_that_park(plan: &Plan) -> Vec<(Tour, Worth)> {
    let ways = Ways::of(plan);
    let park = |end: u8| {
        let mut run_in = ways.way_to(end)?;
        run_in.pop();
        let cycle = vec![end];
        let worth = worth_of(plan, &run_in, &cycle);
        Some((Tour { run_in, cycle }, worth))
    };
    let ends = ways.dead_ends_reached().into_iter();
    ends.filter_map(park).collect()
}

planner_fault!(parks_if_nothing_else_is_accepted, |plan| {
    best_tour_over(plan, plan.roads.iter().copied()).or_else(|| best_tour(plan))
});

planner_fault!(parks_wherever_it_can, |plan| {
    let parked = tours_that_park(plan).into_iter();
    let mut accepted = parked.filter(|(_, worth)| worth.accepted);
    let first = accepted.next().map(|(tour, worth)| (tour, worth.kept));
    first.or_else(|| best_tour(plan))
});

planner_fault!(accepts_whatever_parks, |plan| {
    let parked = tours_that_park(plan).into_iter();
    let any = parked.map(|(tour, worth)| (tour, worth.kept)).next();
    best_tour(plan).or(any)
});

/// The plan with a place behind each dead end that has no mark and stays where it
/// is, and by number the dead end that such a place stands for.
fn with_shadows(plan: &Plan) -> (Plan, Vec<u8>) {
    let mut other = plan.clone();
    let mut stands_for: Vec<u8> = (0..plan.labels.len() as u8).collect();
    for end in 0..plan.labels.len() as u8 {
        if plan.parks(end) && other.labels.len() < 128 {
            let shadow = other.labels.len() as u8;
            other.labels.push(0);
            stands_for.push(end);
            other.roads.extend([(end, shadow), (shadow, shadow)]);
        }
    }
    (other, stands_for)
}

planner_fault!(reads_the_label_of_a_parked_car_once, |plan| {
    let (other, stands_for) = with_shadows(plan);
    let (mut tour, _) = best_tour(&other)?;
    for place in tour.run_in.iter_mut().chain(&mut tour.cycle) {
        *place = stands_for[*place as usize];
    }
    // It tells the truth of the tour; whether that is the best is another matter.
    let verdict = judge(plan, &tour.run_in, &tour.cycle);
    match verdict.hard {
        true => Some((tour, verdict.kept)),
        false => best_tour(plan),
    }
});

planner_fault!(claims_to_keep_all_once_parked, |plan| {
    let (tour, kept) = best_tour(plan)?;
    match plan.parks(tour.cycle[0]) {
        true => Some((tour, (1u16 << plan.soft.len()).wrapping_sub(1) as u8)),
        false => Some((tour, kept)),
    }
});

planner_fault!(claims_to_keep_nothing_once_parked, |plan| {
    let (tour, kept) = best_tour(plan)?;
    match plan.parks(tour.cycle[0]) {
        true => Some((tour, 0)),
        false => Some((tour, kept)),
    }
});

planner_fault!(gives_no_loop_to_a_parked_car, |plan| {
    let (mut tour, kept) = best_tour(plan)?;
    if plan.parks(tour.cycle[0]) && (tour.run_in.len() as u64) < plan.size() {
        tour.run_in.push(tour.cycle[0]);
        tour.cycle.clear();
    }
    Some((tour, kept))
});

planner_fault!(parks_at_the_first_place_of_its_way, |plan| {
    let (mut tour, kept) = best_tour(plan)?;
    if plan.parks(tour.cycle[0]) && !tour.run_in.is_empty() {
        tour.cycle = vec![tour.run_in[0]];
        tour.run_in.clear();
    }
    Some((tour, kept))
});

/// A tour may park for some steps in its run-in and in its loop: that is no fault.
#[test]
fn a_planner_may_park_early() {
    let other = with_planner(|file, answer, run_in, cycle| {
        let best = |plan: &Plan| {
            let (mut tour, kept) = best_tour(plan)?;
            let end = tour.cycle[0];
            if plan.parks(end) && (tour.run_in.len() as u64) < plan.size() {
                tour.run_in.push(end);
                tour.cycle = vec![end; 2];
            }
            Some((tour, kept))
        };
        plan_by((read, best), file, answer, run_in, cycle)
    });
    assert_eq!(planner_found_out(other), None);
    assert_eq!(planner_found_out_by_chance(other), None);
}

/// A planner that refuses a plan for a dead end, as soon as it sees one.
#[test]
fn refuses_a_plan_with_a_dead_end() {
    for number in [2, 3, 6] {
        let faulty: PlanTour = match number {
            2 => |file, answer, run_in, cycle| refuses(2, file, answer, run_in, cycle),
            3 => |file, answer, run_in, cycle| refuses(3, file, answer, run_in, cycle),
            _ => |file, answer, run_in, cycle| refuses(6, file, answer, run_in, cycle),
        };
        assert!(planner_found_out(with_planner(faulty)).is_some());
        assert!(planner_found_out_by_chance(with_planner(faulty)).is_some());
    }
}

fn refuses(number: u8, file: &[u8], answer: &mut [u8], run_in: &mut [u8], cycle: &mut [u8]) -> u32 {
    match read(file) {
        Ok(plan) if plan.dead_ends() != 0 && answer.len() >= 16 => {
            answer[..16].fill(0);
            answer[0] = number;
            number as u32
        }
        _ => plan_tour(file, answer, run_in, cycle),
    }
}

/// Makes a test that a checker is found out.
macro_rules! checker_fault {
    ($name:ident, $told:expr) => {
        #[test]
        fn $name() {
            let faulty = Library {
                check_tour: |file, run_in, cycle, block| {
                    let told: fn((&[u8], &[u8], &[u8])) -> Result<Worth, Refusal> = $told;
                    tell(told((file, run_in, cycle)), block)
                },
                ..REFERENCE
            };
            assert!(checker_found_out(faulty).is_some());
            assert!(checker_found_out_by_chance(faulty).is_some());
        }
    };
}

/// Parks at dead ends where the step has this property, and nowhere else.
macro_rules! parks_where {
    ($name:ident, $parks:expr) => {
        checker_fault!($name, |call| told_by(call, |plan, step| {
            let parks: fn(Step) -> bool = $parks;
            match step.stays() && plan.parks(step.from) {
                true => parks(step),
                false => plan.joined(step.from, step.to),
            }
        }));
    };
}

parks_where!(parks_in_the_loop_alone, |step| {
    [Part::Loop, Part::Closing].contains(&step.part)
});

parks_where!(parks_outside_the_run_in, |step| step.part != Part::RunIn);

parks_where!(parks_inside_the_lists_alone, |step| {
    [Part::RunIn, Part::Loop].contains(&step.part)
});

parks_where!(never_parks_in_the_loop, |step| step.part != Part::Loop);

parks_where!(parks_to_close_the_loop_alone, |step| {
    step.part == Part::Closing
});

parks_where!(never_parks_to_close_the_loop, |step| {
    step.part != Part::Closing
});

parks_where!(parks_in_the_run_in_alone, |step| {
    [Part::RunIn, Part::ToLoop].contains(&step.part)
});

parks_where!(parks_for_one_step_alone, |step| step.stays == 0);

/// Parks at every place of the map where the step has this property.
macro_rules! stays_where {
    ($name:ident, $stays:expr) => {
        checker_fault!($name, |call| told_by(call, |plan, step| {
            let stays: fn(Step) -> bool = $stays;
            let known = (step.from as usize) < plan.labels.len();
            plan.joined(step.from, step.to) || step.stays() && known && stays(step)
        }));
    };
}

stays_where!(stays_anywhere_in_the_run_in, |step| {
    step.part == Part::RunIn
});

stays_where!(stays_anywhere_before_the_loop, |step| {
    step.part == Part::ToLoop
});

stays_where!(stays_anywhere_in_the_loop, |step| step.part == Part::Loop);

stays_where!(stays_anywhere_to_close_the_loop, |step| {
    step.part == Part::Closing
});

stays_where!(stays_anywhere_for_one_step, |step| step.stays == 0);

/// The index that breaks the tour, the places before it and at it, if these two
/// are the same.
fn wrong_stay(
    (file, run_in, cycle): (&[u8], &[u8], &[u8]),
    told: Result<Worth, Refusal>,
) -> Option<u64> {
    let Err(Refusal::Broken { index }) = told else {
        return None;
    };
    let plan = read(file).ok()?;
    let (walk, at) = ([run_in, cycle].concat(), index as usize);
    let to = *walk.get(at).or(cycle.first())?;
    let stays = at > 0 && walk[at - 1] == to && (to as usize) < plan.labels.len();
    stays.then_some(index)
}

fn broken(index: u64) -> Result<Worth, Refusal> {
    Err(Refusal::Broken { index })
}

checker_fault!(gives_the_earlier_index_of_a_wrong_stay, |call| {
    let told = check(call.0, call.1, call.2);
    match wrong_stay(call, told) {
        Some(index) => broken(index - 1),
        None => told,
    }
});

checker_fault!(gives_the_end_of_a_wrong_stay, |call| {
    let told = check(call.0, call.1, call.2);
    let walk = [call.1, call.2].concat();
    match wrong_stay(call, told) {
        Some(index) if (index as usize) < walk.len() => {
            let later = &walk[index as usize..];
            let stays = later.iter().take_while(|&&place| place == later[0]);
            broken(index + stays.count() as u64)
        }
        _ => told,
    }
});

checker_fault!(gives_the_total_length_for_a_wrong_stay, |call| {
    let told = check(call.0, call.1, call.2);
    match wrong_stay(call, told) {
        Some(_) => broken((call.1.len() + call.2.len()) as u64),
        None => told,
    }
});

checker_fault!(gives_the_last_index_of_a_number_that_is_no_place, |call| {
    let told = check(call.0, call.1, call.2);
    let (Err(Refusal::Broken { index }), Ok(plan)) = (told, read(call.0)) else {
        return told;
    };
    let walk = [call.1, call.2].concat();
    let later = walk.get(index as usize..).unwrap_or(&[]);
    match later.first() {
        Some(&first) if first as usize >= plan.labels.len() => {
            let stays = later.iter().take_while(|&&place| place == first);
            broken(index + stays.count() as u64 - 1)
        }
        _ => told,
    }
});

checker_fault!(refuses_a_parked_tour_with_6, |call| {
    let worth = check(call.0, call.1, call.2)?;
    match read(call.0)?.parks(call.2[0]) {
        true => Err(Refusal::NoTour),
        false => Ok(worth),
    }
});

/// Tells something else of a tour that parks.
fn parked_otherwise(
    (file, run_in, cycle): (&[u8], &[u8], &[u8]),
    other: impl Fn(&Plan, Worth) -> Worth,
) -> Result<Worth, Refusal> {
    let worth = check(file, run_in, cycle)?;
    let plan = read(file)?;
    Ok(match plan.parks(cycle[0]) {
        true => other(&plan, worth),
        false => worth,
    })
}

checker_fault!(accepts_whatever_parks_in_the_end, |call| {
    parked_otherwise(call, |_, worth| Worth {
        accepted: true,
        ..worth
    })
});

checker_fault!(accepts_nothing_that_parks, |call| {
    parked_otherwise(call, |_, worth| Worth {
        accepted: false,
        ..worth
    })
});

checker_fault!(charges_all_for_a_parked_tour, |call| {
    parked_otherwise(call, |plan, worth| Worth {
        cost: plan.cost(0),
        kept: 0,
        ..worth
    })
});

checker_fault!(charges_nothing_for_a_parked_tour, |call| {
    parked_otherwise(call, |_, worth| Worth { cost: 0, ..worth })
});

checker_fault!(reads_a_parked_label_once, |call| {
    let (run_in, cycle) = (call.1, call.2);
    parked_otherwise(call, |plan, worth| {
        let end = cycle[0];
        let shadow = plan.labels.len() as u8;
        if shadow == 128 {
            return worth;
        }
        let mut other = plan.clone();
        other.labels.push(0);
        let way = run_in.iter().copied().take_while(|&place| place != end);
        let way: Vec<u8> = way.chain([end]).collect();
        worth_of(&other, &way, &[shadow])
    })
});

/// Whoever parks at numbers that are no place cannot be told from one who does
/// not: the first such number breaks the tour, and its index is the least.
#[test]
fn parking_at_no_place_cannot_be_seen() {
    let other = Library {
        check_tour: |file, run_in, cycle, block| {
            let told = told_by((file, run_in, cycle), |plan, step| {
                let nowhere = step.from as usize >= plan.labels.len();
                plan.joined(step.from, step.to) || step.stays() && nowhere
            });
            tell(told, block)
        },
        ..REFERENCE
    };
    assert_eq!(checker_found_out(other), None);
    assert_eq!(checker_found_out_by_chance(other), None);
}
