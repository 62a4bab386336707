//! Dead ends, at which a car parks (02, note 7), and what may be taken for one,
//! for generated plans.

use crate::guards::{with_any, SAME};
use crate::handmade::one_place;
use crate::maps::{all_roads, once_each};
use crate::plan::{Automaton, Plan, Road, Soft};
use crate::random::Random;
use crate::rules::{
    again, always, answered, counter, go, never, once, rule, settle, soft_rules, some_rule, weighed,
};
use crate::watchers::with_watchers;

/// What is made, and how.
pub struct Kind {
    pub name: &'static str,
    make: fn(&mut Random) -> Plan,
}

pub const KINDS: [Kind; 14] = [
    kind("no roads", no_roads),
    kind("start without a road out", start_ends),
    kind("parking alone accepted", parking_alone),
    kind("dead end not reached", not_reached),
    kind("parking not accepted", not_accepted),
    kind("parking wanted where a road leads on", road_out),
    kind("start with a road out that should park", start_with_a_road),
    kind("rules that parking alone keeps", kept_by_parking),
    kind("dead ends to choose from", several),
    kind("roads from places to themselves", stays),
    kind("few roads", few_roads),
    kind("dead end far away", |random| far(random, false)),
    kind("far away, with a road out", |random| far(random, true)),
    kind("loops before a dead end", loops_before),
];

const fn kind(name: &'static str, make: fn(&mut Random) -> Plan) -> Kind {
    Kind { name, make }
}

impl Kind {
    /// A plan of this kind, its places numbered and its roads listed by chance.
    pub fn plan(&self, random: &mut Random) -> Plan {
        let plan = (self.make)(random);
        let plan = renumbered(random, plan);
        let plan = with_any(random, plan, SAME);
        with_watchers(random, plan)
    }
}

/// The mark that a place is wanted for, and another.
const WANTED: u8 = 0;
const OTHER: u8 = 1;

/// Makes some places of one of four plans dead ends, the start among them in one
/// of three of these. The chance for it is taken aside, so that nothing else in a
/// generated case depends on it, and more often than for other changes.
pub fn with_dead_ends(random: &Random, mut plan: Plan) -> Plan {
    let mut random = random.aside().aside().aside();
    if !random.once_in(4) {
        return plan;
    }
    for _ in 0..random.between(1, 4) {
        let place = match random.once_in(3) {
            true => plan.start,
            false => random.below(plan.labels.len()) as u8,
        };
        plan.roads.retain(|&(from, _)| from != place);
    }
    plan
}

/// The same map with its places numbered otherwise and its roads in another order.
fn renumbered(random: &mut Random, mut plan: Plan) -> Plan {
    let mut number: Vec<u8> = (0..plan.labels.len() as u8).collect();
    random.shuffle(&mut number);
    let old = plan.labels.clone();
    for (place, label) in old.into_iter().enumerate() {
        plan.labels[number[place] as usize] = label;
    }
    plan.start = number[plan.start as usize];
    for (from, to) in &mut plan.roads {
        *from = number[*from as usize];
        *to = number[*to as usize];
    }
    random.shuffle(&mut plan.roads);
    plan
}

/// Two marks, the start 0, and these places with these roads.
fn map(labels: Vec<u8>, roads: Vec<Road>, hard: Automaton, soft: Vec<Soft>) -> Plan {
    Plan {
        marks: 2,
        labels,
        roads: once_each(roads),
        ..one_place(hard, soft)
    }
}

/// So few places that all short tours are tried, as a rule.
fn count(random: &mut Random, least: usize) -> usize {
    match random.once_in(3) {
        true => random.between(least.max(4), 9),
        false => random.between(least, 3.max(least)),
    }
}

fn any_labels(random: &mut Random, places: usize) -> Vec<u8> {
    (0..places).map(|_| random.below(4) as u8).collect()
}

/// Labels without the wanted mark.
fn unwanted_labels(random: &mut Random, places: usize) -> Vec<u8> {
    let labels = any_labels(random, places).into_iter();
    labels.map(|label| label & !(1 << WANTED)).collect()
}

/// Roads among the places below `places`, one of so many of all that there can be.
fn some_roads(random: &mut Random, places: usize, one_in: usize) -> Vec<Road> {
    let mut roads = all_roads(places);
    roads.retain(|_| random.once_in(one_in));
    roads
}

fn some_soft(random: &mut Random) -> Vec<Soft> {
    let count = random.below(3);
    soft_rules(random, count, 2, 2)
}

/// A rule that asks for the wanted mark on and on, and once more by itself.
fn wanting(random: &mut Random) -> Automaton {
    match random.below(4) {
        0 => settle(WANTED),
        1 => counter(random.between(2, 3) as u8, WANTED),
        _ => again(WANTED),
    }
}

/// A hard rule for which it matters where a tour stays.
fn deciding(random: &mut Random) -> Automaton {
    let mark = random.below(2) as u8;
    match random.below(7) {
        0 => always(),
        1 => never(mark),
        2 => once(mark),
        3 => settle(mark),
        4 => answered(mark, 1 - mark),
        5 => some_rule(random, 3, 2),
        _ => again(mark),
    }
}

/// Every place is a dead end.
fn no_roads(random: &mut Random) -> Plan {
    let places = random.between(1, 4);
    let labels = any_labels(random, places);
    let (hard, soft) = (deciding(random), some_soft(random));
    map(labels, Vec::new(), hard, soft)
}

/// The start is a dead end; roads lead about the others, and to it.
fn start_ends(random: &mut Random) -> Plan {
    let places = count(random, 2);
    let mut roads = some_roads(random, places, 2);
    roads.push((places as u8 - 1, random.below(places) as u8));
    roads.retain(|&(from, _)| from != 0);
    let labels = any_labels(random, places);
    let (hard, soft) = (deciding(random), some_soft(random));
    map(labels, roads, hard, soft)
}

/// The wanted mark stands at the last place alone, which no road leaves; a way
/// leads to it, and roads about the others.
fn one_dead_end(random: &mut Random, least: usize) -> Plan {
    let places = count(random, least);
    let end = places as u8 - 1;
    let before = places - 1;
    let mut labels = unwanted_labels(random, before);
    labels.push(1 << WANTED | (random.below(2) as u8) << OTHER);
    let mut roads = some_roads(random, before, 3);
    // A way through some of them.
    let mut here = 0;
    for place in 1..before as u8 {
        if random.once_in(2) {
            roads.push((here, place));
            here = place;
        }
    }
    roads.push((here, end));
    map(labels, roads, always(), Vec::new())
}

fn parking_alone(random: &mut Random) -> Plan {
    let plan = one_dead_end(random, 2);
    Plan {
        hard: wanting(random),
        soft: some_soft(random),
        ..plan
    }
}

/// The dead end has the wanted mark, and no way leads to it: no road at all, or
/// from places alone that are not reached.
fn not_reached(random: &mut Random) -> Plan {
    let mut plan = one_dead_end(random, 2);
    let end = plan.labels.len() as u8 - 1;
    plan.roads.retain(|&(_, to)| to != end);
    if plan.labels.len() == 2 || random.once_in(2) {
        // The others come home.
        plan.roads.extend((0..end).map(|place| (place, 0)));
    } else {
        let beside = end - 1;
        plan.roads.retain(|&(_, to)| to != beside);
        plan.roads.push((beside, end));
        plan.roads.push((0, 0));
    }
    plan.roads = once_each(plan.roads);
    let (rule, soft) = (wanting(random), some_soft(random));
    if random.once_in(3) {
        let mut rules: Vec<Automaton> = soft.into_iter().map(|soft| soft.rule).collect();
        rules.push(rule);
        return Plan {
            soft: weighed(random, rules),
            ..plan
        };
    }
    Plan {
        hard: rule,
        soft,
        ..plan
    }
}

/// The dead end is reached, and the hard rule bars it; now and then nothing else
/// is left, and else a way leads round.
fn not_accepted(random: &mut Random) -> Plan {
    let mut plan = one_dead_end(random, 2);
    let places = plan.labels.len();
    let end = places as u8 - 1;
    plan.labels[places - 1] = 1 << WANTED;
    if random.once_in(2) && places > 2 {
        plan.roads.push((0, end - 1));
        plan.roads.push((end - 1, 0));
        plan.labels[places - 2] = 1 << OTHER;
    }
    plan.roads = once_each(plan.roads);
    plan.hard = match random.below(3) {
        0 => never(WANTED),
        1 => again(OTHER),
        // Comes to a stand where the mark comes twice in a row.
        _ => {
            let m = 1 << WANTED;
            rule(2, 3, vec![go(0, 0, m, 0), go(0, m, 0, 1), go(1, 0, m, 0)])
        }
    };
    plan.soft = some_soft(random);
    plan
}

/// The wanted mark stands at one place alone, which has a road out and none to
/// itself: to stay there is what a rule asks for, and what no tour does.
fn road_out(random: &mut Random) -> Plan {
    let mut plan = one_dead_end(random, 2);
    let end = plan.labels.len() as u8 - 1;
    // On to a place without the mark, back home, or to both.
    match random.below(3) {
        0 => plan.roads.push((end, 0)),
        1 => {
            plan.labels.push(0);
            plan.roads.push((end, end + 1));
        }
        _ => {
            plan.labels.push(0);
            plan.roads.extend([(end, end + 1), (end, 0)]);
        }
    }
    with_settle(random, plan)
}

/// The same of the start.
fn start_with_a_road(random: &mut Random) -> Plan {
    let places = count(random, 2);
    let mut labels = unwanted_labels(random, places);
    labels[0] |= 1 << WANTED;
    let mut roads = some_roads(random, places, 3);
    roads.retain(|&road| road != (0, 0));
    roads.push((0, random.between(1, places - 1) as u8));
    let plan = map(labels, roads, always(), Vec::new());
    with_settle(random, plan)
}

/// The hard rule or a soft one asks for a stay at the wanted mark.
fn with_settle(random: &mut Random, plan: Plan) -> Plan {
    let soft = some_soft(random);
    if random.once_in(2) {
        return Plan {
            hard: settle(WANTED),
            soft,
            ..plan
        };
    }
    let mut rules: Vec<Automaton> = soft.into_iter().map(|soft| soft.rule).collect();
    rules.insert(random.below(rules.len() + 1), settle(WANTED));
    Plan {
        soft: weighed(random, rules),
        ..plan
    }
}

/// A tour may drive on and on, and loses what parking keeps.
fn kept_by_parking(random: &mut Random) -> Plan {
    let mut plan = one_dead_end(random, 2);
    plan.roads.push((0, 0));
    plan.roads = once_each(plan.roads);
    let mut rules = vec![wanting(random)];
    if random.once_in(2) {
        rules.push(once(WANTED));
    }
    if random.once_in(2) {
        // And what driving on keeps.
        rules.push(random.pick(&[never, again])(random.below(2) as u8));
    }
    random.shuffle(&mut rules);
    Plan {
        soft: weighed(random, rules),
        ..plan
    }
}

/// Several dead ends with different labels, and rules of which each keeps some.
fn several(random: &mut Random) -> Plan {
    let places = count(random, 3);
    let ends = random.between(2, places - 1);
    let before = places - ends;
    let labels = any_labels(random, places);
    let mut roads = some_roads(random, before, 2);
    for end in before as u8..places as u8 {
        roads.push((random.below(before) as u8, end));
    }
    roads.extend((1..before as u8).map(|place| (place - 1, place)));
    let mark = random.below(2) as u8;
    let mut rules = vec![again(mark), never(1 - mark)];
    if random.once_in(2) {
        rules.push(random.pick(&[again, never, once, settle])(1 - mark));
    }
    random.shuffle(&mut rules);
    let soft = weighed(random, rules);
    let hard = match random.once_in(3) {
        true => deciding(random),
        false => always(),
    };
    map(labels, roads, hard, soft)
}

/// Places with a road to themselves, with and without another one, beside dead
/// ends and beside places with roads to others alone.
fn stays(random: &mut Random) -> Plan {
    let places = count(random, 2);
    let mut roads: Vec<Road> = Vec::new();
    for place in 0..places as u8 {
        let other = random.below(places) as u8;
        match random.below(4) {
            0 => roads.push((place, place)),
            1 => roads.extend([(place, place), (place, other)]),
            2 => roads.push((place, other)),
            _ => {}
        }
    }
    let labels = any_labels(random, places);
    let plan = map(labels, roads, deciding(random), some_soft(random));
    match random.once_in(2) {
        true => with_settle(random, plan),
        false => plan,
    }
}

/// About as many roads as places.
fn few_roads(random: &mut Random) -> Plan {
    let places = count(random, 2);
    let roads = some_roads(random, places, places);
    let labels = any_labels(random, places);
    let (hard, soft) = (deciding(random), some_soft(random));
    map(labels, roads, hard, soft)
}

/// Very many places; the way goes through most of them to one that has the mark,
/// and ends there, or goes on for once.
fn far(random: &mut Random, road_out: bool) -> Plan {
    let places = random.between(65, 128);
    let length = random.between(places / 2, places);
    let mut labels = unwanted_labels(random, places);
    labels[length - 1] |= 1 << WANTED;
    let mut roads: Vec<Road> = (1..length as u8).map(|place| (place - 1, place)).collect();
    // Roads out of the places beside the way, so that not all of them are dead
    // ends.
    for place in length..places {
        if random.once_in(2) {
            roads.push((place as u8, random.below(places) as u8));
        }
    }
    if road_out {
        roads.push((length as u8 - 1, random.below(length - 1) as u8));
    }
    let hard = settle(WANTED);
    let rules = vec![random.pick(&[never, again, once])(OTHER)];
    let mut plan = map(labels, roads, hard, weighed(random, rules));
    if random.once_in(2) {
        // A road out of the start and nothing else to do.
        plan.hard = always();
        plan.soft[0].rule = settle(WANTED);
    }
    plan
}

/// A row of places with the wanted mark that lead to and fro, and a dead end
/// without it behind them, or the other way about.
fn loops_before(random: &mut Random) -> Plan {
    let places = count(random, 3);
    let end = places as u8 - 1;
    let at_the_end = random.once_in(2);
    let label = |marked: bool| if marked { 1 << WANTED } else { 0 };
    let mut labels = vec![label(!at_the_end); places];
    labels[places - 1] = label(at_the_end);
    let mut roads: Vec<Road> = (1..end).map(|place| (place - 1, place)).collect();
    roads.extend((1..end).map(|place| (place, place - 1)));
    roads.push((random.below(places - 1) as u8, end));
    let rules = [again(WANTED), never(WANTED), settle(WANTED), once(WANTED)];
    let hard = match random.once_in(2) {
        true => random.pick(&rules).clone(),
        false => always(),
    };
    let mut asked = rules.to_vec();
    random.shuffle(&mut asked);
    asked.truncate(random.between(1, 3));
    let soft = weighed(random, asked);
    map(labels, roads, hard, soft)
}
