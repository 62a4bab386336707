//! Shapes of plans for time alone: complete maps, where a node has many arcs;
//! plans whose start reaches little, and tiny ones, where what a call costs
//! whatever it finds is most of it.

use crate::maps::*;
use crate::plan::{Automaton, Plan, Soft, MAX_ROADS};
use crate::random::Random;
use crate::rules::*;
use std::ops::RangeInclusive;

/// How many places a complete map has: a number in one of these ranges. Above 32
/// its roads are as many as there may be.
pub const COMPLETE: [RangeInclusive<u64>; 3] = [16..=24, 25..=32, 32..=64];

/// So many nodes are little, at most.
pub const LITTLE: usize = 64;

/// A tiny plan's N is at most a number in this range.
pub const TINY: RangeInclusive<usize> = 20..=60;

/// The marks of complete maps and of those that hide what is not reached.
const MARKS: u8 = 3;

pub fn complete(size: u64, random: &mut Random) -> Plan {
    let places = random.pick(&COMPLETE).clone();
    let (hard, mut soft) = rules_for(random, size, places, |random, states| {
        match random.between(1, 3) {
            1 => counter(states, random.below(MARKS as usize) as u8),
            most => some_branching(random, states, most),
        }
    });
    // So far a rule of one state is always kept.
    for soft in soft.iter_mut().filter(|soft| soft.rule.states == 1) {
        soft.rule = never(random.below(MARKS as usize) as u8);
    }
    // A few roads may be missing, and those from a place to itself.
    let (gaps, stays) = (random.once_in(2), random.once_in(2));
    build(random, size, MARKS, hard, soft, |random, places| {
        let mut roads = all_roads(places);
        roads.retain(|(from, to)| stays || from != to);
        roads.retain(|_| !gaps || !random.once_in(16));
        roads
    })
}

pub fn little(size: u64, random: &mut Random) -> Plan {
    match random.below(6) {
        0 | 1 => pocket(size, random),
        2 | 3 => still(size, random),
        4 => kept(size, random),
        _ => stuck(size, random),
    }
}

pub fn tiny(random: &mut Random) -> Plan {
    let size = random.between(*TINY.start(), *TINY.end()) as u64;
    let marks = random.between(1, 3) as u8;
    let hard = match random.once_in(3) {
        true => always(),
        false => some_rule(random, 2, marks),
    };
    let count = random.below(3);
    let soft = soft_rules(random, count, 2, marks);
    let each = random.below(3);
    build(random, size, marks, hard, soft, |random, places| {
        round_and_more(random, places, each * places)
    })
}

/// The start gets to a few places of a large map: in a ring, by roads from each
/// to each, or by a row at whose end the car parks.
fn pocket(size: u64, random: &mut Random) -> Plan {
    let hard = match random.below(3) {
        0 => counter(16, 0),
        1 => chance(random, 16, MARKS, 64),
        _ => branching(random, 16, 0, 2),
    };
    let mut plan = build(random, size, MARKS, hard, Vec::new(), many_roads);
    let mut others: Vec<u8> = (0..plan.labels.len() as u8).collect();
    others.retain(|&place| place != plan.start);
    random.shuffle(&mut others);
    others.truncate(random.below(LITTLE / 16));
    let inside = [vec![plan.start], others].concat();
    let roads = match random.below(3) {
        0 => ring(inside.len()),
        1 => all_roads(inside.len()),
        _ => row(0, inside.len()),
    };
    let name = |(from, to)| (inside[from as usize], inside[to as usize]);
    plan.roads.retain(|(from, _)| !inside.contains(from));
    plan.roads.splice(0..0, roads.into_iter().map(name));
    plan.roads.truncate(MAX_ROADS as usize);
    random.shuffle(&mut plan.roads);
    plan
}

/// No rule ever leaves its first state.
fn still(size: u64, random: &mut Random) -> Plan {
    let places = 4..=LITTLE as u64;
    let (hard, soft) = rules_for(random, size, places, |random, states| {
        let mut rule = some_branching(random, states, 3);
        rule.moves.retain(|m| m.from != rule.first);
        rule.moves.push(go(rule.first, 0, 0, rule.first));
        rule
    });
    build(random, size, MARKS, hard, soft, |_, places| {
        all_roads(places)
    })
}

/// Few places, and many rules that no tour can break.
fn kept(size: u64, random: &mut Random) -> Plan {
    let count = (size.ilog2() as usize - 3).min(8);
    let soft = weighed(random, vec![always(); count]);
    build(random, size, MARKS, always(), soft, |_, places| {
        all_roads(places)
    })
}

/// The hard rule goes from state to state and comes to one without a move: after
/// some steps round a ring, or after one in a map of many roads.
fn stuck(size: u64, random: &mut Random) -> Plan {
    let round = random.once_in(2);
    let last = if round {
        random.between(1, 15) as u8
    } else {
        1
    };
    let mut hard = branching(random, 16, 0, 2);
    hard.moves.retain(|m| m.from > last);
    hard.moves.extend((0..last).map(|q| go(q, 0, 0, q + 1)));
    build(
        random,
        size,
        MARKS,
        hard,
        Vec::new(),
        |random, places| match round {
            true => ring(places),
            false => many_roads(random, places),
        },
    )
}

fn many_roads(random: &mut Random, places: usize) -> Vec<(u8, u8)> {
    round_and_more(random, places, 7 * places)
}

/// A rule by chance with so many states, and moves from each to at most so many.
fn some_branching(random: &mut Random, states: u8, most: usize) -> Automaton {
    let mark = random.below(MARKS as usize) as u8;
    branching(random, states, mark, most)
}

/// A hard rule and up to three soft ones, with which a plan of N near `size` has
/// so many places; the numbers of their states are drawn until it has.
fn rules_for(
    random: &mut Random,
    size: u64,
    places: RangeInclusive<u64>,
    make: impl Fn(&mut Random, u8) -> Automaton,
) -> (Automaton, Vec<Soft>) {
    let (hard, soft) = loop {
        let hard = random.between(1, 16) as u8;
        let count = random.below(4);
        let soft: Vec<u8> = (0..count).map(|_| random.between(1, 5) as u8).collect();
        let each = soft.iter().fold(hard as u64, |n, &q| n * (q as u64 + 1));
        if places.contains(&(size / each)) {
            break (hard, soft);
        }
    };
    let hard = make(random, hard);
    let soft = soft
        .into_iter()
        .map(|states| make(random, states))
        .collect();
    (hard, weighed(random, soft))
}
