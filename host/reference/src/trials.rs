//! Plans among which to search for those that take the library longest beside the
//! reference: all are good, and each is fixed by its number alone.

use crate::cases::case;
use crate::guards::{with_any, ALIKE};
use crate::maps::*;
use crate::parking::with_dead_ends;
use crate::plan::{Automaton, Plan, Road, MAX_SIZE};
use crate::random::Random;
use crate::reader::read;
use crate::rules::*;
use crate::shapes::{large, TIMED};
use crate::watchers::with_watchers;

pub struct Trial {
    pub kind: String,
    pub plan: Plan,
}

/// Of so many trials one has each shape, some are crossed, some are plans of the
/// comparison.
const TURN: usize = 20;
const CROSSED: usize = 3;
const COMPARED: u64 = (TURN - TIMED.len() - CROSSED) as u64;

/// The trial with this number.
pub fn trial(number: u64) -> Trial {
    let random = &mut Random::new(number.wrapping_mul(0x2545_f491_4f6c_dd1d).wrapping_add(3));
    let (turn, place) = (number / TURN as u64, number as usize % TURN);
    let (kind, plan) = match TIMED.get(place) {
        Some(shape) => (shape.name(), large(*shape, some_size(random), random)),
        None if place < TIMED.len() + CROSSED => ("crossed", crossed(some_size(random), random)),
        None => return compared(turn * COMPARED + (place - TIMED.len() - CROSSED) as u64),
    };
    Trial {
        kind: kind.into(),
        plan: varied(random, plan),
    }
}

/// As large as can be, or smaller.
fn some_size(random: &mut Random) -> u64 {
    match random.once_in(2) {
        true => MAX_SIZE,
        false => random.between(64, MAX_SIZE as usize) as u64,
    }
}

/// With what the comparison does to its large plans, but for roads that are
/// written twice.
fn varied(random: &mut Random, plan: Plan) -> Plan {
    let plan = with_any(random, plan, ALIKE);
    let plan = with_watchers(random, plan);
    with_dead_ends(random, plan)
}

/// A good plan of the comparison: from case to case in steps that have no divisor
/// in common with its turns, on to the next that is not refused as it is read.
fn compared(number: u64) -> Trial {
    let good = |number| {
        let (case, _) = case(number);
        let plan = read(&case.file).ok()?;
        let kind = format!("compared: {}", case.kind);
        Some(Trial { kind, plan })
    };
    (number.wrapping_mul(11)..)
        .find_map(good)
        .expect("most cases have good plans")
}

/// Any map with any rules.
fn crossed(size: u64, random: &mut Random) -> Plan {
    let marks = random.between(1, 8) as u8;
    let hard = any_rule(random, 16, marks);
    let count = random.below(6);
    let rules = (0..count).map(|_| any_rule(random, 8, marks)).collect();
    let mut soft = weighed(random, rules);
    // Not a map of one place, as a rule.
    while !soft.is_empty() && places_within(size, &hard, &soft) < 4 {
        soft.pop();
    }
    let (map, each) = (random.below(MAPS.len()), random.between(1, 7));
    build(random, size, marks, hard, soft, |random, places| {
        MAPS[map](random, places, each * places)
    })
}

/// A map of so many places, with so many roads by chance if it has such.
type Map = fn(&mut Random, usize, usize) -> Vec<Road>;

const MAPS: [Map; 5] = [
    |_, places, _| all_roads(places),
    |_, places, _| ring(places),
    |_, places, _| row(0, places),
    chance_roads,
    round_and_more,
];

/// A rule of any sort with at most so many states.
fn any_rule(random: &mut Random, states: u8, marks: u8) -> Automaton {
    let some = random.between(1, states as usize) as u8;
    let mark = random.below(marks as usize) as u8;
    match random.below(4) {
        0 => chance(random, some, marks, 64),
        1 | 2 => {
            let most = random.between(1, 3);
            branching(random, some, mark, most)
        }
        _ => some_rule(random, states, marks),
    }
}
