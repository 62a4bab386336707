//! Plans in several shapes, each a trial of another kind.

use crate::extremes::{complete, little, tiny};
use crate::figures::x;
use crate::maps::*;
use crate::plan::{Automaton, Plan, Road, MAX_ROADS};
use crate::random::Random;
use crate::rules::*;

/// The shapes of plans: large ones, and `Tiny`.
#[derive(Clone, Copy, Debug, PartialEq, Eq)]
pub enum Shape {
    /// Many places, sixteen hard states, chance moves, no soft rule.
    Wide,
    /// A chain that closes on itself, and a hard counter that goes round with it.
    Chain,
    /// Few places and eight soft rules of one state.
    Rules,
    /// Every place joined to every place, automata with every move.
    Dense,
    /// One way round through all places, and a few short cuts.
    Sparse,
    /// A start with roads to many places at once and to a chain, each place of
    /// which leads to all of those as well.
    Fan,
    /// A row of small loops, from each to the next by a free way and by one
    /// that has a mark: many components with different offers.
    Beads,
    /// A ring of counted marks, or a corridor to several marks, from each of
    /// which the way leads back to its beginning: tours with long loops.
    Laps,
    /// Much to search, and nothing that the hard rule accepts.
    Barren,
    /// Automata of all sorts.
    Mixed,
    /// Nearly every place joined to every other, as far as there may be roads, and
    /// rules with one to three next states for a state and label.
    Complete,
    /// A large N, of which the start reaches little.
    Little,
    /// N of some tens at most.
    Tiny,
}

/// Those that are timed, the large ones first.
pub const TIMED: [Shape; 13] = [
    Shape::Wide,
    Shape::Chain,
    Shape::Rules,
    Shape::Dense,
    Shape::Sparse,
    Shape::Fan,
    Shape::Beads,
    Shape::Laps,
    Shape::Barren,
    Shape::Mixed,
    Shape::Complete,
    Shape::Little,
    Shape::Tiny,
];

/// The large ones that the comparison has.
pub const SHAPES: [Shape; 10] = match TIMED.first_chunk() {
    Some(shapes) => *shapes,
    None => panic!(),
};

impl Shape {
    pub fn name(self) -> &'static str {
        match self {
            Shape::Wide => "wide",
            Shape::Chain => "chain",
            Shape::Rules => "rules",
            Shape::Dense => "dense",
            Shape::Sparse => "sparse",
            Shape::Fan => "fan",
            Shape::Beads => "beads",
            Shape::Laps => "laps",
            Shape::Barren => "barren",
            Shape::Mixed => "mixed",
            Shape::Complete => "complete",
            Shape::Little => "little",
            Shape::Tiny => "tiny",
        }
    }
}

/// The plan with this number among those of the shape, for times and counts that
/// are told with it. The first of the tiny ones is plan X.
pub fn numbered(shape: Shape, size: u64, number: u64) -> Plan {
    match (shape, number) {
        (Shape::Tiny, 0) => x(),
        _ => large(shape, size, &mut Random::new(number)),
    }
}

/// A plan of this shape with N at most `size` (at least 64) and, as a rule,
/// not far below; a tiny plan is tiny whatever `size` is.
pub fn large(shape: Shape, size: u64, random: &mut Random) -> Plan {
    match shape {
        Shape::Wide => wide(size, random),
        Shape::Chain => chain(size, random),
        Shape::Rules => rules(size, random),
        Shape::Dense => dense(size, random),
        Shape::Sparse => sparse(size, random),
        Shape::Fan => fan(size, random),
        Shape::Beads => beads(size, random),
        Shape::Laps => laps(size, random),
        Shape::Barren => barren(size, random),
        Shape::Mixed => mixed(size, random),
        Shape::Complete => complete(size, random),
        Shape::Little => little(size, random),
        Shape::Tiny => tiny(random),
    }
}

fn wide(size: u64, random: &mut Random) -> Plan {
    let hard = Automaton {
        accept: 1 << random.below(16),
        ..chance(random, 16, 4, 64)
    };
    build(random, size, 4, hard, Vec::new(), |random, places| {
        round_and_more(random, places, 7 * places)
    })
}

fn chain(size: u64, random: &mut Random) -> Plan {
    let mut plan = build(
        random,
        size,
        1,
        counter(16, 0),
        Vec::new(),
        |random, places| {
            let back = if random.once_in(2) {
                0
            } else {
                random.below(places)
            };
            [row(0, places), vec![(places as u8 - 1, back as u8)]].concat()
        },
    );
    plan.start = 0;
    if random.once_in(2) {
        // The longest way of all: every step counts, and the ring's length has
        // no divisor in common with the counter's.
        plan.labels.fill(1);
        plan.labels.truncate((plan.labels.len() - 1) | 1);
        plan.roads = ring(plan.labels.len());
    }
    plan
}

fn rules(size: u64, random: &mut Random) -> Plan {
    let count = (size.ilog2() as usize - 3).min(8);
    if random.once_in(3) {
        let soft = soft_rules(random, count, 1, 8);
        return build(random, size, 8, always(), soft, |random, places| {
            chance_roads(random, places, 3 * places)
        });
    }
    // Each place breaks one rule, so every set of rules can be the broken one.
    let soft = weighed(random, (0..count as u8).map(never).collect());
    let mut plan = build(random, size, 8, always(), soft, |_, places| {
        all_roads(places)
    });
    for (place, label) in plan.labels.iter_mut().enumerate() {
        *label = 1 << (place % 8);
    }
    plan
}

fn dense(size: u64, random: &mut Random) -> Plan {
    let count = if size >= 162 { 2 } else { 1 };
    let soft = weighed(random, vec![full(8, 0x80); count]);
    build(random, size, 2, always(), soft, |_, places| {
        all_roads(places)
    })
}

fn sparse(size: u64, random: &mut Random) -> Plan {
    let hard = if random.once_in(2) {
        counter(8, 0)
    } else {
        counter(4, 0)
    };
    let rule = if hard.states == 8 {
        never(1)
    } else {
        counter(3, 1)
    };
    let soft = weighed(random, vec![rule]);
    build(random, size, 3, hard, soft, |random, places| {
        round_and_more(random, places, places / 8)
    })
}

fn fan(size: u64, random: &mut Random) -> Plan {
    let hard = match random.below(3) {
        0 => counter(16, 0),
        1 => chance(random, 16, 2, 64),
        _ => full(8, 1),
    };
    // With a rule there are fewer places, and the roads suffice for more of
    // them to be the many.
    let rules = if random.once_in(2) { 1 } else { 0 };
    let soft = weighed(random, vec![never(1); rules]);
    let mut plan = build(random, size, 2, hard, soft, fan_roads);
    plan.start = 0;
    plan
}

fn beads(size: u64, random: &mut Random) -> Plan {
    let asked = match random.below(3) {
        0 => (0..4).map(never).collect(),
        1 => vec![never(0), once(1), never(2), once(3)],
        _ => vec![once(0), once(1), again(2)],
    };
    let soft = weighed(random, asked);
    // Of three places one is on the way, one is its loop, one has a mark.
    let mut plan = build(random, size, 4, always(), soft, |_, places| {
        let bead = |i: u8| {
            let on = (i + 3).min(places as u8 - 1);
            [(i, i + 1), (i + 1, i), (i, i + 2), (i + 2, on), (i, on)]
        };
        let last = (places.max(3) - 3) as u8;
        let roads: Vec<Road> = (0..=last).step_by(3).flat_map(bead).collect();
        roads
            .into_iter()
            .filter(|&(a, b)| a.max(b) < places as u8)
            .collect()
    });
    for (place, label) in plan.labels.iter_mut().enumerate() {
        *label = if place % 3 == 2 {
            1 << (place / 3 % 4)
        } else {
            0
        };
    }
    plan.start = 0;
    plan
}

fn laps(size: u64, random: &mut Random) -> Plan {
    if random.once_in(2) {
        let counters = if size >= 512 { [7, 8] } else { [3, 4] };
        let asked = vec![counter(counters[0], 0), counter(counters[1], 1)];
        let soft = weighed(random, asked);
        let mut plan = build(random, size, 2, always(), soft, |_, places| ring(places));
        plan.labels.fill(0);
        plan.labels[0] = 3;
        return plan;
    }
    let count = if size >= 512 { 3 } else { 2 };
    let soft = weighed(random, (0..count as u8).map(again).collect());
    let mut plan = build(random, size, 3, always(), soft, |_, places| {
        let corridor = places - count.min(places - 1);
        let side = |end: usize| [(corridor as u8 - 1, end as u8), (end as u8, 0)];
        [
            row(0, corridor),
            (corridor..places).flat_map(side).collect(),
        ]
        .concat()
    });
    let places = plan.labels.len();
    plan.labels.fill(0);
    for i in 0..count.min(places - 1) {
        plan.labels[places - 1 - i] = 1 << i;
    }
    plan
}

fn barren(size: u64, random: &mut Random) -> Plan {
    let hard = match random.below(3) {
        0 => full(8, 0),
        1 => Automaton {
            accept: 0,
            ..chance(random, 16, 2, 64)
        },
        // Accepts in its first state alone, which it leaves for good.
        _ => {
            let mut rule = counter(8, 0);
            for m in &mut rule.moves {
                m.to = m.to.max(1);
            }
            Automaton { accept: 1, ..rule }
        }
    };
    let soft = weighed(random, vec![never(1)]);
    let each = random.between(0, 6);
    build(random, size, 2, hard, soft, |random, places| {
        round_and_more(random, places, each * places)
    })
}

fn mixed(size: u64, random: &mut Random) -> Plan {
    let marks = random.between(1, 8) as u8;
    let mark = random.below(marks as usize) as u8;
    let hard = match random.below(4) {
        0 => again(mark),
        1 => answered(mark, 0),
        2 => counter(4, mark),
        _ => settle(mark),
    };
    let count = random.between(1, 4);
    let mut soft = soft_rules(random, count, 5, marks);
    while places_within(size, &hard, &soft) < 4 && soft.len() > 1 {
        soft.pop();
    }
    let each = random.between(0, 5);
    build(random, size, marks, hard, soft, |random, places| {
        round_and_more(random, places, each * places)
    })
}

/// Place 0 is the start, then come the chain's places, then the many.
fn fan_roads(random: &mut Random, places: usize) -> Vec<Road> {
    if places < 4 {
        return all_roads(places);
    }
    let mut many = places / 2;
    while (places - many) * (many + 2) > MAX_ROADS as usize {
        many -= 1;
    }
    let chain_end = places - many;
    let mut roads = row(0, chain_end);
    for from in 0..chain_end as u8 {
        roads.extend((chain_end as u8..places as u8).map(|to| (from, to)));
    }
    // What becomes of a tour that has reached the many: nothing, a stay, or
    // the way back.
    match random.below(4) {
        0 => {}
        1 => roads.extend((chain_end..places).map(|place| (place as u8, place as u8))),
        2 => roads.push((places as u8 - 1, 0)),
        _ => roads.push((chain_end as u8 - 1, 0)),
    }
    roads
}
