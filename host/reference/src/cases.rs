//! Plans and files to try: some fixed ones, and generated ones, each of which
//! is fixed by its number alone.

use crate::copies::{with_copies, KINDS};
use crate::damage::{damage, every_damage, Harmed};
use crate::figures::{figures, soft, x};
use crate::fixed_copies::copies_of_x;
use crate::fixed_parking::fixed_parking;
use crate::guards::{either, with_any, ALIKE, ALL, SAME};
use crate::handmade::one_place;
use crate::maps::{all_roads, chance_roads, labels, once_each, places_within};
use crate::parking::{self, with_dead_ends};
use crate::plan::{Automaton, Plan, MAX_PLACES, MAX_PLAN_BYTES, MAX_SIZE};
use crate::random::Random;
use crate::rules::{again, always, go, go_any, never, once, soft_rules, some_rule};
use crate::shapes::{large, Shape, SHAPES};
use crate::watchers::{hand_worked, with_watchers};

/// A file to plan, or a text to read as an answer, bytes that lie behind it in
/// memory but are not part of it, and how many bytes lie on either side of each
/// buffer at least.
pub struct Case {
    pub kind: String,
    pub file: Vec<u8>,
    pub behind: Vec<u8>,
    pub margin: usize,
}

impl Case {
    pub fn new(kind: &str, file: Vec<u8>) -> Case {
        Case {
            kind: kind.into(),
            file,
            behind: b"0123,456\nrules=0\n".to_vec(),
            margin: 64,
        }
    }

    /// With nothing behind the file and about the buffers, so that a checker
    /// of memory sees every byte touched there.
    pub fn bare(self) -> Case {
        Case {
            behind: Vec::new(),
            margin: 0,
            ..self
        }
    }
}

/// Files for buffers of every length about the limits: the figures of 01, those
/// with rules that only watch, some with roads that are written twice, some with
/// dead ends, one that is too long, and the largest plans without and with eight
/// soft rules.
pub fn limit_cases() -> Vec<Case> {
    let copies = copies_of_x().into_iter().map(|fixed| fixed.figure);
    let all = figures().into_iter().chain(hand_worked()).chain(copies);
    let all = all.chain(fixed_parking().into_iter().step_by(7));
    let mut cases: Vec<Case> = all
        .map(|figure| Case::new(&format!("figure {}", figure.name), figure.file))
        .collect();
    cases.push(Case::new("too long", vec![b'1'; MAX_PLAN_BYTES + 1]));
    for shape in [Shape::Wide, Shape::Rules] {
        cases.push(intact(
            shape.name(),
            large(shape, MAX_SIZE, &mut Random::new(1)),
        ));
    }
    cases
}

/// Plan X and its like with lines of five numbers after each harm of some kinds.
pub fn harmed_cases() -> Vec<Case> {
    let of = |plan: Plan, name| {
        let all = every_damage(plan.text().as_bytes()).into_iter();
        all.map(move |harm| harmed(name, harm))
    };
    of(x(), "plan X")
        .chain(of(x_with_any(), "plan X with any"))
        .collect()
}

/// Plan X, its first rule asking for either mark again, the others spelled
/// with five numbers.
pub fn x_with_any() -> Plan {
    let never_1 = Automaton {
        moves: vec![go_any(0, 0, 2, 1, 0), go(0, 0, 3, 0)],
        ..never(1)
    };
    Plan {
        hard: Automaton {
            moves: vec![go_any(0, 0, 0, 0, 0)],
            ..always()
        },
        soft: vec![soft(3, either(&again(0), 1, 2)), soft(2, never_1)],
        ..x()
    }
}

/// The case with this number, and the source of the further chances in it.
pub fn case(number: u64) -> (Case, Random) {
    let mut source = Random::new(number.wrapping_mul(0x5851_f42d_4c95_7f2d).wrapping_add(1));
    let random = &mut source;
    let case = match number % 16 {
        3 => with_parking(number / 16, random),
        2 if number % 32 == 2 => with_parking(number / 32 + 7, random),
        4 if number % 32 == 4 => intact("watching", watching(random)),
        0..=4 => intact("tiny", tiny(random)),
        5 => intact("tied", tied(random)),
        6..=8 => intact("small", small(random)),
        9..=12 => damaged(random),
        13 => {
            // All kinds in turn.
            let kind = &KINDS[(number / 16) as usize % KINDS.len()];
            Case::new(kind.name, kind.file(random))
        }
        14 => {
            // All shapes in turn, once as large as can be, once smaller.
            let turn = (number / 16) as usize;
            let shape = SHAPES[turn % SHAPES.len()];
            let size = match turn / SHAPES.len() % 2 {
                0 => MAX_SIZE,
                _ => random.between(64, MAX_SIZE as usize) as u64,
            };
            let plan = large(shape, size, random);
            let plan = with_any(random, plan, ALIKE);
            let plan = with_watchers(random, plan);
            let plan = with_dead_ends(random, plan);
            Case::new(shape.name(), with_copies(random, plan))
        }
        _ => intact("oversized", oversized(random)),
    };
    (case, source)
}

/// A plan with dead ends, of all kinds in turn.
fn with_parking(turn: u64, random: &mut Random) -> Case {
    let kind = &parking::KINDS[turn as usize % parking::KINDS.len()];
    intact(kind.name, kind.plan(random))
}

fn intact(kind: &str, plan: Plan) -> Case {
    Case::new(kind, plan.text().into_bytes())
}

fn harmed(what: &str, (kind, file, behind): Harmed) -> Case {
    Case {
        behind,
        ..Case::new(&format!("{what}, {kind}"), file)
    }
}

fn damaged(random: &mut Random) -> Case {
    let plan = if random.once_in(2) {
        tiny(random)
    } else {
        small(random)
    };
    harmed("damaged", damage(plan.text().as_bytes(), random))
}

/// A plan small enough to try all its short tours.
pub fn tiny(random: &mut Random) -> Plan {
    let marks = random.below(3) as u8;
    let places = random.between(1, 3);
    let labels = labels(random, places, marks);
    let mut roads = Vec::new();
    let density = random.between(1, 4);
    for from in 0..places as u8 {
        for to in 0..places as u8 {
            if random.below(4) < density {
                roads.push((from, to));
            }
        }
    }
    random.shuffle(&mut roads);
    let hard = if random.once_in(3) {
        always()
    } else {
        some_rule(random, 3, marks)
    };
    let count = random.below(4);
    let soft = soft_rules(random, count, 2, marks);
    let plan = Plan {
        marks,
        labels,
        start: random.below(places) as u8,
        roads,
        hard,
        soft,
    };
    let plan = with_any(random, plan, ALL);
    with_watchers(random, plan)
}

/// A tiny plan whose soft rules exclude each other at equal weight, or one
/// excludes two that weigh as much together.
pub fn tied(random: &mut Random) -> Plan {
    let mark = random.below(2) as u8;
    let map = three_places(random, mark);
    let unit = random.between(1, 2_000_000) as u32;
    let mut rules = match random.below(3) {
        0 => vec![(1, never(mark)), (1, once(mark))],
        1 => vec![(1, never(mark)), (1, again(mark)), (1, once(1 - mark))],
        _ => vec![(2, never(mark)), (1, once(mark)), (1, again(mark))],
    };
    random.shuffle(&mut rules);
    with_rules(random, map, unit, rules)
}

/// A tiny plan in which a rule that only watches settles a tie, or should not:
/// before the rules that weigh something, behind one, or with no other rule.
pub fn watching(random: &mut Random) -> Plan {
    let mark = random.below(2) as u8;
    let map = three_places(random, mark);
    // Where 1 is taken for 0, the least weight shows it.
    let unit = match random.once_in(2) {
        true => 1,
        false => random.between(1, 4_000_000) as u32,
    };
    // Two that exclude each other, and one that has little to do with them.
    let mut pair = [never(mark), random.pick(&[once, again])(mark)];
    random.shuffle(&mut pair);
    let [one, other] = pair;
    let free = random.pick(&[never, once, again])(1 - mark);
    let rules = match random.below(6) {
        0 => vec![(0, other.clone()), (1, one), (1, other)],
        1 => vec![(1, free), (0, other.clone()), (1, one), (1, other)],
        2 => vec![(1, free), (0, one), (0, other)],
        3 => vec![(0, free), (0, one), (0, other)],
        // Here what weighs something decides.
        4 => vec![(1, one), (0, other.clone()), (1, other)],
        _ => vec![(0, other), (1, one)],
    };
    with_rules(random, map, unit, rules)
}

/// Three places, two marks and some roads. The start lacks the mark, or `never`
/// were lost at once.
fn three_places(random: &mut Random, mark: u8) -> Plan {
    let start = random.below(3) as u8;
    let mut labels: Vec<u8> = (0..3).map(|_| random.below(4) as u8).collect();
    labels[start as usize] &= !(1 << mark);
    let mut roads = all_roads(3);
    random.shuffle(&mut roads);
    roads.truncate(random.between(4, 9));
    Plan {
        marks: 2,
        labels,
        start,
        roads,
        ..one_place(always(), Vec::new())
    }
}

/// The map with a hard rule by chance and these soft ones, which weigh so many
/// units each.
fn with_rules(random: &mut Random, map: Plan, unit: u32, rules: Vec<(u32, Automaton)>) -> Plan {
    let rules = rules.into_iter();
    let soft = rules
        .map(|(units, rule)| soft(units * unit, rule))
        .collect();
    let hard = if random.once_in(2) {
        always()
    } else {
        some_rule(random, 2, 2)
    };
    with_any(random, Plan { hard, soft, ..map }, SAME)
}

/// A plan of some hundred nodes.
pub fn small(random: &mut Random) -> Plan {
    let marks = random.between(0, 8) as u8;
    let hard = if random.once_in(3) {
        always()
    } else {
        some_rule(random, 5, marks)
    };
    let count = random.below(5);
    let soft = soft_rules(random, count, 4, marks);
    let size = random.between(100, 800) as u64;
    let places = places_within(size, &hard, &soft);
    let each = random.between(1, 5);
    let roads = once_each(chance_roads(random, places, each * places));
    let start = random.below(places) as u8;
    let plan = Plan {
        marks,
        labels: labels(random, places, marks),
        start,
        roads,
        hard,
        soft,
    };
    let plan = with_any(random, plan, ALL);
    with_watchers(random, plan)
}

/// A plan with N above the bound, by a little or by much.
pub fn oversized(random: &mut Random) -> Plan {
    let mut plan = match random.below(4) {
        0 => large(Shape::Wide, MAX_SIZE, random),
        1 => large(Shape::Rules, MAX_SIZE, random),
        _ => small(random),
    };
    while plan.size() <= MAX_SIZE {
        if random.once_in(2) && plan.soft.len() < 8 {
            plan.soft.extend(soft_rules(random, 1, 8, plan.marks));
        } else if plan.labels.len() < MAX_PLACES as usize {
            plan.labels.push(0);
        } else if plan.hard.states < 16 {
            plan.hard.states += 1;
        } else {
            plan.soft.extend(soft_rules(random, 1, 1, plan.marks));
        }
    }
    with_watchers(random, plan)
}
