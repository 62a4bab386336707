//! Roads that are written twice (02, note 6), and what may be taken for one, for
//! generated plans.

use crate::cases::{oversized, small, tiny};
use crate::damage::lines;
use crate::handmade::one_place;
use crate::maps::{all_roads, labels, once_each};
use crate::plan::{Automaton, Plan, MAX_MOVES, MAX_ROADS};
use crate::random::Random;
use crate::rules::{always, soft_rules, some_rule};

/// What is made of a plan: its name, the plan it is made of, and the file.
pub struct Kind {
    pub name: &'static str,
    plan: fn(&mut Random) -> Plan,
    make: fn(&mut Random, Plan) -> Vec<u8>,
}

pub const KINDS: [Kind; 15] = [
    kind("road copied to the next line", any, next),
    kind("road copied to a later line", any, later),
    kind("road copied 1,000 lines later", busy, far),
    kind("road copied in too large a plan", oversized, later),
    kind("road to itself copied", any, stay),
    kind("road three times", any, three),
    kind("several roads copied", any, several),
    kind("copy with a fault of its own", any, faulty_copy),
    kind("copy behind a fault", any, behind_a_fault),
    kind("copy before a fault of form", any, |random, plan| {
        before_a_fault(random, plan, spoil_form)
    }),
    kind("copy before a fault of range", any, |random, plan| {
        before_a_fault(random, plan, spoil_range)
    }),
    kind("faulty road twice", any, faulty_twice),
    kind("return road added", any, return_road),
    kind("move repeated", any, repeated_move),
    kind("as many roads as can be", busy, |random, plan| {
        text(filled(random, plan, MAX_ROADS as usize))
    }),
];

const fn kind(
    name: &'static str,
    plan: fn(&mut Random) -> Plan,
    make: fn(&mut Random, Plan) -> Vec<u8>,
) -> Kind {
    Kind { name, plan, make }
}

impl Kind {
    /// A file of this kind.
    pub fn file(&self, random: &mut Random) -> Vec<u8> {
        let plan = (self.plan)(random);
        self.of(random, plan)
    }

    /// What this kind makes of the plan.
    pub fn of(&self, random: &mut Random, mut plan: Plan) -> Vec<u8> {
        // There is a road to copy, and room for three more.
        if plan.roads.is_empty() {
            plan.roads.push((plan.start, plan.start));
        }
        plan.roads.truncate(MAX_ROADS as usize - 3);
        (self.make)(random, plan)
    }
}

/// The file of the plan, in one of six as one of the kinds has it. The chance for
/// it is taken aside, so that nothing else in a generated case depends on it, and
/// twice, so that it is not the one for rules that watch.
pub fn with_copies(random: &Random, plan: Plan) -> Vec<u8> {
    let mut random = random.aside().aside();
    match random.once_in(6) {
        true => random.pick(&KINDS).of(&mut random, plan),
        false => text(plan),
    }
}

/// A plan to copy a road of.
fn any(random: &mut Random) -> Plan {
    match random.below(5) {
        0 | 1 => tiny(random),
        2 | 3 => small(random),
        _ => busy(random),
    }
}

/// A plan with very many roads, no two of them the same, and a small N.
pub fn busy(random: &mut Random) -> Plan {
    let marks = random.below(3) as u8;
    let places = random.between(33, 128);
    let roads = match random.below(3) {
        0 => random.between(100, 1_000),
        1 => random.between(1_001, MAX_ROADS as usize - 1),
        _ => MAX_ROADS as usize,
    };
    let hard = match random.once_in(2) {
        true => always(),
        false => some_rule(random, 2, marks),
    };
    let rules = random.below(2);
    let plan = Plan {
        marks,
        labels: labels(random, places, marks),
        start: random.below(places) as u8,
        roads: Vec::new(),
        ..one_place(hard, soft_rules(random, rules, 2, marks))
    };
    filled(random, plan, roads)
}

/// The plan with further roads by chance, until there are so many or all that
/// there can be.
fn filled(random: &mut Random, mut plan: Plan, count: usize) -> Plan {
    let mut others = all_roads(plan.labels.len());
    random.shuffle(&mut others);
    plan.roads.extend(others);
    plan.roads = once_each(plan.roads);
    plan.roads.truncate(count);
    plan
}

fn text(plan: Plan) -> Vec<u8> {
    plan.text().into_bytes()
}

/// Writes the road with this index once more, so that it has another one.
fn copy(plan: &mut Plan, from: usize, to: usize) {
    plan.roads.insert(to, plan.roads[from]);
}

/// Writes this road, or one by chance, once more behind itself; gives the index
/// of the copy.
fn copy_later(random: &mut Random, plan: &mut Plan, road: Option<usize>) -> usize {
    let from = road.unwrap_or_else(|| random.below(plan.roads.len()));
    let to = match random.once_in(3) {
        true => plan.roads.len(),
        false => random.between(from + 1, plan.roads.len()),
    };
    copy(plan, from, to);
    to
}

fn next(random: &mut Random, mut plan: Plan) -> Vec<u8> {
    let from = random.below(plan.roads.len());
    copy(&mut plan, from, from + 1);
    text(plan)
}

fn later(random: &mut Random, mut plan: Plan) -> Vec<u8> {
    copy_later(random, &mut plan, None);
    text(plan)
}

/// The copy stands so far behind its road, or as the last one; so it does too if
/// there are not so many roads.
fn far(random: &mut Random, plan: Plan) -> Vec<u8> {
    let mut plan = filled(random, plan, MAX_ROADS as usize - 1);
    let last = plan.roads.len();
    let from = random.below(last.saturating_sub(1_000) + 1);
    let to = match random.once_in(2) {
        true => last,
        false => last.min(from + 1_000),
    };
    copy(&mut plan, from, to);
    text(plan)
}

fn stay(random: &mut Random, mut plan: Plan) -> Vec<u8> {
    let place = random.below(plan.labels.len()) as u8;
    let own = plan.roads.iter().position(|&road| road == (place, place));
    let own = own.unwrap_or_else(|| {
        let at = random.below(plan.roads.len() + 1);
        plan.roads.insert(at, (place, place));
        at
    });
    copy_later(random, &mut plan, Some(own));
    text(plan)
}

fn three(random: &mut Random, mut plan: Plan) -> Vec<u8> {
    let road = random.below(plan.roads.len());
    copy_later(random, &mut plan, Some(road));
    copy_later(random, &mut plan, Some(road));
    text(plan)
}

fn several(random: &mut Random, mut plan: Plan) -> Vec<u8> {
    for _ in 0..random.between(2, 3) {
        copy_later(random, &mut plan, None);
    }
    text(plan)
}

/// The copy's own line has a fault of form, or of range; whoever reads it
/// loosely, or loses the higher bits of its numbers, finds the road in it.
fn faulty_copy(random: &mut Random, mut plan: Plan) -> Vec<u8> {
    let at = copy_later(random, &mut plan, None);
    let (a, b) = plan.roads[at];
    let other = random.pick(&loose_spellings(a, b)).clone() + "\n";
    let mut lines = lines(plan.text().as_bytes());
    lines[plan.road_line(at) - 1] = other.into_bytes();
    lines.concat()
}

/// Lines that are easily read as this road and have a fault of form or of range.
fn loose_spellings(a: u8, b: u8) -> Vec<String> {
    let (wide_a, wide_b) = (a as u128, b as u128);
    let form = [
        format!("road={a},0{b}"),
        format!("road=0{a},{b}"),
        format!("road={a},{b},"),
        format!("road={a},{b},0"),
        format!("road={a},{b},{a},{b}"),
        format!("road={a},{b} "),
        format!("road={a},{b}\r"),
        format!("road={a}, {b}"),
        format!("road=+{a},{b}"),
        format!("rode={a},{b}"),
        format!("road={a},{b}road={a},{b}"),
    ];
    let more = [8, 16, 32, 64].map(|bits| 1 << bits);
    let range = more.into_iter().flat_map(|more| {
        [
            format!("road={},{b}", wide_a + more),
            format!("road={a},{}", wide_b + more),
        ]
    });
    form.into_iter().chain(range).collect()
}

/// A fault of form or of range in an earlier line.
fn behind_a_fault(random: &mut Random, mut plan: Plan) -> Vec<u8> {
    let at = copy_later(random, &mut plan, None);
    let mut lines = lines(plan.text().as_bytes());
    let earlier = random.below(plan.road_line(at) - 1);
    let spoil = *random.pick(&[spoil_form, spoil_range]);
    spoil(&mut lines[earlier]);
    lines.concat()
}

/// A line spoilt that comes after the copy.
fn before_a_fault(random: &mut Random, mut plan: Plan, spoil: fn(&mut Vec<u8>)) -> Vec<u8> {
    let at = copy_later(random, &mut plan, None);
    let mut lines = lines(plan.text().as_bytes());
    let later = random.between(plan.road_line(at), lines.len() - 1);
    spoil(&mut lines[later]);
    lines.concat()
}

fn spoil_form(line: &mut Vec<u8>) {
    line.insert(0, b' ');
}

/// So many of anything are too many.
fn spoil_range(line: &mut Vec<u8>) {
    let number = line.iter().position(u8::is_ascii_digit);
    let number = number.expect("every line of a plan has a number");
    line.splice(number..number, *b"4000001");
}

/// The same faulty line in the place of a road and once more later: the first of
/// the two decides, and not as a copy.
fn faulty_twice(random: &mut Random, mut plan: Plan) -> Vec<u8> {
    let from = random.below(plan.roads.len());
    let (a, b) = plan.roads[from];
    let places = plan.labels.len();
    let at = copy_later(random, &mut plan, Some(from));
    let others = [
        format!("road={places},{b}"),
        format!("road={a},{places}"),
        format!("road={a},255"),
        format!("road={a},0{b}"),
        format!("road={a}"),
    ];
    let other = format!("{}\n", random.pick(&others)).into_bytes();
    let mut lines = lines(plan.text().as_bytes());
    lines[plan.road_line(from) - 1] = other.clone();
    lines[plan.road_line(at) - 1] = other;
    lines.concat()
}

/// Both ways of one road, which is no fault; where none lacks its return, the
/// plan as it was.
fn return_road(random: &mut Random, mut plan: Plan) -> Vec<u8> {
    let lacks = |&at: &usize| {
        let (a, b) = plan.roads[at];
        !plan.roads.contains(&(b, a))
    };
    let lacking: Vec<usize> = (0..plan.roads.len()).filter(lacks).collect();
    if !lacking.is_empty() {
        let at = *random.pick(&lacking);
        let (a, b) = plan.roads[at];
        let to = match random.once_in(2) {
            true => at + 1,
            false => random.below(plan.roads.len() + 1),
        };
        plan.roads.insert(to, (b, a));
    }
    text(plan)
}

/// A move written twice, which is no fault; where there is none to repeat, the
/// plan as it was.
fn repeated_move(random: &mut Random, mut plan: Plan) -> Vec<u8> {
    let with_room = |rule: &&mut Automaton| (1..MAX_MOVES as usize).contains(&rule.moves.len());
    let mut rules: Vec<&mut Automaton> = plan.automata_mut().filter(with_room).collect();
    if !rules.is_empty() {
        let at = random.below(rules.len());
        let moves = &mut rules[at].moves;
        let (from, to) = (random.below(moves.len()), random.below(moves.len() + 1));
        moves.insert(to, moves[from]);
    }
    text(plan)
}
