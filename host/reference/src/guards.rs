//! Move lines of five numbers for generated plans (02, note 1).

use crate::plan::{Automaton, Move, Plan};
use crate::random::Random;

/// A way to give a rule such lines, over so many marks.
pub type Way = fn(&mut Random, &Automaton, u8) -> Automaton;

/// The ways under which a rule means the same as before.
pub const SAME: &[Way] = &[spelled];
/// Those under which it asks for either of two marks at most where it asked for
/// one.
pub const ALIKE: &[Way] = &[spelled, widened];
pub const ALL: &[Way] = &[spelled, widened, guarded];

/// Gives two of three plans lines of five numbers, each rule in one of the ways.
pub fn with_any(random: &mut Random, mut plan: Plan, ways: &[Way]) -> Plan {
    if random.once_in(3) {
        return plan;
    }
    let marks = plan.marks;
    for rule in plan.automata_mut() {
        *rule = random.pick(ways)(random, rule, marks);
    }
    if plan.fives() == 0 {
        // A rule that asks for nothing can still say so with five numbers.
        for m in plan.automata_mut().flat_map(|rule| &mut rule.moves) {
            m.any = Some(0);
        }
    }
    plan
}

/// The same rule, half of its moves spelled with five numbers: with any 0,
/// inside need, across need and bar, or in the place of a mark in need.
pub fn spelled(random: &mut Random, rule: &Automaton, _: u8) -> Automaton {
    each_move(rule, |m| {
        let lowest = m.need & m.need.wrapping_neg();
        let across = if m.need == 0 { 0 } else { m.need | m.bar };
        match random.below(8) {
            0 => m.any = Some(0),
            1 => m.any = Some(some_of(random, m.need)),
            2 => m.any = Some(across),
            3 => {
                m.need &= !lowest;
                m.any = Some(lowest);
            }
            _ => {}
        }
    })
}

/// The rule with "this mark or that one" wherever it speaks of the one, two
/// marks by chance.
pub fn widened(random: &mut Random, rule: &Automaton, marks: u8) -> Automaton {
    if marks == 0 {
        return rule.clone();
    }
    let spoken = rule.moves.iter().fold(0, |all, m| all | m.need | m.bar);
    let one = match some_of(random, spoken) {
        0 => 1 << random.below(marks as usize),
        some => some & some.wrapping_neg(),
    };
    either(rule, one, 1 << random.below(marks as usize))
}

/// The rule with "one or other" wherever it speaks of the one; both are given
/// as labels of a single mark.
pub fn either(rule: &Automaton, one: u8, other: u8) -> Automaton {
    each_move(rule, |m| {
        if m.need & one != 0 {
            m.need &= !one;
            m.any = Some(one | other);
        }
        if m.bar & one != 0 {
            m.bar |= other;
        }
    })
}

/// Half of the moves with an any by chance, which may shut them for good:
/// inside need, inside bar, across both, anywhere, or 0.
pub fn guarded(random: &mut Random, rule: &Automaton, marks: u8) -> Automaton {
    let anywhere = ((1u32 << marks) - 1) as u8;
    each_move(rule, |m| {
        let inside = match random.below(10) {
            0 => m.need,
            1 => m.bar,
            2 => m.need | m.bar,
            3 => anywhere,
            4 => 0,
            _ => return,
        };
        m.any = Some(some_of(random, inside));
    })
}

/// Some of these bits by chance; one at least, if there is one.
fn some_of(random: &mut Random, bits: u8) -> u8 {
    match bits & random.byte() {
        0 => bits,
        some => some,
    }
}

fn each_move(rule: &Automaton, change: impl FnMut(&mut Move)) -> Automaton {
    let mut rule = rule.clone();
    rule.moves.iter_mut().for_each(change);
    rule
}
