//! Automata for generated plans: some that mean something, some of chance.

use crate::plan::{Automaton, Move, Soft, MAX_MOVES};
use crate::random::Random;

/// A move: its ends, the marks it needs and those it bars.
pub fn go(from: u8, need: u8, bar: u8, to: u8) -> Move {
    Move {
        from,
        need,
        bar,
        any: None,
        to,
    }
}

/// The same by a line of five numbers: one of the marks of `any` is asked for.
pub fn go_any(from: u8, need: u8, bar: u8, any: u8, to: u8) -> Move {
    Move {
        any: Some(any),
        ..go(from, need, bar, to)
    }
}

/// So many states, of which 0 is the first.
pub fn rule(states: u8, accept: u16, moves: Vec<Move>) -> Automaton {
    Automaton {
        states,
        first: 0,
        accept,
        moves,
    }
}

/// Accepts every tour.
pub fn always() -> Automaton {
    rule(1, 1, vec![go(0, 0, 0, 0)])
}

/// A place with the mark comes again and again.
pub fn again(mark: u8) -> Automaton {
    let m = 1 << mark;
    rule(
        2,
        2,
        vec![
            go(0, m, 0, 1),
            go(0, 0, m, 0),
            go(1, m, 0, 1),
            go(1, 0, m, 0),
        ],
    )
}

/// No place has the mark.
pub fn never(mark: u8) -> Automaton {
    rule(1, 1, vec![go(0, 0, 1 << mark, 0)])
}

/// Some place has the mark.
pub fn once(mark: u8) -> Automaton {
    let m = 1 << mark;
    rule(2, 2, vec![go(0, m, 0, 1), go(0, 0, m, 0), go(1, 0, 0, 1)])
}

/// From some step on every place has the mark; when, the automaton guesses.
pub fn settle(mark: u8) -> Automaton {
    let m = 1 << mark;
    rule(2, 2, vec![go(0, 0, 0, 0), go(0, 0, 0, 1), go(1, m, 0, 1)])
}

/// After each place with the first mark comes one with the second.
pub fn answered(call: u8, reply: u8) -> Automaton {
    let (c, r) = (1 << call, 1 << reply);
    rule(
        2,
        1,
        vec![
            go(0, c, r, 1),
            go(0, 0, c, 0),
            go(0, r, 0, 0),
            go(1, 0, r, 1),
            go(1, r, 0, 0),
        ],
    )
}

/// Counts places with the mark, starting over after the last state, which
/// alone accepts.
pub fn counter(states: u8, mark: u8) -> Automaton {
    let m = 1 << mark;
    let step = |q: u8| [go(q, m, 0, (q + 1) % states), go(q, 0, m, q)];
    rule(
        states,
        1 << (states - 1),
        (0..states).flat_map(step).collect(),
    )
}

/// Every state leads to every state under every label; at most 8 states.
pub fn full(states: u8, accept: u16) -> Automaton {
    let from = |q: u8| (0..states).map(move |r| go(q, 0, 0, r));
    rule(states, accept, (0..states).flat_map(from).collect())
}

/// Moves, guards, first and accepting states by chance.
pub fn chance(random: &mut Random, states: u8, marks: u8, moves: usize) -> Automaton {
    let guard = |random: &mut Random| {
        if marks == 0 || random.once_in(2) {
            0
        } else {
            1 << random.below(marks as usize)
        }
    };
    let moves = (0..moves).map(|_| {
        let (from, to) = (
            random.below(states as usize) as u8,
            random.below(states as usize) as u8,
        );
        go(from, guard(random), guard(random), to)
    });
    let moves = moves.collect();
    let first = random.below(states as usize) as u8;
    let accept = random.below(1 << states) as u16;
    Automaton {
        states,
        first,
        accept,
        moves,
    }
}

/// One of the above, of at most `states` states.
pub fn some_rule(random: &mut Random, states: u8, marks: u8) -> Automaton {
    let most = random.between(1, states as usize) as u8;
    if marks == 0 || random.once_in(3) {
        let moves = random.below(3 * most as usize + 3);
        return chance(random, most, marks, moves.min(64));
    }
    let mark = random.below(marks as usize) as u8;
    let other = random.below(marks as usize) as u8;
    if states < 2 {
        return if random.once_in(3) {
            always()
        } else {
            never(mark)
        };
    }
    match random.below(8) {
        0 => never(mark),
        1 => again(mark),
        2 => once(mark),
        3 => settle(mark),
        4 => answered(mark, other),
        5 => counter(most, mark),
        6 => full(most.min(8), 1 << random.below(most.min(8) as usize)),
        _ => always(),
    }
}

/// From each state, under a label with the mark and under one without it, moves
/// to one state at least and to `most` at most, or to fewer where there would be
/// more moves than there may be. One state accepts.
pub fn branching(random: &mut Random, states: u8, mark: u8, most: usize) -> Automaton {
    let m = 1 << mark;
    let room = MAX_MOVES as usize / (2 * states as usize);
    let mut moves = Vec::new();
    for q in 0..states {
        for (need, bar) in [(m, 0), (0, m)] {
            let count = random.between(1, most.min(room).min(states as usize));
            let mut targets: Vec<u8> = (0..states).collect();
            random.shuffle(&mut targets);
            moves.extend(targets[..count].iter().map(|&r| go(q, need, bar, r)));
        }
    }
    rule(states, 1 << random.below(states as usize), moves)
}

/// So many soft rules of at most `states` states.
pub fn soft_rules(random: &mut Random, count: usize, states: u8, marks: u8) -> Vec<Soft> {
    let rules = (0..count)
        .map(|_| some_rule(random, states, marks))
        .collect();
    weighed(random, rules)
}

/// The rules as soft rules, in this order.
pub fn weighed(random: &mut Random, rules: Vec<Automaton>) -> Vec<Soft> {
    let weights = weights(random, rules.len());
    weights
        .into_iter()
        .zip(rules)
        .map(|(weight, rule)| Soft { weight, rule })
        .collect()
}

/// Weights that tie, that nearly tie, that are far apart.
fn weights(random: &mut Random, count: usize) -> Vec<u32> {
    let way = random.below(5);
    let common = random.between(1, 4_000_000) as u32;
    let weight = |random: &mut Random| match way {
        0 => common,
        1 => random.between(1, 2) as u32,
        2 => random.between(2, 3) as u32,
        3 => 1 << random.below(20),
        _ => *random.pick(&[1, 3_999_999, 4_000_000]),
    };
    (0..count).map(|_| weight(random)).collect()
}
