//! Small plans and rules made by hand, for fixed cases and for tests.

use crate::figures::{soft, start_marked, x};
use crate::maps::all_roads;
use crate::plan::{Automaton, Plan, Road, Soft};
use crate::rules::{again, always, go, never, rule};

/// One place without marks, and a road from it to itself.
pub fn one_place(hard: Automaton, soft: Vec<Soft>) -> Plan {
    Plan {
        marks: 0,
        labels: vec![0],
        start: 0,
        roads: vec![(0, 0)],
        hard,
        soft,
    }
}

/// One place, and eight rules that accept its tours where `kept` has a bit.
pub fn eight_rules(kept: u8, weights: [u32; 8]) -> Plan {
    let rule = |i: usize| match kept >> i & 1 {
        1 => always(),
        _ => silent(),
    };
    let rules = weights.into_iter().enumerate();
    one_place(
        always(),
        rules.map(|(i, weight)| soft(weight, rule(i))).collect(),
    )
}

/// Two places with every road, the second with the mark.
pub fn two_places(soft: Vec<Soft>) -> Plan {
    Plan {
        marks: 1,
        labels: vec![0, 1],
        roads: all_roads(2),
        ..one_place(always(), soft)
    }
}

/// Two places without marks, a road from the first to the second and from
/// there to itself; one soft rule.
pub fn lane(rule: Automaton) -> Plan {
    Plan {
        labels: vec![0, 0],
        soft: vec![soft(1, rule)],
        ..start_marked()
    }
}

/// Plan X with other roads.
pub fn x_with(roads: &[Road]) -> Plan {
    let roads = roads.to_vec();
    Plan { roads, ..x() }
}

/// Two places, the second with the mark, and a road from the first to the second,
/// which is a dead end.
pub fn dead_end(hard: Automaton, soft: Vec<Soft>) -> Plan {
    Plan {
        roads: vec![(0, 1)],
        hard,
        ..two_places(soft)
    }
}

/// Plan X with another hard rule.
pub fn x_under(hard: Automaton) -> Plan {
    Plan { hard, ..x() }
}

/// Plan X with a rule before its own and one behind them that only watch.
pub fn x_watching() -> Plan {
    let [again_0, never_1] = [soft(3, again(0)), soft(2, never(1))];
    Plan {
        soft: vec![soft(0, again(1)), again_0, never_1, soft(0, never(0))],
        ..x()
    }
}

/// Accepts no tour.
pub fn silent() -> Automaton {
    rule(1, 0, vec![go(0, 0, 0, 0)])
}

/// Accepts in its first state alone, which it leaves for good.
pub fn first_only() -> Automaton {
    rule(2, 1, vec![go(0, 0, 0, 1), go(1, 0, 0, 1)])
}

/// Accepts every tour, by the second of the moves that fit at first.
pub fn second_move() -> Automaton {
    let moves = [(0, 1), (0, 2), (1, 1), (2, 2)];
    rule(3, 4, moves.map(|(q, r)| go(q, 0, 0, r)).to_vec())
}

/// Changes sides at every step, and accepts on one of them.
pub fn sides() -> Automaton {
    rule(2, 2, vec![go(0, 0, 0, 1), go(1, 0, 0, 0)])
}
