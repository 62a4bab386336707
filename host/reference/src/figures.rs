//! The cases of 01, "Figures to check against", that are files and answers; case
//! 6 as note 7 of 02 has it.

use crate::entry::BLOCK_BYTES;
use crate::handmade::{silent, x_under};
use crate::plan::{Automaton, Plan, Soft};
use crate::rules::{again, always, never, once};

pub struct Figure {
    pub name: &'static str,
    pub file: Vec<u8>,
    /// The length of the answer block.
    pub answer: usize,
    /// The lengths of the run-in's and the loop's buffer.
    pub buffers: (usize, usize),
    pub number: u32,
    pub line: u32,
    pub cost: u32,
    pub kept: u8,
}

/// Plan X.
pub fn x() -> Plan {
    Plan {
        marks: 2,
        labels: vec![0, 1, 2],
        start: 0,
        roads: vec![(0, 1), (1, 0), (0, 2), (2, 0)],
        hard: always(),
        soft: vec![soft(3, again(0)), soft(2, never(1))],
    }
}

pub fn soft(weight: u32, rule: Automaton) -> Soft {
    Soft { weight, rule }
}

/// Case 8: the soft rule is `once` without its waiting move.
pub fn start_marked() -> Plan {
    let mut rule = once(0);
    rule.moves.remove(1);
    Plan {
        marks: 1,
        labels: vec![1, 0],
        start: 0,
        roads: vec![(0, 1), (1, 1)],
        hard: always(),
        soft: vec![soft(1, rule)],
    }
}

/// Case 11: 128 places, 16 hard states; with or without a soft rule.
pub fn at_the_bound(with_rule: bool) -> Plan {
    Plan {
        marks: 0,
        labels: vec![0; 128],
        start: 0,
        roads: (0..128).map(|place| (place, (place + 1) % 128)).collect(),
        hard: Automaton {
            states: 16,
            ..always()
        },
        soft: if with_rule {
            vec![soft(1, always())]
        } else {
            Vec::new()
        },
    }
}

impl Figure {
    pub fn planned(name: &'static str, plan: Plan, number: u32, cost: u32, kept: u8) -> Figure {
        Figure {
            number,
            cost,
            kept,
            ..Figure::refused(name, plan.text().as_bytes(), 0, 0)
        }
    }

    pub fn refused(name: &'static str, file: &[u8], number: u32, line: u32) -> Figure {
        Figure {
            name,
            file: file.to_vec(),
            answer: BLOCK_BYTES,
            buffers: (2_048, 20_480),
            number,
            line,
            cost: 0,
            kept: 0,
        }
    }
}

pub fn figures() -> Vec<Figure> {
    let planned = Figure::planned;
    let refused = |name, file, number| Figure::refused(name, file, number, 1);
    let still = Automaton {
        moves: Vec::new(),
        ..never(1)
    };
    vec![
        planned("1", x(), 0, 0, 3),
        planned(
            "2",
            Plan {
                roads: vec![(0, 2), (2, 0)],
                ..x()
            },
            0,
            5,
            0,
        ),
        planned("3", x_under(again(1)), 0, 2, 1),
        planned(
            "4",
            Plan {
                soft: vec![soft(4, never(1)), soft(4, again(1))],
                ..x()
            },
            0,
            4,
            1,
        ),
        planned("5", x_under(silent()), 6, 0, 0),
        planned(
            "6",
            Plan {
                roads: Vec::new(),
                ..x()
            },
            0,
            3,
            2,
        ),
        planned(
            "7",
            Plan {
                soft: vec![soft(3, again(0)), soft(2, still)],
                ..x()
            },
            0,
            2,
            1,
        ),
        planned("8", start_marked(), 0, 0, 1),
        Figure {
            buffers: (18, 72),
            ..planned("10, enough", x(), 0, 0, 3)
        },
        Figure {
            buffers: (18, 71),
            ..planned("10, one less", x(), 5, 0, 0)
        },
        planned("11, no soft rule", at_the_bound(false), 0, 0, 0),
        planned("11, one soft rule", at_the_bound(true), 4, 0, 0),
        refused("12, empty", b"", 2),
        refused("12, tour=01", b"tour=01\n", 2),
        refused("12, tour=2", b"tour=2\n", 3),
    ]
}
