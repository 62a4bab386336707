//! Plans with dead ends (02, note 7), and with what may be taken for one, whose
//! answers were worked out by hand.

use crate::figures::{soft, Figure};
use crate::handmade::{
    dead_end, first_only, one_place, second_move, sides, silent, two_places, x_with,
};
use crate::maps::{ring, row};
use crate::plan::{Automaton, Plan, Road, Soft};
use crate::rules::{again, always, counter, never, once, settle};

pub fn fixed_parking() -> Vec<Figure> {
    let mut all = one_end();
    all.extend(of_the_start());
    all.extend(with_a_road_out());
    all.extend(over_x());
    all.extend(of_many_places());
    all
}

fn tour(name: &'static str, plan: Plan, cost: u32, kept: u8) -> Figure {
    Figure::planned(name, plan, 0, cost, kept)
}

fn none(name: &'static str, plan: Plan) -> Figure {
    Figure::planned(name, plan, 6, 0, 0)
}

/// A road to a place with the mark, which no road leaves. The one tour there is
/// has the mark at every step but the first.
fn one_end() -> Vec<Figure> {
    let under = |hard| dead_end(hard, Vec::new());
    let rules = |rules: Vec<Soft>| dead_end(always(), rules);
    vec![
        tour("mark again", under(again(0)), 0, 0),
        tour("mark from some step on", under(settle(0)), 0, 0),
        tour("three marks again and again", under(counter(3, 0)), 0, 0),
        tour("sides", under(sides()), 0, 0),
        tour("second move", under(second_move()), 0, 0),
        none("no mark", under(never(0))),
        none("first state alone", under(first_only())),
        none("nothing accepted", under(silent())),
        tour(
            "the one rule or the other",
            rules(vec![soft(1, never(0)), soft(2, again(0))]),
            1,
            2,
        ),
        tour(
            "both rules",
            rules(vec![soft(1, once(0)), soft(2, settle(0))]),
            0,
            3,
        ),
        tour(
            "neither rule",
            rules(vec![soft(1, first_only()), soft(2, never(0))]),
            3,
            0,
        ),
        tour(
            "rules that watch",
            rules(vec![soft(0, never(0)), soft(0, settle(0))]),
            0,
            2,
        ),
    ]
}

/// The start is a dead end itself.
fn of_the_start() -> Vec<Figure> {
    let bare = |label, hard, soft| Plan {
        marks: 1,
        labels: vec![label],
        roads: Vec::new(),
        ..one_place(hard, soft)
    };
    let kept = vec![soft(1, again(0)), soft(2, never(0))];
    let start = |start, plan| Plan { start, ..plan };
    vec![
        tour("one place", bare(0, always(), Vec::new()), 0, 0),
        none("one place, nothing accepted", bare(0, silent(), Vec::new())),
        tour("one marked place", bare(1, again(0), kept.clone()), 2, 1),
        tour("one unmarked place", bare(0, always(), kept), 1, 2),
        none("one unmarked place, mark", bare(0, again(0), Vec::new())),
        tour("roads to the start alone", x_with(&[(1, 0), (2, 0)]), 3, 2),
        tour("roads elsewhere", x_with(&[(1, 2), (2, 1)]), 3, 2),
        tour("start 1 of no roads", start(1, x_with(&[])), 0, 3),
        tour("start 2 of no roads", start(2, x_with(&[])), 5, 0),
        tour("start 1, a road from 0", start(1, x_with(&[(0, 1)])), 0, 3),
        tour("start 1, a road to 0", start(1, x_with(&[(1, 0)])), 3, 2),
        none(
            "parking at the start is not enough",
            Plan {
                hard: again(0),
                ..x_with(&[(1, 0), (2, 1)])
            },
        ),
    ]
}

/// Places with the mark at which a car would park if it might.
fn with_a_road_out() -> Vec<Figure> {
    let settled = |roads: &[Road]| Plan {
        roads: roads.to_vec(),
        ..dead_end(settle(0), Vec::new())
    };
    let softly = |roads: &[Road]| Plan {
        roads: roads.to_vec(),
        ..dead_end(always(), vec![soft(5, settle(0)), soft(3, once(0))])
    };
    let three = |roads: &[Road]| Plan {
        hard: settle(0),
        soft: Vec::new(),
        ..x_with(roads)
    };
    let third_softly = |roads: &[Road]| Plan {
        soft: vec![soft(5, settle(0)), soft(2, once(1))],
        ..x_with(roads)
    };
    let start_marked = |roads: &[Road]| Plan {
        labels: vec![1, 0],
        ..settled(roads)
    };
    vec![
        none("a road back", settled(&[(0, 1), (1, 0)])),
        none("a road back, listed first", settled(&[(1, 0), (0, 1)])),
        tour("a road back, softly", softly(&[(0, 1), (1, 0)]), 5, 2),
        tour("a road to itself", settled(&[(0, 1), (1, 1)]), 0, 0),
        tour(
            "a road to itself and one back",
            settled(&[(0, 1), (1, 1), (1, 0)]),
            0,
            0,
        ),
        none("on to a dead end", three(&[(0, 1), (1, 2)])),
        none("on to a dead end, listed first", three(&[(1, 2), (0, 1)])),
        none(
            "on to a dead end, listed between",
            three(&[(0, 1), (1, 2), (0, 2)]),
        ),
        tour(
            "on to a dead end, softly",
            third_softly(&[(0, 1), (1, 2)]),
            5,
            2,
        ),
        tour("a dead end beside", third_softly(&[(0, 1), (0, 2)]), 2, 1),
        none("a road out of the start", start_marked(&[(0, 1)])),
        none(
            "a road out of the start and one back",
            start_marked(&[(0, 1), (1, 0)]),
        ),
        tour(
            "a road from the start to itself",
            start_marked(&[(0, 1), (0, 0)]),
            0,
            0,
        ),
        none("not reached", settled(&[(0, 0)])),
        tour("not reached, softly", softly(&[(0, 0)]), 8, 0),
        none("reached from elsewhere alone", three(&[(2, 1)])),
    ]
}

/// Plan X with other roads: again 0 (3), never 1 (2).
fn over_x() -> Vec<Figure> {
    let again_each = |weights: [u32; 2]| Plan {
        soft: vec![soft(weights[0], again(0)), soft(weights[1], again(1))],
        ..x_with(&[(0, 1), (0, 2)])
    };
    vec![
        tour("driving is better", x_with(&[(0, 1), (1, 0), (0, 2)]), 0, 3),
        tour("parking is better", x_with(&[(0, 2), (2, 0), (0, 1)]), 0, 3),
        tour("no choice", x_with(&[(0, 2)]), 5, 0),
        tour("the heavier end", again_each([3, 4]), 3, 2),
        tour("the first end", again_each([4, 4]), 4, 1),
        tour(
            "the ends exclude each other",
            Plan {
                hard: again(1),
                ..x_with(&[(0, 1), (0, 2)])
            },
            5,
            0,
        ),
        none(
            "neither end",
            Plan {
                hard: settle(0),
                labels: vec![0, 0, 2],
                ..x_with(&[(0, 1), (0, 2)])
            },
        ),
        tour(
            "a loop on the way, then the end",
            Plan {
                hard: settle(1),
                soft: vec![soft(3, once(0)), soft(2, again(0))],
                ..x_with(&[(0, 1), (1, 0), (0, 2)])
            },
            2,
            1,
        ),
    ]
}

/// A row of all places that there may be; the last one has the mark.
fn of_many_places() -> Vec<Figure> {
    let row_of = |places: usize, hard: Automaton, roads: Vec<Road>| Plan {
        labels: (1..=places).map(|i| (i == places) as u8).collect(),
        roads,
        hard,
        ..two_places(Vec::new())
    };
    let marked_at = |place: usize, plan: Plan| Plan {
        labels: (0..128).map(|i| (i == place) as u8).collect(),
        ..plan
    };
    let all = row(0, 128);
    vec![
        tour("128 places", row_of(128, settle(0), all.clone()), 0, 0),
        none("128 places, round", row_of(128, settle(0), ring(128))),
        none(
            "128 places, the mark at place 63",
            marked_at(63, row_of(128, settle(0), all.clone())),
        ),
        none(
            "128 places, the mark at place 64",
            marked_at(64, row_of(128, again(0), all)),
        ),
        tour("64 places", row_of(64, again(0), row(0, 64)), 0, 0),
        tour("65 places", row_of(65, again(0), row(0, 65)), 0, 0),
        tour(
            "128 places, no roads",
            Plan {
                start: 127,
                ..row_of(128, again(0), Vec::new())
            },
            0,
            0,
        ),
        tour(
            "place 64 alone without a road out",
            marked_at(
                64,
                Plan {
                    roads: [ring(128), vec![(0, 64)]]
                        .concat()
                        .into_iter()
                        .filter(|&(from, _)| from != 64)
                        .collect(),
                    ..row_of(128, settle(0), Vec::new())
                },
            ),
            0,
            0,
        ),
    ]
}
