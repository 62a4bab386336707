//! Proposed tours to check: what may be made of a tour of the map, and lists
//! that owe nothing to it.

use crate::checker::Worth;
use crate::random::Random;
use crate::reader::Refusal;
use crate::walks::{Lists, Ways};

/// A run-in and a loop, and what is known of them from how they were made.
#[derive(Clone, Debug)]
pub struct Drawn {
    pub kind: &'static str,
    pub run_in: Vec<u8>,
    pub cycle: Vec<u8>,
    pub known: Known,
}

#[derive(Clone, Copy, Debug, PartialEq, Eq)]
pub enum Known {
    Nothing,
    /// It is a tour of the plan.
    Tour,
    /// This is the least index that breaks it.
    BreaksAt(u64),
}

impl Known {
    /// The answer, if it breaks; what a tour is worth is another matter.
    pub fn told(self) -> Option<Result<Worth, Refusal>> {
        match self {
            Known::BreaksAt(index) => Some(Err(Refusal::Broken { index })),
            _ => None,
        }
    }
}

impl Drawn {
    pub fn new(kind: &'static str, (run_in, cycle): Lists, known: Known) -> Drawn {
        Drawn {
            kind,
            run_in,
            cycle,
            known,
        }
    }
}

/// The kinds that a comparison should meet.
pub const KINDS: [&str; 26] = [
    OWN,
    OWN_RESPELLED,
    WALK,
    NO_RUN_IN,
    DOUBLED,
    TRIPLED,
    TURN_MOVED,
    PART_MOVED,
    ONE_PLACE,
    SEVERAL_PLACES,
    UNKNOWN,
    WRONG_START,
    OPEN,
    EMPTY_LOOP,
    EMPTY_LISTS,
    UNRELATED,
    REFUSED,
    LONG,
    LONG_BROKEN,
    PARKED,
    PARKED_EARLY,
    LEFT,
    STAY_IN_RUN_IN,
    STAY_IN_LOOP,
    STAY_AS_LOOP,
    NO_PLACE,
];
pub const OWN: &str = "planner's own";
pub const OWN_RESPELLED: &str = "planner's own respelled";
pub const WALK: &str = "closed walk";
pub const NO_RUN_IN: &str = "no run-in";
pub const DOUBLED: &str = "loop doubled";
pub const TRIPLED: &str = "loop tripled";
pub const TURN_MOVED: &str = "turn moved into the run-in";
pub const PART_MOVED: &str = "part of a turn moved into the run-in";
pub const ONE_PLACE: &str = "another place";
pub const SEVERAL_PLACES: &str = "several other places";
pub const UNKNOWN: &str = "unknown place";
pub const WRONG_START: &str = "wrong start";
pub const OPEN: &str = "no closing road";
pub const EMPTY_LOOP: &str = "empty loop";
pub const EMPTY_LISTS: &str = "empty lists";
pub const UNRELATED: &str = "lists of no relation";
pub const REFUSED: &str = "lists beside a refused plan";
pub const LONG: &str = "long lists";
pub const LONG_BROKEN: &str = "broken long lists";
pub const PARKED: &str = "parked in the loop";
pub const PARKED_EARLY: &str = "parked in the run-in and the loop";
pub const LEFT: &str = "dead end left";
pub const STAY_IN_RUN_IN: &str = "stay in the run-in where a road leads on";
pub const STAY_IN_LOOP: &str = "stay in the loop where a road leads on";
pub const STAY_AS_LOOP: &str = "stay as the loop where a road leads on";
pub const NO_PLACE: &str = "stay at a number that is no place";

/// So many places, about, have long lists.
pub const MANY: usize = 100_000;

/// The tour spelled in four other ways. Each drives the same places.
pub fn respelled((run_in, cycle): &Lists, random: &mut Random) -> Vec<Drawn> {
    let tour = |kind, run_in: &[&[u8]], cycle: &[&[u8]]| {
        Drawn::new(kind, (run_in.concat(), cycle.concat()), Known::Tour)
    };
    let (begun, rest) = cycle.split_at(random.between(1, cycle.len()));
    vec![
        tour(DOUBLED, &[run_in], &[cycle, cycle]),
        tour(TRIPLED, &[run_in], &[cycle, cycle, cycle]),
        tour(TURN_MOVED, &[run_in, cycle], &[cycle]),
        tour(PART_MOVED, &[run_in, begun], &[rest, begun]),
    ]
}

/// The tour broken in every way of note 4, some of them at each of these
/// indices.
pub fn broken(ways: &Ways, tour: &Lists, indices: &[usize], random: &mut Random) -> Vec<Drawn> {
    let (run_in, cycle) = tour;
    let length = run_in.len() + cycle.len();
    let mut all = Vec::new();
    for &index in indices {
        if let Some(place) = place_to_break(ways, tour, index, random) {
            let kind = if index == 0 { WRONG_START } else { ONE_PLACE };
            all.push(with_places(kind, tour, &[(index, place)]));
        }
        let place = unknown_place(ways, random);
        all.push(with_places(UNKNOWN, tour, &[(index, place)]));
    }
    // Each breaks the tour where it stands, whatever stands before.
    let mut others = Vec::new();
    for _ in 0..random.between(2, 4) {
        others.push(other_place(ways, tour, random.below(length), random));
    }
    all.push(with_places(SEVERAL_PLACES, tour, &others));
    let whole = [&run_in[..], cycle].concat();
    for before in [run_in.clone(), whole] {
        let known = Known::BreaksAt(before.len() as u64);
        all.push(Drawn::new(EMPTY_LOOP, (before, Vec::new()), known));
    }
    all
}

/// A place that breaks the tour at this index, in the place of its own.
fn place_to_break(
    ways: &Ways,
    (run_in, cycle): &Lists,
    index: usize,
    random: &mut Random,
) -> Option<u8> {
    let at = |index: usize| match index.checked_sub(run_in.len()) {
        None => run_in[index],
        Some(index) => cycle[index],
    };
    let breaks = |&place: &u8| match index {
        0 => place != ways.start(),
        _ => !ways.join(at(index - 1), place),
    };
    let places: Vec<u8> = (0..ways.places() as u8).filter(breaks).collect();
    (!places.is_empty()).then(|| *random.pick(&places))
}

/// The index with a place that breaks the tour there, known or unknown.
fn other_place(ways: &Ways, tour: &Lists, index: usize, random: &mut Random) -> (usize, u8) {
    let known = match random.once_in(2) {
        true => place_to_break(ways, tour, index, random),
        false => None,
    };
    (index, known.unwrap_or_else(|| unknown_place(ways, random)))
}

fn unknown_place(ways: &Ways, random: &mut Random) -> u8 {
    match random.below(3) {
        0 => ways.places() as u8,
        1 => *random.pick(&[128, 255]),
        _ => random.between(ways.places(), 255) as u8,
    }
}

/// The tour with other places, each of which breaks it if nothing before does.
fn with_places(kind: &'static str, (run_in, cycle): &Lists, others: &[(usize, u8)]) -> Drawn {
    let mut walk = [&run_in[..], cycle].concat();
    for &(index, place) in others {
        walk[index] = place;
    }
    let first = others.iter().map(|(index, _)| *index as u64).min();
    let cycle = walk.split_off(run_in.len());
    let known = first.map_or(Known::Tour, Known::BreaksAt);
    Drawn::new(kind, (walk, cycle), known)
}

/// Tours that park at a dead end of the map (02, note 7), in the loop alone and
/// in the run-in too, and lists that leave it again; none if no way leads to one.
pub fn parked(ways: &Ways, random: &mut Random) -> Vec<Drawn> {
    let ends = ways.dead_ends_reached();
    if ends.is_empty() {
        return Vec::new();
    }
    let end = *random.pick(&ends);
    let way = ways.way_to(end).expect("a way leads to it");
    let before = &way[..way.len() - 1];
    let stay = |least: usize, random: &mut Random| vec![end; random.between(least, 4)];
    let tour = |kind, run_in: &[&[u8]], cycle: Vec<u8>| {
        Drawn::new(kind, (run_in.concat(), cycle), Known::Tour)
    };
    let mut all = vec![
        tour(PARKED, &[before], stay(1, random)),
        tour(PARKED_EARLY, &[before, &stay(1, random)], stay(1, random)),
    ];
    // On to another place, from the first stay or a later one, or back to it as
    // the loop's beginning.
    let (early, late) = (stay(1, random), stay(0, random));
    let others = (0..ways.places() as u8).filter(|&place| place != end);
    let others: Vec<u8> = others.collect();
    if !others.is_empty() {
        let other = *random.pick(&others);
        let walk = [before, &early, &[other], &late].concat();
        let broken = Known::BreaksAt((before.len() + early.len()) as u64);
        let split = random.below(walk.len());
        let (run_in, cycle) = walk.split_at(split);
        all.push(Drawn::new(LEFT, (run_in.to_vec(), cycle.to_vec()), broken));
    }
    if !before.is_empty() {
        let (run_in, cycle) = way.split_at(random.below(before.len()));
        let cycle = [cycle, &stay(0, random)].concat();
        let broken = Known::BreaksAt((run_in.len() + cycle.len()) as u64);
        all.push(Drawn::new(LEFT, (run_in.to_vec(), cycle), broken));
    }
    all
}

/// The tour with a stay where a car may not park, since a road leads on and none
/// leads to the place itself: in the run-in, between run-in and loop, in the
/// loop, and as the whole loop. Where no place will do, that list is left out.
pub fn wrongly_parked(ways: &Ways, (run_in, cycle): &Lists, random: &mut Random) -> Vec<Drawn> {
    let walk = [&run_in[..], cycle].concat();
    let stays = |at: &usize| !ways.join(walk[*at], walk[*at]);
    let in_run_in: Vec<usize> = (0..run_in.len()).filter(stays).collect();
    let in_loop: Vec<usize> = (run_in.len()..walk.len()).filter(stays).collect();
    let mut all = Vec::new();
    let mut add = |kind, mut walk: Vec<u8>, split: usize, index: usize| {
        let cycle = walk.split_off(split);
        let known = Known::BreaksAt(index as u64);
        all.push(Drawn::new(kind, (walk, cycle), known));
    };
    // So many times more the place stands behind itself.
    let longer = |at: usize, more: usize| {
        let place = walk[at];
        [&walk[..at], &vec![place; more + 1], &walk[at + 1..]].concat()
    };
    if !in_run_in.is_empty() {
        let (at, more) = (*random.pick(&in_run_in), random.between(1, 3));
        add(
            STAY_IN_RUN_IN,
            longer(at, more),
            run_in.len() + more,
            at + 1,
        );
        // The stay begins in the run-in and goes on in the loop.
        let last = run_in.len() - 1;
        if stays(&last) {
            add(STAY_IN_RUN_IN, longer(last, 1), last + 1, last + 1);
        }
    }
    if !in_loop.is_empty() {
        let (at, more) = (*random.pick(&in_loop), random.between(1, 3));
        add(STAY_IN_LOOP, longer(at, more), run_in.len(), at + 1);
        let at = *random.pick(&in_loop);
        add(STAY_AS_LOOP, walk[..=at].to_vec(), at, at + 1);
        // The loop's last place is its first too.
        if stays(&run_in.len()) {
            let closed = [&walk[..], &[cycle[0]]].concat();
            add(STAY_AS_LOOP, closed, run_in.len(), walk.len() + 1);
        }
    }
    all
}

/// A way to some place, and then a stay at a number that is no place: as the
/// loop, in the run-in too, or from the beginning.
pub fn parked_nowhere(ways: &Ways, walk: &[u8], random: &mut Random) -> Drawn {
    let nowhere = unknown_place(ways, random);
    let before = &walk[..random.below(walk.len() + 1)];
    let stay = |count: usize| vec![nowhere; count];
    let run_in = [before, &stay(random.below(3))].concat();
    let known = Known::BreaksAt(before.len() as u64);
    let cycle = stay(random.between(1, 3));
    Drawn::new(NO_PLACE, (run_in, cycle), known)
}

/// A walk of the map as a run-in and a loop that does not close.
pub fn open(ways: &Ways, walk: &[u8], random: &mut Random) -> Option<Drawn> {
    let lists = ways.open(walk, random)?;
    let known = Known::BreaksAt(walk.len() as u64);
    Some(Drawn::new(OPEN, lists, known))
}

pub fn empty_lists() -> Drawn {
    let lists = (Vec::new(), Vec::new());
    Drawn::new(EMPTY_LISTS, lists, Known::BreaksAt(0))
}

/// Lists by chance: of places below some number, or of any bytes.
pub fn unrelated(kind: &'static str, random: &mut Random) -> Drawn {
    let below = *random.pick(&[1, 2, 3, 8, 128, 256]);
    let mut places = |most: usize| -> Vec<u8> {
        let count = random.below(most + 1);
        (0..count).map(|_| random.below(below) as u8).collect()
    };
    let lists = (places(5), places(6));
    Drawn::new(kind, lists, Known::Nothing)
}

/// The tour with so many turns in its loop that it is long, or in its run-in.
pub fn long_respelled((run_in, cycle): &Lists, random: &mut Random) -> Drawn {
    let turns = cycle.repeat(MANY / cycle.len());
    let lists = match random.once_in(2) {
        true => (run_in.clone(), turns),
        false => ([&run_in[..], &turns].concat(), cycle.clone()),
    };
    Drawn::new(LONG, lists, Known::Tour)
}

/// A walk of the map of very many places, closed to a tour.
pub fn long_walk(ways: &Ways, random: &mut Random) -> Option<Drawn> {
    let walk = ways.walk(random, MANY);
    let lists = ways.closed(&walk, random)?;
    Some(Drawn::new(LONG, lists, Known::Tour))
}

/// A long tour with one other place near its end, or with several.
pub fn long_broken(ways: &Ways, tour: &Lists, random: &mut Random) -> Drawn {
    let length = tour.0.len() + tour.1.len();
    let near_the_end = length - 1 - random.below(length.min(3));
    let indices = match random.once_in(3) {
        true => vec![near_the_end, random.below(length)],
        false => vec![near_the_end],
    };
    let others: Vec<(usize, u8)> = indices
        .into_iter()
        .map(|index| other_place(ways, tour, index, random))
        .collect();
    with_places(LONG_BROKEN, tour, &others)
}
