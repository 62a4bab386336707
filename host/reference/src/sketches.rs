//! Fixed tours to check: some with their answers worked out by hand, all lists
//! of few places for small maps, and long ones.

use crate::cases::Case;
use crate::checker::{Block, Worth};
use crate::drawn::{Drawn, Known, MANY};
use crate::figures::{at_the_bound, soft, start_marked, x};
use crate::handmade::{
    dead_end, first_only, one_place, second_move, silent, two_places, x_under, x_watching, x_with,
};
use crate::plan::{Plan, MAX_PLAN_BYTES, MAX_SIZE};
use crate::random::Random;
use crate::reader::Refusal;
use crate::rules::{again, always, counter, go, never, rule, settle};
use crate::shapes::{large, Shape};
use crate::walks::Ways;

/// A tour with what it is worth, or the index that breaks it, by hand.
pub struct ByHand {
    pub name: &'static str,
    pub plan: Plan,
    pub run_in: &'static [u8],
    pub cycle: &'static [u8],
    pub told: Block,
}

pub fn by_hand() -> Vec<ByHand> {
    let row = |name, plan: &Plan, run_in, cycle, told: Result<Worth, Refusal>| ByHand {
        name,
        plan: plan.clone(),
        run_in,
        cycle,
        told: told.into(),
    };
    let tour = |accepted, cost, kept| {
        Ok(Worth {
            accepted,
            cost,
            kept,
        })
    };
    let at = |index| Err(Refusal::Broken { index });
    let (x, start_marked) = (&x(), &start_marked());
    let (ramp_again, silent) = (&x_under(again(1)), &x_under(silent()));
    let unmarked = &Plan {
        labels: vec![0, 1],
        ..start_marked.clone()
    };
    let (choosing, watching) = (&choosing(), &x_watching());
    let rules = vec![soft(1, again(0)), soft(2, never(0))];
    let end = &dead_end(always(), rules.clone());
    let no_mark = &dead_end(never(0), rules);
    let no_roads = &x_with(&[]);
    let (behind, ends) = (&x_with(&[(0, 1), (1, 2)]), &x_with(&[(0, 1), (0, 2)]));
    vec![
        row("keeps all", x, &[], &[0, 1], tour(true, 0, 3)),
        row("loses all", x, &[], &[0, 2], tour(true, 5, 0)),
        row("keeps one", x, &[], &[0, 1, 0, 2], tour(true, 2, 1)),
        row("lost in the run-in", x, &[0, 2], &[0, 1], tour(true, 2, 1)),
        row("met in the run-in", x, &[0, 1], &[0, 2], tour(true, 5, 0)),
        row("not accepted", ramp_again, &[], &[0, 1], tour(false, 0, 3)),
        row("accepted", ramp_again, &[0], &[2, 0], tour(true, 5, 0)),
        row("by nothing", silent, &[], &[0, 1, 0, 2], tour(false, 2, 1)),
        row("start's label", start_marked, &[0], &[1], tour(true, 0, 1)),
        row("no start's label", unmarked, &[0], &[1], tour(true, 1, 0)),
        row("choices", choosing, &[], &[0], tour(true, 5, 10)),
        row("choices later", choosing, &[0, 1], &[0], tour(true, 5, 10)),
        row(
            "choices beside a mark",
            choosing,
            &[],
            &[0, 1],
            tour(true, 13, 2),
        ),
        row("watched, none", watching, &[], &[0, 1], tour(true, 0, 6)),
        row("watched, both", watching, &[], &[0, 2], tour(true, 5, 9)),
        row("watched, one", watching, &[0, 1], &[0, 2], tour(true, 5, 1)),
        row(
            "watched later",
            watching,
            &[0, 2],
            &[0, 1],
            tour(true, 2, 2),
        ),
        row("unknown place", x, &[0, 3], &[0, 1], at(1)),
        row("unknown place of the loop", x, &[0, 1], &[0, 255], at(3)),
        row("wrong start", x, &[1], &[0, 1], at(0)),
        row("wrong start of the loop", x, &[], &[2, 0], at(0)),
        row("unknown start", x, &[], &[3], at(0)),
        row("no road", x, &[0, 0], &[1, 0], at(1)),
        row("no road to the loop", x, &[0, 1], &[2, 0], at(2)),
        row("no road in the loop", x, &[0], &[1, 0, 0, 1], at(3)),
        row("no road back", start_marked, &[], &[0, 1], at(2)),
        row("no closing road", x, &[0, 1], &[0, 2, 0], at(5)),
        row("lone place", x, &[], &[0], at(1)),
        row("empty loop", x, &[0, 1, 0], &[], at(3)),
        row("wrong start, empty loop", x, &[1, 0], &[], at(0)),
        row("empty lists", x, &[], &[], at(0)),
        row("two missing roads", x, &[0, 0, 1], &[2, 0], at(1)),
        row("no road, no closing road", x, &[0, 1], &[1], at(2)),
        row("no road, unknown place", x, &[0, 1, 1], &[7], at(2)),
        row("unknown place, empty loop", x, &[0, 200], &[], at(1)),
        row("parks", end, &[0], &[1], tour(true, 2, 1)),
        row("parks twice", end, &[0], &[1, 1], tour(true, 2, 1)),
        row(
            "parks before the loop",
            end,
            &[0, 1],
            &[1],
            tour(true, 2, 1),
        ),
        row(
            "parks for long",
            end,
            &[0, 1, 1, 1],
            &[1, 1, 1],
            tour(true, 2, 1),
        ),
        row(
            "parks, not accepted",
            no_mark,
            &[0],
            &[1],
            tour(false, 2, 1),
        ),
        row("parks at the start", no_roads, &[], &[0], tour(true, 3, 2)),
        row(
            "parks at the start for long",
            no_roads,
            &[0, 0],
            &[0, 0, 0],
            tour(true, 3, 2),
        ),
        row("parks behind two", behind, &[0, 1], &[2], tour(true, 5, 0)),
        row("parks at the first", ends, &[0], &[1, 1], tour(true, 0, 3)),
        row("parks at the other", ends, &[0, 2], &[2], tour(true, 5, 0)),
        row("stays in the run-in", end, &[0, 0], &[1], at(1)),
        row("stays before the loop", end, &[0], &[0, 1], at(1)),
        row("stays as the loop", end, &[], &[0], at(1)),
        row("stays in the loop", end, &[], &[0, 0], at(1)),
        row("stays behind a road", behind, &[0], &[1], at(2)),
        row("stays behind a road twice", behind, &[0], &[1, 1], at(2)),
        row("stays on the way", behind, &[0, 1, 1], &[2], at(2)),
        row("stays in a loop", x, &[], &[0, 1, 1], at(2)),
        row("stays to close a loop", x, &[0], &[1, 0, 1], at(4)),
        row("leaves a dead end", end, &[0], &[1, 0], at(2)),
        row("leaves a dead end later", end, &[0, 1, 1], &[0, 1], at(3)),
        row("closes behind a dead end", end, &[], &[0, 1], at(2)),
        row("closes later", end, &[], &[0, 1, 1, 1], at(4)),
        row("from one dead end to another", ends, &[0, 1], &[2], at(2)),
        row("parks at no place", end, &[0], &[2], at(1)),
        row("parks at no place twice", end, &[0, 1], &[2, 2], at(2)),
        row("parks at no place early", no_roads, &[0, 3], &[3], at(1)),
        row("parks at no place at once", no_roads, &[], &[255], at(0)),
        row("parks at another place", no_roads, &[], &[1], at(0)),
        row("parks without a loop", no_roads, &[0, 0], &[], at(2)),
    ]
}

/// Two places, every road, and soft rules that are easily taken for others: one
/// that accepts in its first state alone, which it leaves; one whose second
/// move counts; two that guess, the one from when on the mark is always there,
/// the other from when on it never is.
fn choosing() -> Plan {
    let guesses = rule(2, 2, vec![go(0, 0, 0, 0), go(0, 0, 0, 1), go(1, 0, 1, 1)]);
    two_places(vec![
        soft(1, first_only()),
        soft(2, second_move()),
        soft(4, settle(0)),
        soft(8, guesses),
    ])
}

/// A small map for which all lists of these places are tried, with so many in
/// the run-in and in the loop at most.
pub struct SmallMap {
    pub name: &'static str,
    pub plan: Plan,
    pub places: &'static [u8],
    pub most: (usize, usize),
}

pub fn small_maps() -> Vec<SmallMap> {
    let row = |name, plan, places, most| SmallMap {
        name,
        plan,
        places,
        most,
    };
    let marked = vec![soft(1, counter(2, 0)), soft(2, never(0))];
    let marked = Plan {
        marks: 1,
        labels: vec![1],
        ..one_place(counter(3, 0), marked)
    };
    let all_watching = two_places(vec![soft(0, never(0)), soft(0, again(0))]);
    let rules = || vec![soft(1, again(0)), soft(2, never(0))];
    vec![
        row("plan X", x(), &[0, 1, 2, 255], (3, 3)),
        row("plan X, ramp again", x_under(again(1)), &[0, 1, 2], (3, 3)),
        row("plan X, watching", x_watching(), &[0, 1, 2], (3, 3)),
        row("all watching", all_watching, &[0, 1], (3, 3)),
        row("case 8", start_marked(), &[0, 1, 128], (3, 3)),
        row("choices", choosing(), &[0, 1], (4, 5)),
        row("one place", marked, &[0, 1], (4, 5)),
        row("dead end", dead_end(always(), rules()), &[0, 1, 2], (3, 3)),
        row("case 6", x_with(&[]), &[0, 1, 3], (3, 3)),
        row(
            "plan X, a dead end",
            x_with(&[(0, 1), (1, 0), (0, 2)]),
            &[0, 1, 2],
            (3, 3),
        ),
        row(
            "plan X, a dead end and a stay",
            x_with(&[(0, 0), (0, 1), (0, 2), (2, 1)]),
            &[0, 1, 2],
            (3, 3),
        ),
        row(
            "start at a dead end",
            Plan {
                start: 1,
                ..x_with(&[(0, 1), (0, 2), (2, 0)])
            },
            &[0, 1, 2],
            (3, 3),
        ),
    ]
}

/// All lists of up to so many of these places.
pub fn every_list(places: &[u8], most: usize) -> Vec<Vec<u8>> {
    let mut all = vec![Vec::new()];
    let mut longest = all.clone();
    for _ in 0..most {
        let longer = |list: &Vec<u8>| {
            let list = list.clone();
            places
                .iter()
                .map(move |&place| [&list[..], &[place]].concat())
        };
        longest = longest.iter().flat_map(longer).collect();
        all.extend(longest.clone());
    }
    all
}

/// Plans and lists for every block of up to 40 bytes, with what each comes to if
/// it is long enough.
pub fn block_tours() -> Vec<(Case, Drawn)> {
    let row = |kind: &str, file: Vec<u8>, cycle: Vec<u8>| {
        let drawn = Drawn::new("block", (Vec::new(), cycle), Known::Nothing);
        (Case::new(&format!("number {kind}"), file), drawn)
    };
    let text = |plan: Plan| plan.text().into_bytes();
    let spoilt = |from, to| x().text().replace(from, to).into_bytes();
    let doubled = spoilt("road=1,0", "road=0,1");
    vec![
        row("0, accepted", text(x()), vec![0, 1]),
        row("0, not accepted", text(x_under(silent())), vec![0, 1]),
        row("1", vec![b'1'; MAX_PLAN_BYTES + 1], vec![0, 1]),
        row("2", spoilt("rules", "rule"), vec![0, 1]),
        row("3", spoilt("start=0", "start=3"), vec![0, 1]),
        row("4", text(at_the_bound(true)), vec![0, 1]),
        row("9", text(x()), vec![0, 1, 1]),
        row("10", doubled.clone(), vec![0, 1]),
        row("10, no tour", doubled, vec![0, 1, 1]),
    ]
}

/// Lists of very many places, and of about as many as a machine word of two
/// bytes counts.
pub fn long_tours() -> Vec<(Case, Drawn)> {
    let mut all = Vec::new();
    let mut add = |plan: &Plan, lists: (Vec<u8>, Vec<u8>), known| {
        let case = Case::new("long lists", plan.text().into_bytes());
        all.push((case, Drawn::new("long lists", lists, known)));
    };
    let alternating = |length: usize| -> Vec<u8> { (0..length).map(|i| i as u8 % 2).collect() };
    for length in [254, 65_534, MANY] {
        let turns = alternating(length);
        let end = length as u64;
        let longer = |more: &[u8]| [&turns[..], more].concat();
        add(&x(), (Vec::new(), turns.clone()), Known::Tour);
        add(&x(), (turns.clone(), vec![0, 2]), Known::Tour);
        add(&x(), (turns.clone(), turns.clone()), Known::Tour);
        add(&x(), (Vec::new(), longer(&[0, 2])), Known::Tour);
        add(&x(), (turns.clone(), Vec::new()), Known::BreaksAt(end));
        add(&x(), (turns.clone(), vec![2]), Known::BreaksAt(end));
        add(&x(), (Vec::new(), longer(&[1])), Known::BreaksAt(end));
        add(&x(), (Vec::new(), longer(&[0])), Known::BreaksAt(end + 1));
        add(
            &x(),
            (vec![0, 1], longer(&[0, 3])),
            Known::BreaksAt(end + 3),
        );
        add(
            &x(),
            (longer(&[0]), turns.clone()),
            Known::BreaksAt(end + 1),
        );
        add(
            &x(),
            (turns.clone(), longer(&[0])),
            Known::BreaksAt(2 * end + 1),
        );
        add(&x(), (vec![1], turns.clone()), Known::BreaksAt(0));
    }
    let end = dead_end(always(), vec![soft(1, counter(3, 0)), soft(2, settle(0))]);
    for length in [254, MANY] {
        let stay = vec![1; length];
        let begun = [&[0], &stay[..]].concat();
        let after = |more: &[u8]| [&begun[..], more].concat();
        let end_of = length as u64 + 1;
        add(&end, (vec![0], stay.clone()), Known::Tour);
        add(&end, (begun.clone(), vec![1]), Known::Tour);
        add(&end, (begun.clone(), stay.clone()), Known::Tour);
        add(&end, (begun.clone(), vec![0]), Known::BreaksAt(end_of));
        add(&end, (Vec::new(), begun.clone()), Known::BreaksAt(end_of));
        add(&end, (after(&[2]), vec![2]), Known::BreaksAt(end_of));
        add(
            &end,
            (vec![0], [&stay[..], &[0]].concat()),
            Known::BreaksAt(end_of),
        );
        let turns = alternating(length);
        let stays = [&turns[..], &[1]].concat();
        let at = length as u64;
        add(&x(), (stays.clone(), vec![0, 1]), Known::BreaksAt(at));
        add(&x(), (Vec::new(), stays), Known::BreaksAt(at));
        add(&x(), (turns, vec![0]), Known::BreaksAt(at + 1));
    }
    for (seed, shape) in (0..).zip([Shape::Wide, Shape::Rules, Shape::Dense, Shape::Mixed]) {
        let random = &mut Random::new(seed);
        let plan = large(shape, MAX_SIZE, random);
        let ways = Ways::of(&plan);
        let walk = ways.walk(random, MANY);
        if let Some(lists) = ways.closed(&walk, random) {
            add(&plan, lists, Known::Tour);
        }
    }
    all
}
