//! Plans with roads that are written twice (02, note 6), and with what may be
//! taken for one, whose answers were worked out by hand.

use crate::checker::Worth;
use crate::figures::{at_the_bound, x, Figure};
use crate::handmade::{one_place, silent, x_under};
use crate::maps::all_roads;
use crate::plan::{Plan, Road, MAX_PLAN_BYTES};
use crate::reader::Refusal;
use crate::rules::{always, go, rule};
use crate::{checker, entry};

/// A plan, what `plan_tour` says of it, and what `check_tour` says of a tour.
pub struct FixedCopy {
    pub figure: Figure,
    pub run_in: &'static [u8],
    pub cycle: &'static [u8],
    /// The length of the block for `check_tour`.
    pub check: usize,
    pub told: Result<Worth, Refusal>,
}

/// The first road of plan X is line 9.
pub fn fixed_copies() -> Vec<FixedCopy> {
    let mut all = copies_of_x();
    all.extend(beside_other_faults());
    all.extend(of_long_lists());
    all.extend(that_pass());
    all
}

/// Refused with 10 by both, with this line.
fn doubled(name: &'static str, file: &str, line: u32) -> FixedCopy {
    refused(name, file, Refusal::Doubled { line })
}

fn refused(name: &'static str, file: &str, refusal: Refusal) -> FixedCopy {
    FixedCopy {
        figure: Figure::refused(name, file.as_bytes(), refusal.number(), refusal.line()),
        run_in: &[],
        cycle: &[0, 1],
        check: checker::BLOCK_BYTES,
        told: Err(refusal),
    }
}

fn form(name: &'static str, file: &str, line: u32) -> FixedCopy {
    refused(name, file, Refusal::Form { line })
}

fn range(name: &'static str, file: &str, line: u32) -> FixedCopy {
    refused(name, file, Refusal::Range { line })
}

/// A plan that passes, with what its best tour is worth; the given one is worth
/// as much.
fn passes(
    name: &'static str,
    plan: Plan,
    (cost, kept): (u32, u8),
    (run_in, cycle): (&'static [u8], &'static [u8]),
) -> FixedCopy {
    FixedCopy {
        figure: Figure::planned(name, plan, 0, cost, kept),
        run_in,
        cycle,
        check: checker::BLOCK_BYTES,
        told: Ok(Worth {
            accepted: true,
            cost,
            kept,
        }),
    }
}

fn x_with(roads: &[Road]) -> String {
    let roads = roads.to_vec();
    Plan { roads, ..x() }.text()
}

/// Copies without another faulty line, most of them in plan X, and beside the
/// causes that are none of a line.
pub fn copies_of_x() -> Vec<FixedCopy> {
    let no_tour = Plan {
        roads: vec![(0, 1), (1, 0), (0, 1)],
        ..x_under(silent())
    };
    let dead_end = x_with(&[(0, 1), (0, 1)]);
    let too_large = at_the_bound(true).text();
    let too_large = too_large.replace("road=127,0\n", "road=0,1\n");
    let five = x_with(&[(0, 1), (1, 0), (0, 2), (2, 0), (1, 0)]);
    let buffers = |run_in, cycle| {
        let mut fixed = doubled("buffers too short", &five, 13);
        fixed.figure.buffers = (run_in, cycle);
        fixed
    };
    let mut short = doubled("block too short", &five, 13);
    short.figure.answer = entry::BLOCK_BYTES - 1;
    short.figure.number = entry::BLOCK_TOO_SHORT;
    short.check = checker::BLOCK_BYTES - 1;
    let mut longer = doubled("block longer than asked for", &five, 13);
    longer.figure.answer = entry::BLOCK_BYTES + 4;
    longer.check = checker::BLOCK_BYTES + 4;
    let long = format!("{five}{}", "0".repeat(MAX_PLAN_BYTES + 1 - five.len()));
    vec![
        doubled(
            "copy on the next line",
            &x_with(&[(0, 1), (0, 1), (1, 0), (0, 2), (2, 0)]),
            10,
        ),
        doubled(
            "copy two lines later",
            &x_with(&[(0, 1), (1, 0), (0, 1), (0, 2), (2, 0)]),
            11,
        ),
        doubled("copy on the last line", &five, 13),
        doubled(
            "copy of the last road",
            &x_with(&[(0, 1), (1, 0), (0, 2), (2, 0), (2, 0)]),
            13,
        ),
        doubled(
            "a slip for the return road",
            &x_with(&[(0, 1), (1, 0), (0, 2), (0, 2)]),
            12,
        ),
        doubled(
            "road to itself",
            &x_with(&[(0, 0), (0, 1), (1, 0), (0, 0)]),
            12,
        ),
        doubled(
            "road to itself on the next line",
            &x_with(&[(0, 1), (1, 0), (2, 2), (2, 2)]),
            12,
        ),
        doubled(
            "three times",
            &x_with(&[(0, 1), (1, 0), (0, 1), (0, 2), (0, 1)]),
            11,
        ),
        doubled(
            "three times in a row",
            &x_with(&[(0, 1), (1, 0), (1, 0), (1, 0)]),
            11,
        ),
        doubled(
            "two roads, one inside the other",
            &x_with(&[(0, 1), (1, 0), (1, 0), (0, 1)]),
            11,
        ),
        doubled(
            "two roads, one after the other",
            &x_with(&[(0, 1), (1, 0), (0, 1), (1, 0)]),
            11,
        ),
        doubled(
            "behind the return road",
            &x_with(&[(0, 2), (0, 1), (1, 0), (1, 0)]),
            12,
        ),
        doubled("no tour", &no_tour.text(), 11),
        doubled("no tour, no way on", &dead_end, 10),
        // Of the 128 roads of case 11 the last is line 261.
        doubled("N above the bound", &too_large, 261),
        buffers(0, 0),
        buffers(17, 72),
        buffers(18, 71),
        short,
        longer,
        refused("longer than 60,000 bytes", &long, Refusal::TooLong),
    ]
}

fn beside_other_faults() -> Vec<FixedCopy> {
    // The copy of 0,1 is line 11.
    let plan = x_with(&[(0, 1), (1, 0), (0, 1), (0, 2), (2, 0)]);
    let with = |old: &str, new: &str| {
        assert!(plan.contains(old));
        plan.replacen(old, new, 1)
    };
    let very_long = format!("road=1,{}", "9".repeat(59_000));
    let copy = "road=0,1\nroad=0,2\n";
    let spelled = |line: &str| with(copy, &format!("{line}\nroad=0,2\n"));
    vec![
        doubled("fault of form later", &with("road=2,0", "road=2,00"), 11),
        doubled("fault of form behind", &with("rules=2", "rule=2"), 11),
        doubled(
            "fault of form on the next line",
            &with("road=0,2", "road=0;2"),
            11,
        ),
        doubled("bytes behind the last line", &format!("{plan}\n"), 11),
        doubled("last byte missing", plan.trim_end(), 11),
        doubled("fault of range later", &with("road=2,0", "road=3,0"), 11),
        doubled(
            "fault of range behind",
            &with("weight=3", "weight=4000001"),
            11,
        ),
        doubled("one road line too few", &with("roads=5", "roads=6"), 11),
        doubled("one road line too many", &with("roads=5", "roads=4"), 11),
        doubled("ended by its count", &with("roads=5", "roads=3"), 11),
        form("copy behind the count", &with("roads=5", "roads=2"), 11),
        form("fault of form before", &with("label=1", "label=01"), 5),
        form("fault of form between", &with("road=1,0", "road=1,"), 10),
        form(
            "fault of form in the road",
            &with("road=0,1", "road=0,01"),
            9,
        ),
        range("fault of range before", &with("start=0", "start=3"), 7),
        range("very long number before", &with("road=1,0", &very_long), 10),
        range("fault of range between", &with("road=1,0", "road=1,3"), 10),
        range(
            "fault of range in the count",
            &with("roads=5", "roads=1025"),
            8,
        ),
        form("copy with a leading zero", &spelled("road=0,01"), 11),
        form("copy with two zeros", &spelled("road=00,1"), 11),
        form("copy with a third number", &spelled("road=0,1,1"), 11),
        form("copy with a comma", &spelled("road=0,1,"), 11),
        form("copy with a space", &spelled("road=0,1 "), 11),
        form("copy with a carriage return", &spelled("road=0,1\r"), 11),
        form("copy with another key", &spelled("rode=0,1"), 11),
        form(
            "copy and out of range, of no form",
            &spelled("road=0,257,"),
            11,
        ),
        range("copy but for 2^8", &spelled("road=0,257"), 11),
        range("copy but for 2^16", &spelled("road=65536,1"), 11),
        range("copy but for 2^32", &spelled("road=0,4294967297"), 11),
        range(
            "copy but for 2^64",
            &spelled("road=18446744073709551616,1"),
            11,
        ),
        // The same text twice, out of range or of no form: the first decides.
        range(
            "out of range twice",
            &x_with(&[(0, 1), (1, 0), (0, 3), (0, 3)]),
            11,
        ),
        range(
            "out of range twice, far apart",
            &x_with(&[(3, 3), (0, 1), (1, 0), (3, 3)]),
            9,
        ),
        range(
            "out of range before a copy",
            &x_with(&[(0, 1), (1, 0), (0, 3), (0, 1)]),
            11,
        ),
        doubled(
            "out of range twice behind a copy",
            &x_with(&[(0, 1), (0, 1), (0, 3), (0, 3)]),
            10,
        ),
        form(
            "no form twice",
            &with("road=0,1", "road=0,01").replace("road=0,1\n", "road=0,01\n"),
            9,
        ),
    ]
}

/// Forty places, so that its roads begin on line 46.
fn forty(roads: Vec<Road>) -> Plan {
    Plan {
        labels: vec![0; 40],
        roads,
        ..one_place(always(), Vec::new())
    }
}

/// Of its 1,600 roads 0,0 is the first, 0,20 the one with index 20.
fn some_of_forty(count: usize) -> Vec<Road> {
    all_roads(40)[..count].to_vec()
}

fn of_long_lists() -> Vec<FixedCopy> {
    let with = |count, at, road: Road| {
        let mut roads = some_of_forty(count);
        roads.insert(at, road);
        forty(roads).text()
    };
    let mut all = vec![
        // Line 46 and line 1,046; line 66 and line 1,066.
        doubled("1,000 lines later", &with(1_000, 1_000, (0, 0)), 1_046),
        doubled(
            "1,000 lines later, with roads behind",
            &with(1_023, 1_020, (0, 20)),
            1_066,
        ),
        doubled(
            "first and last of 1,024",
            &with(1_023, 1_023, (0, 0)),
            1_069,
        ),
        doubled("last two of 1,024", &with(1_023, 1_023, (25, 22)), 1_069),
        range(
            "1,025 roads, one of them twice",
            &with(1_024, 1, (0, 0)),
            45,
        ),
    ];
    // The last road is the copy.
    for (name, first, last) in [
        ("the 300th road copies the 44th", 44, 300),
        ("the 600th road copies the 88th", 88, 600),
        ("the 600th road copies the 344th", 344, 600),
        ("the 1,000th road copies the 600th", 600, 1_000),
        ("the 1,000th road copies the 999th", 999, 1_000),
    ] {
        let road = some_of_forty(first)[first - 1];
        let file = with(last - 1, last - 1, road);
        all.push(doubled(name, &file, 45 + last as u32));
    }
    all
}

fn that_pass() -> Vec<FixedCopy> {
    let plan = |roads: &[Road]| Plan {
        roads: roads.to_vec(),
        ..x()
    };
    let mut moves = x();
    // The hard rule's only move, and the second rule's.
    moves.hard.moves.push(go(0, 0, 0, 0));
    moves.soft[1].rule.moves.push(go(0, 0, 2, 0));
    let repeated = rule(1, 1, vec![go(0, 0, 0, 0); 64]);
    // Roads that a table may mix up, or whoever reads without the comma.
    let alike = [
        (0, 0),
        (0, 1),
        (1, 0),
        (0, 64),
        (64, 0),
        (32, 0),
        (0, 32),
        (32, 64),
        (1, 11),
        (11, 1),
        (1, 1),
        (11, 11),
        (1, 111),
        (111, 1),
        (11, 0),
        (1, 10),
        (10, 1),
        (0, 127),
        (127, 0),
        (126, 127),
        (127, 126),
    ];
    let alike = Plan {
        labels: vec![0; 128],
        roads: alike.to_vec(),
        ..one_place(always(), Vec::new())
    };
    vec![
        passes("both ways", x(), (0, 3), (&[], &[0, 1])),
        passes(
            "both ways side by side",
            plan(&[(0, 1), (1, 0)]),
            (0, 3),
            (&[], &[0, 1]),
        ),
        passes(
            "both ways and to themselves",
            plan(&[(0, 2), (2, 2), (2, 0), (0, 0)]),
            (3, 2),
            (&[], &[0]),
        ),
        passes("repeated moves", moves, (0, 3), (&[], &[0, 1])),
        passes(
            "one move 64 times",
            one_place(repeated, Vec::new()),
            (0, 0),
            (&[], &[0]),
        ),
        passes(
            "1,024 roads",
            forty(some_of_forty(1_024)),
            (0, 0),
            (&[0, 1], &[2]),
        ),
        passes("roads that are alike", alike, (0, 0), (&[0, 1], &[11])),
    ]
}
