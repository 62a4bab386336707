//! The comparison has teeth for doubled roads (02, note 6) too: libraries with
//! one fault each, in the planner or in the checker, are found out by the plans
//! that were worked out by hand, and by the generated cases alone.

use reference::cases::case;
use reference::checker::{check, check_tour, check_with, tell};
use reference::checking::{check_chance_tours, check_fixed_copy};
use reference::entry::{plan_tour, plan_with};
use reference::fixed_copies::{fixed_copies, FixedCopy};
use reference::harness;
use reference::library::{CheckTour, Library, PlanTour, REFERENCE};
use reference::plan::{Plan, Road};
use reference::reader::{read, read_with, Refusal};
use reference::tally::Tally;
use std::collections::{HashSet, VecDeque};
use std::sync::OnceLock;

/// The name of the first plan worked out by hand to which the harness objects.
fn found_out(library: Library) -> Option<&'static str> {
    static FIXED: OnceLock<Vec<FixedCopy>> = OnceLock::new();
    let mut all = FIXED.get_or_init(fixed_copies).iter();
    let found = all.find(|fixed| check_fixed_copy(library, fixed).is_err());
    found.map(|fixed| fixed.figure.name)
}

/// The number of the first of 2,000 cases in which the harness objects to the
/// planner, or to the checker; without those that are plans as they should be.
fn found_out_by_chance(library: Library, planner: bool) -> Option<u64> {
    let mut tally = Tally::default();
    (0..2_000)
        .filter(|number| [9, 10, 11, 12, 13, 15].contains(&(number % 16)))
        .find(|&number| {
            let (case, mut random) = case(number);
            let check = match planner {
                true => harness::check,
                false => check_chance_tours,
            };
            check(library, &case, &mut random, &mut tally).is_err()
        })
}

fn with_planner(plan_tour: PlanTour) -> Library {
    Library {
        plan_tour,
        ..REFERENCE
    }
}

fn with_checker(check_tour: CheckTour) -> Library {
    Library {
        check_tour,
        ..REFERENCE
    }
}

/// Nor is it by the generated cases: see the faults of planner and checker.
#[test]
fn the_reference_is_not_found_out() {
    assert_eq!(found_out(REFERENCE), None);
}

/// Makes a test that a reader of plans is found out, as the planner's and as the
/// checker's.
macro_rules! fault {
    ($name:ident, $read:expr) => {
        #[test]
        fn $name() {
            let planner = with_planner(|file, answer, run_in, cycle| {
                plan_with($read, file, answer, run_in, cycle)
            });
            assert!(found_out(planner).is_some());
            assert!(found_out_by_chance(planner, true).is_some());
            let checker = with_checker(|file, run_in, cycle, block| {
                tell(check_with($read, file, run_in, cycle), block)
            });
            assert!(found_out(checker).is_some());
            assert!(found_out_by_chance(checker, false).is_some());
        }
    };
}

/// Makes a test that a planner is found out.
macro_rules! planner_fault {
    ($name:ident, $plan_tour:expr) => {
        #[test]
        fn $name() {
            let faulty = with_planner($plan_tour);
            assert!(found_out(faulty).is_some());
            assert!(found_out_by_chance(faulty, true).is_some());
        }
    };
}

/// Makes a test that a checker is found out.
macro_rules! checker_fault {
    ($name:ident, $check_tour:expr) => {
        #[test]
        fn $name() {
            let faulty = with_checker($check_tour);
            assert!(found_out(faulty).is_some());
            assert!(found_out_by_chance(faulty, false).is_some());
        }
    };
}

/// A reader that lets copies pass.
fn lenient(file: &[u8]) -> Result<Plan, Refusal> {
    read_with(file, |_| false)
}

/// A reader for which two roads are the same that have the same key.
fn by_key<Key: std::hash::Hash + Eq>(
    file: &[u8],
    key: impl Fn(Road) -> Key,
) -> Result<Plan, Refusal> {
    let mut met = HashSet::new();
    read_with(file, |road| !met.insert(key(road)))
}

/// A reader that says something else of a copy on this line.
fn instead(file: &[u8], other: impl Fn(u32) -> Refusal) -> Result<Plan, Refusal> {
    match read(file) {
        Err(Refusal::Doubled { line }) => Err(other(line)),
        told => told,
    }
}

/// The line with this number, from 1; there is none with 0.
fn line_of(file: &[u8], line: u32) -> &[u8] {
    let mut lines = (1..).zip(file.split(|&byte| byte == b'\n'));
    let found = lines.find(|(number, _)| *number == line);
    found.map_or(&[], |(_, line)| line)
}

fault!(does_not_see_copies, lenient);

fault!(tells_the_first_copy_s_line, |file| {
    instead(file, |line| {
        let mut earlier = 1..line;
        let first = earlier.find(|&other| line_of(file, other) == line_of(file, line));
        let line = first.unwrap();
        Refusal::Doubled { line }
    })
});

fault!(tells_line_0, |file| {
    instead(file, |_| Refusal::Doubled { line: 0 })
});

fault!(tells_the_line_before, |file| {
    instead(file, |line| Refusal::Doubled { line: line - 1 })
});

fault!(counts_roads_and_not_lines, |file| {
    instead(file, |line| {
        let roads = (1..=line).filter(|&line| line_of(file, line).starts_with(b"road="));
        let line = roads.count() as u32;
        Refusal::Doubled { line }
    })
});

fault!(tells_a_line_of_8_bits, |file| {
    instead(file, |line| Refusal::Doubled { line: line % 256 })
});

fault!(tells_the_last_copy_s_line, |file| {
    instead(file, |line| {
        let count = file.split(|&byte| byte == b'\n').count() as u32;
        let mut later = (line..=count).rev();
        let last = later.find(|&other| line_of(file, other) == line_of(file, line));
        let line = last.unwrap();
        Refusal::Doubled { line }
    })
});

fault!(says_2, |file| instead(file, |line| Refusal::Form { line }));

fault!(says_3, |file| instead(file, |line| Refusal::Range { line }));

fault!(takes_the_return_road_for_a_copy, |file| {
    by_key(file, |(a, b)| (a.min(b), a.max(b)))
});

fault!(looks_for_the_return_road_in_its_place, |file| {
    let mut met = HashSet::new();
    read_with(file, |(a, b)| {
        let copy = met.contains(&(b, a));
        met.insert((a, b));
        copy
    })
});

fault!(sees_a_copy_on_the_next_line_alone, |file| {
    let mut last = None;
    read_with(file, |road| last.replace(road) == Some(road))
});

fault!(overlooks_a_copy_on_the_next_line, |file| {
    let (mut last, mut met) = (None, HashSet::new());
    read_with(file, |road| {
        let before = last.replace(road);
        !met.insert(road) && before != Some(road)
    })
});

fault!(sees_a_copy_of_the_first_road_alone, |file| {
    let mut first = None;
    read_with(file, |road| {
        let copy = first == Some(road);
        first.get_or_insert(road);
        copy
    })
});

fault!(does_not_see_a_copied_road_to_itself, |file| {
    let mut met = HashSet::new();
    read_with(file, |(a, b)| !met.insert((a, b)) && a != b)
});

fault!(refuses_every_road_to_itself, |file| {
    let mut met = HashSet::new();
    read_with(file, |(a, b)| !met.insert((a, b)) || a == b)
});

fault!(waits_for_the_third_copy, |file| {
    let (mut once, mut twice) = (HashSet::new(), HashSet::new());
    read_with(file, |road| !once.insert(road) && !twice.insert(road))
});

fault!(takes_a_second_road_out_of_a_place_for_a_copy, |file| {
    by_key(file, |(a, _)| a)
});

fault!(mixes_roads_up_in_a_table_of_64_columns, |file| {
    by_key(file, |(a, b)| a as u32 * 64 + b as u32)
});

fault!(mixes_roads_up_in_a_table_of_127_columns, |file| {
    by_key(file, |(a, b)| a as u32 * 127 + b as u32)
});

fault!(mixes_roads_up_in_a_table_of_4096, |file| {
    by_key(file, |(a, b)| (a as u32 * 128 + b as u32) % 4096)
});

fault!(mixes_roads_up_by_a_sum, |file| {
    by_key(file, |(a, b)| a as u32 + b as u32)
});

fault!(mixes_roads_up_without_the_comma, |file| {
    by_key(file, |(a, b)| format!("{a}{b}"))
});

/// A reader that remembers the first roads alone.
fn first_roads(file: &[u8], count: usize) -> Result<Plan, Refusal> {
    let mut met = HashSet::new();
    read_with(file, |road| match met.len() < count {
        true => !met.insert(road),
        false => met.contains(&road),
    })
}

fault!(remembers_the_first_256_roads, |file| first_roads(file, 256));

fault!(remembers_the_first_512_roads, |file| first_roads(file, 512));

/// A reader that remembers the last roads alone.
fn last_roads(file: &[u8], count: usize) -> Result<Plan, Refusal> {
    let mut met = VecDeque::new();
    read_with(file, |road| {
        let copy = met.contains(&road);
        met.push_back(road);
        if met.len() > count {
            met.pop_front();
        }
        copy
    })
}

fault!(remembers_the_last_64_roads, |file| last_roads(file, 64));

fault!(remembers_the_last_256_roads, |file| last_roads(file, 256));

fault!(remembers_the_last_999_roads, |file| last_roads(file, 999));

fault!(looks_at_the_first_256_roads_alone, |file| {
    let mut met = HashSet::new();
    read_with(file, |road| !met.insert(road) && met.len() < 256)
});

fault!(looks_at_the_first_512_roads_alone, |file| {
    let mut met = HashSet::new();
    read_with(file, |road| !met.insert(road) && met.len() < 512)
});

fault!(overlooks_the_last_of_1024_roads, |file| {
    let mut met = HashSet::new();
    read_with(file, |road| !met.insert(road) && met.len() < 1_023)
});

/// The line of the first move that stands twice in one rule.
fn repeated_move(file: &[u8]) -> Option<u32> {
    let mut met = HashSet::new();
    for (at, line) in (1..).zip(file.split(|&byte| byte == b'\n')) {
        if line.starts_with(b"moves=") {
            met.clear();
        }
        if line.starts_with(b"move=") && !met.insert(line) {
            return Some(at);
        }
    }
    None
}

fault!(refuses_a_repeated_move, |file| {
    let plan = read(file)?;
    match repeated_move(file) {
        Some(line) => Err(Refusal::Doubled { line }),
        None => Ok(plan),
    }
});

/// A reader that tells a copy only if no other fault of these is there too.
fn after(file: &[u8], others: impl Fn(Refusal) -> bool) -> Result<Plan, Refusal> {
    match (read(file), lenient(file)) {
        (Err(Refusal::Doubled { .. }), Err(other)) if others(other) => Err(other),
        (told, _) => told,
    }
}

fault!(tells_copies_after_all_other_lines, |file| {
    after(file, |other| {
        matches!(other, Refusal::Form { .. } | Refusal::Range { .. })
    })
});

fault!(tells_copies_after_every_fault_of_form, |file| {
    after(file, |other| matches!(other, Refusal::Form { .. }))
});

fault!(tells_copies_after_every_fault_of_range, |file| {
    after(file, |other| matches!(other, Refusal::Range { .. }))
});

fault!(tells_copies_after_all_road_lines, |file| {
    after(file, |other| {
        line_of(file, other.line()).starts_with(b"road=")
    })
});

fault!(tells_copies_after_4, |file| {
    after(file, |other| other == Refusal::TooLarge)
});

fault!(tells_copies_before_all_other_lines, |file| {
    let told = read(file);
    let mut met = HashSet::new();
    let lines = (1..).zip(file.split(|&byte| byte == b'\n'));
    let mut roads = lines.filter(|(_, line)| line.starts_with(b"road="));
    match (told, roads.find(|(_, line)| !met.insert(*line))) {
        (Err(Refusal::Form { .. } | Refusal::Range { .. }), Some((line, _))) => {
            Err(Refusal::Doubled { line })
        }
        (told, _) => told,
    }
});

/// The first two numbers of a line, as one may read them who is not strict.
fn loosely(line: &[u8]) -> Option<(u128, u128)> {
    let text = std::str::from_utf8(line.strip_prefix(b"road=")?).ok()?;
    let numbers = text.split(|sign: char| !sign.is_ascii_digit());
    let mut numbers = numbers.filter(|digits| !digits.is_empty());
    let mut number = || numbers.next()?.parse::<u128>().ok();
    Some((number()?, number()?))
}

/// A reader that tells a fault on a line as a copy, if it has one of these roads
/// in common with an earlier line.
fn rather_as_copy(
    file: &[u8],
    faults: impl Fn(Refusal) -> bool,
    road: impl Fn((u128, u128)) -> (u128, u128),
) -> Result<Plan, Refusal> {
    let told = read(file);
    let Err(refusal) = told else {
        return told;
    };
    let road_of = |line| loosely(line_of(file, line)).map(&road);
    let line = refusal.line();
    match faults(refusal) && road_of(line).is_some() {
        true if (1..line).any(|other| road_of(other) == road_of(line)) => {
            Err(Refusal::Doubled { line })
        }
        _ => told,
    }
}

fault!(tells_a_copy_before_the_form_of_its_line, |file| {
    rather_as_copy(
        file,
        |refusal| matches!(refusal, Refusal::Form { .. }),
        |road| road,
    )
});

/// A road that is out of range stands on no earlier line that passed; so this
/// shows only in who loses the higher bits of a number.
fn wrapped(file: &[u8], bits: u32) -> Result<Plan, Refusal> {
    rather_as_copy(
        file,
        |refusal| matches!(refusal, Refusal::Range { .. }),
        |(a, b)| (a % (1 << bits), b % (1 << bits)),
    )
}

fault!(tells_a_copy_before_the_range_of_its_line, |file| wrapped(
    file, 8
));

fault!(tells_a_copy_modulo_2_to_the_32, |file| wrapped(file, 32));

/// A reader that takes a road line that stands twice for a copy, be it good or
/// not; it tells the first of the two as the reference does, so that there is
/// nothing to be found out.
#[test]
fn a_faulty_line_twice_is_told_at_the_first() {
    for text in ["road=0,3", "road=0,01"] {
        let file = reference::figures::x().text();
        let file = file.replace("road=1,0", text).replace("road=2,0", text);
        let line = read(file.as_bytes()).unwrap_err().line();
        assert_eq!(line_of(file.as_bytes(), line), text.as_bytes());
        assert_eq!(line, 10);
    }
}

/// The length is judged first; no generated plan with a copy is that long.
#[test]
fn tells_copies_before_the_length() {
    let faulty = with_planner(|file, answer, run_in, cycle| {
        let judge = |file: &[u8]| {
            let cut = &file[..file.len().min(60_000)];
            match read(cut) {
                Err(Refusal::Doubled { line }) => Err(Refusal::Doubled { line }),
                _ => read(file),
            }
        };
        plan_with(judge, file, answer, run_in, cycle)
    });
    assert_eq!(found_out(faulty), Some("longer than 60,000 bytes"));
}

/// Answers as the reference does, and spoils what it lent if a road is doubled.
fn spoilt(
    file: &[u8],
    (answer, run_in, cycle): (&mut [u8], &mut [u8], &mut [u8]),
    spoil: impl Fn(&mut [u8], &mut [u8], &mut [u8]),
) -> u32 {
    let number = plan_tour(file, answer, run_in, cycle);
    if number == 10 {
        spoil(answer, run_in, cycle);
    }
    number
}

planner_fault!(touches_the_run_in, |file, answer, run_in, cycle| {
    spoilt(file, (answer, run_in, cycle), |_, run_in, _| {
        if let Some(first) = run_in.first_mut() {
            *first = 0;
        }
    })
});

planner_fault!(touches_the_loop, |file, answer, run_in, cycle| {
    spoilt(file, (answer, run_in, cycle), |_, _, cycle| {
        if let Some(last) = cycle.last_mut() {
            *last = 10;
        }
    })
});

planner_fault!(tells_a_kept_byte, |file, answer, run_in, cycle| {
    spoilt(file, (answer, run_in, cycle), |answer, _, _| answer[1] = 1)
});

planner_fault!(tells_a_cost, |file, answer, run_in, cycle| {
    spoilt(file, (answer, run_in, cycle), |answer, _, _| answer[8] = 1)
});

planner_fault!(touches_byte_16, |file, answer, run_in, cycle| {
    spoilt(file, (answer, run_in, cycle), |answer, _, _| {
        if let Some(next) = answer.get_mut(16) {
            *next = 0;
        }
    })
});

planner_fault!(
    returns_10_and_writes_another_number,
    |file, answer, run_in, cycle| {
        spoilt(file, (answer, run_in, cycle), |answer, _, _| answer[0] = 3)
    }
);

planner_fault!(returns_0_for_10, |file, answer, run_in, cycle| {
    match plan_tour(file, answer, run_in, cycle) {
        10 => 0,
        number => number,
    }
});

/// Gives a number of the reader that lets copies pass, if it is this one.
fn rather(
    file: &[u8],
    (answer, run_in, cycle): (&mut [u8], &mut [u8], &mut [u8]),
    number: u32,
) -> u32 {
    let mut other = answer.to_vec();
    let lists = (&mut run_in.to_vec(), &mut cycle.to_vec());
    if plan_with(lenient, file, &mut other, lists.0, lists.1) == number {
        answer.copy_from_slice(&other);
        return number;
    }
    plan_tour(file, answer, run_in, cycle)
}

planner_fault!(tells_copies_after_5, |file, answer, run_in, cycle| {
    rather(file, (answer, run_in, cycle), 5)
});

planner_fault!(tells_copies_after_6, |file, answer, run_in, cycle| {
    rather(file, (answer, run_in, cycle), 6)
});

planner_fault!(tells_copies_before_7, |file, answer, run_in, cycle| {
    match (plan_tour(file, answer, run_in, cycle), read(file)) {
        (7, Err(Refusal::Doubled { .. })) => 10,
        (number, _) => number,
    }
});

checker_fault!(tells_copies_after_9, |file, run_in, cycle, block| {
    let told = match check_with(lenient, file, run_in, cycle) {
        Err(Refusal::Broken { index }) => Err(Refusal::Broken { index }),
        _ => check(file, run_in, cycle),
    };
    tell(told, block)
});

checker_fault!(
    tells_copies_of_a_tour_that_breaks_alone,
    |file, run_in, cycle, block| {
        let told = match check_with(lenient, file, run_in, cycle) {
            Ok(worth) => Ok(worth),
            _ => check(file, run_in, cycle),
        };
        tell(told, block)
    }
);

checker_fault!(tells_an_index_beside_10, |file, run_in, cycle, block| {
    let number = check_tour(file, run_in, cycle, block);
    if number == 10 {
        block[16] = 1;
    }
    number
});

checker_fault!(tells_accepted_beside_10, |file, run_in, cycle, block| {
    let number = check_tour(file, run_in, cycle, block);
    if number == 10 {
        block[2] = 1;
    }
    number
});

checker_fault!(
    tells_copies_before_a_short_block,
    |file, run_in, cycle, block| {
        match (check_tour(file, run_in, cycle, block), read(file)) {
            (7, Err(Refusal::Doubled { .. })) => 10,
            (number, _) => number,
        }
    }
);
