//! One proposed tour put to the library's `check_tour` and to the reference's,
//! the answers set side by side.

use crate::cases::Case;
use crate::checker::{Block, Worth, BLOCK_BYTES};
use crate::drawn::*;
use crate::entry::BLOCK_TOO_SHORT;
use crate::finding::{Due, Finding, JUDGED};
use crate::fixed_copies::FixedCopy;
use crate::harness::check_figure;
use crate::library::{Library, REFERENCE};
use crate::plan::Plan;
use crate::random::Random;
use crate::reader::{read, Refusal};
use crate::sketches::{every_list, ByHand, SmallMap};
use crate::tally::Tally;
use crate::walks::{Lists, Ways};

/// Puts the tour to the library once, with a block of this length. Gives what it
/// is worth, if it is a tour of a plan and the block is long enough.
pub fn check_drawn(
    library: Library,
    case: &Case,
    drawn: &Drawn,
    (block, salt): (usize, u8),
    tally: &mut Tally,
) -> Result<Option<Worth>, String> {
    let plan = read(&case.file);
    let plan = plan.as_ref().map_err(|refusal| *refusal);
    one_call(library, case, plan, drawn, (block, salt), tally)
}

fn one_call(
    library: Library,
    case: &Case,
    plan: Result<&Plan, Refusal>,
    drawn: &Drawn,
    (block, salt): (usize, u8),
    tally: &mut Tally,
) -> Result<Option<Worth>, String> {
    let due = Due::of(plan, drawn);
    let reference = Finding::of(salt, case, drawn, block, REFERENCE);
    let own = Finding::of(salt, case, drawn, block, library);
    let places = drawn.run_in.len() + drawn.cycle.len();
    let told = |what: String| match places {
        0..=JUDGED => format!("{what}\nblock of {block} bytes, {drawn:?}"),
        _ => format!(
            "{what}\nblock of {block} bytes, {}, {places} places",
            drawn.kind
        ),
    };
    reference
        .sound(&due)
        .map_err(|what| told(format!("reference: {what}")))?;
    let worth = own
        .sound(&due)
        .map_err(|what| told(format!("library: {what}")))?;
    own.agrees(&reference).map_err(told)?;

    tally.checked.call(own.returned, places);
    let (run_in, cycle) = (&drawn.run_in[..], &drawn.cycle[..]);
    if let (Ok(plan), Some(worth)) = (plan, worth) {
        tally.checked.worth(plan, worth);
        tally.parked.drawn(plan, run_in, cycle, worth.accepted);
    }
    if own.returned == 9 {
        tally.checked.causes(&due.causes);
        if let (Ok(plan), Some(block)) = (plan, own.block()) {
            tally.parked.broken(plan, run_in, cycle, block.index);
        }
    }
    Ok(worth)
}

/// The tour is worth so much, whatever the reference says of it.
fn same_worth(drawn: &Drawn, found: Option<Worth>, worth: Worth) -> Result<(), String> {
    match found {
        Some(found) if found == worth => Ok(()),
        _ => Err(format!("{}: {found:?}, not {worth:?}", drawn.kind)),
    }
}

/// The planner's own tour is accepted, at the planner's cost and with its kept
/// byte; so it is in another spelling.
pub fn check_own(
    library: Library,
    case: &Case,
    plan: &Plan,
    (run_in, cycle): (&[u8], &[u8]),
    worth: Worth,
    (salt, tally): (u8, &mut Tally),
) -> Result<(), String> {
    let lists = (run_in.to_vec(), cycle.to_vec());
    let mut others = respelled(&lists, &mut Random::new(salt as u64));
    let other = others.swap_remove(salt as usize % others.len());
    let other = Drawn {
        kind: OWN_RESPELLED,
        ..other
    };
    for drawn in [Drawn::new(OWN, lists, Known::Tour), other] {
        let lent = (BLOCK_BYTES, salt);
        let found = one_call(library, case, Ok(plan), &drawn, lent, tally)?;
        same_worth(&drawn, found, worth)?;
        tally.checked.kind(drawn.kind);
    }
    Ok(())
}

/// Puts a tour whose answer was worked out by hand, whatever the reference says.
pub fn check_by_hand(library: Library, hand: &ByHand) -> Result<(), String> {
    let case = Case::new(hand.name, hand.plan.text().into_bytes());
    let lists = (hand.run_in.to_vec(), hand.cycle.to_vec());
    check_told(library, &case, lists, BLOCK_BYTES, Some(hand.told))
}

/// Puts a tour with a block of this length and looks for what was worked out by
/// hand; nothing can be told in a block too short.
fn check_told(
    library: Library,
    case: &Case,
    lists: Lists,
    block: usize,
    told: Option<Block>,
) -> Result<(), String> {
    let plan = read(&case.file);
    let plan = plan.as_ref().map_err(|refusal| *refusal);
    let drawn = Drawn::new("by hand", lists, Known::Nothing);
    let finding = Finding::of(0, case, &drawn, block, library);
    finding.sound(&Due::of(plan, &drawn))?;
    let number = told.map_or(BLOCK_TOO_SHORT, |told| told.number as u32);
    let (own, hand) = ((finding.returned, finding.block()), (number, told));
    match own == hand {
        true => Ok(()),
        false => Err(format!("{own:?}, by hand {hand:?}")),
    }
}

/// Puts a plan that was worked out by hand, as `plan_tour` and as `check_tour`
/// have it: with a tour, and with lists that are none, which matters to a plan
/// that passes alone.
pub fn check_fixed_copy(library: Library, fixed: &FixedCopy) -> Result<(), String> {
    check_figure(library, &fixed.figure)?;
    let case = Case::new(fixed.figure.name, fixed.figure.file.clone());
    let tour = (fixed.run_in.to_vec(), fixed.cycle.to_vec());
    let none = (vec![200], Vec::new());
    let broken = fixed.told.and(Err(Refusal::Broken { index: 0 }));
    for (lists, told) in [(tour, fixed.told), (none, broken)] {
        let told = (fixed.check >= BLOCK_BYTES).then_some(told.into());
        check_told(library, &case, lists, fixed.check, told)?;
    }
    Ok(())
}

/// Puts the tour with every block of up to 40 bytes.
pub fn check_blocks(
    library: Library,
    case: &Case,
    drawn: &Drawn,
    tally: &mut Tally,
) -> Result<(), String> {
    for block in 0..=40 {
        check_drawn(library, case, drawn, (block, block as u8), tally)?;
    }
    Ok(())
}

/// Puts all lists of few places beside the plan of a small map.
pub fn check_every_list(
    library: Library,
    case: &Case,
    map: &SmallMap,
    tally: &mut Tally,
) -> Result<(), String> {
    let cycles = every_list(map.places, map.most.1);
    for run_in in every_list(map.places, map.most.0) {
        for cycle in &cycles {
            let lists = (run_in.clone(), cycle.clone());
            let drawn = Drawn::new("all lists", lists, Known::Nothing);
            let lent = (BLOCK_BYTES, cycle.len() as u8);
            one_call(library, case, Ok(&map.plan), &drawn, lent, tally)?;
        }
    }
    Ok(())
}

/// Puts a tour of plan X, or lists that are none, beside a file made from that
/// plan by some harm.
pub fn check_beside_harm(library: Library, case: &Case, tally: &mut Tally) -> Result<(), String> {
    let lists = match case.file.len() % 4 {
        0 => (vec![77], vec![]),
        _ => (vec![], vec![0, 1]),
    };
    let drawn = Drawn::new("beside a harmed plan", lists, Known::Nothing);
    check_drawn(library, case, &drawn, (BLOCK_BYTES, 0), tally).map(|_| ())
}

/// Puts generated tours and lists to the library, beside the case's plan.
pub fn check_chance_tours(
    library: Library,
    case: &Case,
    random: &mut Random,
    tally: &mut Tally,
) -> Result<(), String> {
    let plan = read(&case.file);
    let plan = plan.as_ref().map_err(|refusal| *refusal);
    let mut put = |drawn: &Drawn, random: &mut Random| {
        tally.checked.kind(drawn.kind);
        let block = match random.once_in(6) {
            true => random.below(41),
            false => BLOCK_BYTES,
        };
        let lent = (block, random.byte());
        let found = one_call(library, case, plan, drawn, lent, tally)?;
        Ok::<_, String>(found)
    };
    let Ok(plan) = plan else {
        for _ in 0..2 {
            put(&unrelated(REFUSED, random), random)?;
        }
        return Ok(());
    };
    put(&empty_lists(), random)?;
    put(&unrelated(UNRELATED, random), random)?;
    let ways = Ways::of(plan);
    let length = random.between(1, 12);
    let walk = ways.walk(random, length);
    if let Some(drawn) = open(&ways, &walk, random) {
        put(&drawn, random)?;
    }
    put(&parked_nowhere(&ways, &walk, random), random)?;
    for drawn in parked(&ways, random) {
        put(&drawn, random)?;
    }
    let Some(tour) = ways.closed(&walk, random) else {
        return Ok(());
    };
    let kind = if tour.0.is_empty() { NO_RUN_IN } else { WALK };
    let found = put(&Drawn::new(kind, tour.clone(), Known::Tour), random)?;
    let mut others = respelled(&tour, random);
    if random.once_in(50) {
        if let Some(long) = long_walk(&ways, random) {
            put(&long, random)?;
        }
        let long = long_respelled(&tour, random);
        let lists = (long.run_in.clone(), long.cycle.clone());
        put(&long_broken(&ways, &lists, random), random)?;
        others.push(long);
    }
    for other in others {
        // A block too short tells nothing.
        if let (Some(worth), Some(other_worth)) = (found, put(&other, random)?) {
            same_worth(&other, Some(other_worth), worth)?;
        }
    }
    for other in broken(&ways, &tour, &indices(case, &tour, random), random) {
        put(&other, random)?;
    }
    for other in wrongly_parked(&ways, &tour, random) {
        put(&other, random)?;
    }
    Ok(())
}

/// All indices of the tour; of a large file, whose every reading takes its time,
/// a few.
fn indices(case: &Case, (run_in, cycle): &Lists, random: &mut Random) -> Vec<usize> {
    let length = run_in.len() + cycle.len();
    match case.file.len() {
        0..=1_000 => (0..length).collect(),
        _ => (0..2).map(|_| random.below(length)).collect(),
    }
}
