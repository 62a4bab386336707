//! Where the library says that upcoming places begin, held to 01's figure, to
//! the reference, and to the tours that were answered.

use crate::library::Library;
use crate::random::Random;
use crate::tally::Tally;
use crate::upcoming::{upcoming, upcoming_offset};

/// Lengths and steps at which numbers are apt to go wrong.
const EDGES: [u64; 18] = [
    0,
    1,
    2,
    3,
    5,
    2_047,
    2_048,
    20_480,
    u16::MAX as u64,
    1 << 16,
    u32::MAX as u64,
    1 << 32,
    (1 << 32) + 1,
    i64::MAX as u64,
    1 << 63,
    (1 << 63) + 1,
    u64::MAX - 1,
    u64::MAX,
];

/// So many triples by chance.
const TRIPLES: usize = 100_000;

/// Case 9 of 01, whatever the reference says.
pub fn check_case_9(library: Library) -> Result<(), String> {
    let given: [(u64, &[u8]); 3] = [(1, &[6]), (2, &[7, 8, 9]), (6, &[8, 9])];
    for (t, expected) in given {
        let part = upcoming(library.upcoming_offset, &[5, 6], &[7, 8, 9], t);
        if part != Some(expected) {
            return Err(format!("step {t} gives {part:?}, not {expected:?}"));
        }
    }
    Ok(())
}

/// Each two edges as lengths, with each edge as the step and with the steps
/// about the end of the run-in and of the first turns; then numbers by chance,
/// of all magnitudes.
pub fn check_offsets(library: Library, tally: &mut Tally) -> Result<(), String> {
    for run_in in EDGES {
        for cycle in EDGES {
            let ends = (0..3).map(|turns| run_in.wrapping_add(cycle.wrapping_mul(turns)));
            let about = ends.flat_map(|end| [end.wrapping_sub(1), end, end.wrapping_add(1)]);
            for t in EDGES.into_iter().chain(about) {
                same_offset(library, run_in, cycle, t, tally)?;
            }
        }
    }
    let mut random = Random::new(9);
    let mut number = || {
        let fewer_bits = random.below(64);
        random.word() >> fewer_bits
    };
    for _ in 0..TRIPLES {
        same_offset(library, number(), number(), number(), tally)?;
    }
    Ok(())
}

/// Follows a tour step by step through the run-in and two turns: at each step
/// the library leads to the part of the tour that is then ahead. Some steps far
/// away, `fewer` less than a round number, are set beside the reference's.
pub fn follow(
    library: Library,
    run_in: &[u8],
    cycle: &[u8],
    fewer: u8,
    tally: &mut Tally,
) -> Result<(), String> {
    let steps = run_in.len() + 2 * cycle.len() + 1;
    let ahead = rests(run_in).chain(rests(cycle).cycle());
    for (t, expected) in ahead.take(steps).enumerate() {
        let part = upcoming(library.upcoming_offset, run_in, cycle, t as u64);
        // The same bytes of memory, since a tour may pass its places again.
        if !part.is_some_and(|part| std::ptr::eq(part, expected)) {
            return Err(format!(
                "at step {t} of run-in {run_in:?} and loop {cycle:?}: {part:?}, not {expected:?}"
            ));
        }
    }
    tally.offsets += steps;
    tally.followed[run_in.is_empty() as usize] += 1;
    for far in [1 << 32, 1 << 63, u64::MAX] {
        let t = far - fewer as u64;
        same_offset(library, run_in.len() as u64, cycle.len() as u64, t, tally)?;
    }
    Ok(())
}

/// What is left of the places at each of them.
fn rests(places: &[u8]) -> impl Iterator<Item = &[u8]> + Clone {
    (0..places.len()).map(|from| &places[from..])
}

fn same_offset(
    library: Library,
    run_in: u64,
    cycle: u64,
    t: u64,
    tally: &mut Tally,
) -> Result<(), String> {
    tally.offsets += 1;
    let (own, reference) = (
        (library.upcoming_offset)(run_in, cycle, t),
        upcoming_offset(run_in, cycle, t),
    );
    if own != reference {
        return Err(format!(
            "run-in {run_in}, loop {cycle}, step {t}: library {own}, reference {reference}"
        ));
    }
    Ok(())
}
