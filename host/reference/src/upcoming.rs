//! The upcoming places: 01, "For the host and for the rig".

use crate::library::UpcomingOffset;

/// The index at which the places from step `t` on begin: in the run-in while
/// `t` is below its length, later in the loop; 0 in an empty loop.
pub fn upcoming_offset(run_in: u64, cycle: u64, t: u64) -> u64 {
    match t.checked_sub(run_in) {
        None => t,
        Some(past) => past.checked_rem(cycle).unwrap_or(0),
    }
}

/// The upcoming places from step `t`: a part of one of the two slices, which
/// begins where `offset` says, or nothing if that is beyond the end.
pub fn upcoming<'a>(
    offset: UpcomingOffset,
    run_in: &'a [u8],
    cycle: &'a [u8],
    t: u64,
) -> Option<&'a [u8]> {
    let lengths = (run_in.len() as u64, cycle.len() as u64);
    let part = if t < lengths.0 { run_in } else { cycle };
    let from = usize::try_from(offset(lengths.0, lengths.1, t)).ok()?;
    part.get(from..)
}
