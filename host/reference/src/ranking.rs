//! The trials whose ratio is worst.

use crate::timing::Times;
use std::collections::BTreeSet;

/// A trial that was timed.
#[derive(Clone, Debug, PartialEq)]
pub struct Found {
    pub number: u64,
    pub kind: String,
    pub size: u64,
    pub times: Times,
}

/// Of the trials asked for those with the greatest ratios, greatest first, at
/// most so many: where they stand.
pub fn worst(found: &[Found], asked: impl Fn(&Found) -> bool, most: usize) -> Vec<usize> {
    let mut worst: Vec<usize> = (0..found.len()).filter(|&at| asked(&found[at])).collect();
    worst.sort_by(|&one, &other| {
        let ratio = |at: usize| found[at].times.ratio();
        ratio(other).total_cmp(&ratio(one))
    });
    worst.truncate(most);
    worst
}

/// Times these trials once more: of all times taken the least count.
pub fn confirm(
    found: &mut [Found],
    suspects: &BTreeSet<usize>,
    mut again: impl FnMut(&Found) -> Result<Times, String>,
) -> Result<(), String> {
    for &at in suspects {
        found[at].times = found[at].times.least(&again(&found[at])?);
    }
    Ok(())
}
