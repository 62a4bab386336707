//! What a library answers to generated plans, a line for each, places and all.
//! Two versions of it that give the same lines answer these plans alike, to the
//! byte.

use crate::answers::joined;
use crate::cases::{case, Case};
use crate::entry::NUMBERS;
use crate::harness::exact;
use crate::library::Library;
use crate::reader::read;
use crate::reply::Reply;
use std::collections::{BTreeMap, BTreeSet};
use std::fmt;

/// What has been written down so far.
pub struct Transcript {
    plans: usize,
    /// Plans by the number returned.
    numbers: BTreeMap<u32, usize>,
    /// The checksums of the plans.
    files: BTreeSet<u64>,
    /// Tours with a run-in, tours with more than one place in the loop, and the
    /// most places that a loop has.
    run_ins: usize,
    loops: usize,
    longest: usize,
}

impl Default for Transcript {
    fn default() -> Transcript {
        Transcript {
            plans: 0,
            numbers: NUMBERS.map(|number| (number, 0)).into(),
            files: BTreeSet::new(),
            run_ins: 0,
            loops: 0,
            longest: 0,
        }
    }
}

impl Transcript {
    /// The line of the generated case with this number.
    pub fn generated(&mut self, library: Library, number: u64) -> String {
        let (case, mut random) = case(number);
        self.line(library, number, &case, random.byte())
    }

    /// Puts the case to the library once, with buffers as long as asked for. Its
    /// line, without the end of one: the case's number, the checksum of the plan,
    /// the number returned, the block, run-in and loop, and the checksum of all
    /// that was lent.
    pub fn line(&mut self, library: Library, number: u64, case: &Case, salt: u8) -> String {
        let lengths = exact(read(&case.file).ok().as_ref());
        let reply = Reply::of(salt, case, lengths, library);
        let (run_in, cycle) = reply.tour().unwrap_or_default();
        let file = checksum(&case.file);

        self.plans += 1;
        *self.numbers.entry(reply.returned).or_default() += 1;
        self.files.insert(file);
        self.run_ins += !run_in.is_empty() as usize;
        self.loops += (cycle.len() > 1) as usize;
        self.longest = self.longest.max(cycle.len());

        let block: String = reply.block_bytes().iter().map(hex).collect();
        format!(
            "{number} {file:016x} {} {block} runin={} loop={} {:016x}",
            reply.returned,
            joined(run_in),
            joined(cycle),
            checksum(reply.lent_bytes())
        )
    }
}

impl fmt::Display for Transcript {
    fn fmt(&self, f: &mut fmt::Formatter) -> fmt::Result {
        let numbers = self.numbers.iter();
        let numbers: Vec<String> = numbers
            .map(|(number, count)| format!("{count} gave {number}"))
            .collect();
        write!(
            f,
            "{} plans, {} of them distinct; {}; tours with a run-in: {}, \
             with a loop of more than one place: {}; longest loop: {}",
            self.plans,
            self.files.len(),
            numbers.join(", "),
            self.run_ins,
            self.loops,
            self.longest
        )
    }
}

/// FNV-1a, of 64 bits.
pub fn checksum<'a>(bytes: impl IntoIterator<Item = &'a u8>) -> u64 {
    bytes.into_iter().fold(0xcbf2_9ce4_8422_2325, |sum, &byte| {
        (sum ^ byte as u64).wrapping_mul(0x100_0000_01b3)
    })
}

fn hex(byte: &u8) -> String {
    format!("{byte:02x}")
}
