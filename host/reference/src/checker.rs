//! `check_tour` on byte slices, as a C host calls it: what a tour drawn by hand
//! is worth (02, note 4).

use crate::acceptance::Drive;
use crate::breaks::least_break;
use crate::entry::BLOCK_TOO_SHORT;
use crate::reader::{read, Reader, Refusal};

pub const BLOCK_BYTES: usize = 24;

/// What a tour is worth, whoever made it.
#[derive(Clone, Copy, Debug, PartialEq, Eq)]
pub struct Worth {
    /// The hard rule accepts it.
    pub accepted: bool,
    pub cost: u32,
    pub kept: u8,
}

/// The worth of the tour, or why there is none: first the plan's refusals, which
/// are 1, those of a line (2, 3 and 10) and 4, then 9. A tour that the hard rule
/// does not accept has its worth too.
pub fn check(file: &[u8], run_in: &[u8], cycle: &[u8]) -> Result<Worth, Refusal> {
    check_with(read, file, run_in, cycle)
}

/// The same with another reader of the file.
pub fn check_with(
    read: Reader,
    file: &[u8],
    run_in: &[u8],
    cycle: &[u8],
) -> Result<Worth, Refusal> {
    let plan = read(file)?;
    if let Some(index) = least_break(&plan, run_in, cycle) {
        return Err(Refusal::Broken { index });
    }
    let drive = Drive::new(&plan, run_in, cycle);
    let mut kept = 0;
    for (i, soft) in plan.soft.iter().enumerate() {
        kept |= (drive.accepted_by(&soft.rule) as u8) << i;
    }
    Ok(Worth {
        accepted: drive.accepted_by(&plan.hard),
        cost: plan.cost(kept),
        kept,
    })
}

/// The first 24 bytes of the block as numbers.
#[derive(Clone, Copy, Debug, Default, PartialEq, Eq)]
pub struct Block {
    pub number: u8,
    pub kept: u8,
    /// 1 if the hard rule accepts.
    pub accepts: u8,
    pub line: u32,
    pub cost: u32,
    pub index: u64,
}

impl Block {
    pub fn bytes(&self) -> [u8; BLOCK_BYTES] {
        let mut bytes = [0; BLOCK_BYTES];
        bytes[0] = self.number;
        bytes[1] = self.kept;
        bytes[2] = self.accepts;
        bytes[4..8].copy_from_slice(&self.line.to_le_bytes());
        bytes[8..12].copy_from_slice(&self.cost.to_le_bytes());
        bytes[16..24].copy_from_slice(&self.index.to_le_bytes());
        bytes
    }
}

impl From<Result<Worth, Refusal>> for Block {
    fn from(checked: Result<Worth, Refusal>) -> Block {
        match checked {
            Ok(worth) => Block {
                kept: worth.kept,
                accepts: worth.accepted as u8,
                cost: worth.cost,
                ..Block::default()
            },
            Err(refusal) => Block {
                number: refusal.number() as u8,
                line: refusal.line(),
                index: refusal.index(),
                ..Block::default()
            },
        }
    }
}

/// Checks the tour. A block too short is left as it was.
pub fn check_tour(file: &[u8], run_in: &[u8], cycle: &[u8], block: &mut [u8]) -> u32 {
    if block.len() < BLOCK_BYTES {
        return BLOCK_TOO_SHORT;
    }
    tell(check(file, run_in, cycle), block)
}

/// Fills the block, unless it is too short, and gives the number to return.
pub fn tell(told: Result<Worth, Refusal>, block: &mut [u8]) -> u32 {
    let told = Block::from(told);
    match block.get_mut(..BLOCK_BYTES) {
        Some(bytes) => bytes.copy_from_slice(&told.bytes()),
        None => return BLOCK_TOO_SHORT,
    }
    told.number as u32
}
