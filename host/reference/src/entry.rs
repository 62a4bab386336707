//! `plan_tour` on byte slices, as a C host calls it.

use crate::plan::Plan;
use crate::planner::{best_tour, Tour};
use crate::reader::{read, Reader, Refusal};

pub const BLOCK_BYTES: usize = 16;
pub const BLOCK_TOO_SHORT: u32 = 7;

/// The numbers that `plan_tour` gives.
pub const NUMBERS: [u32; 9] = [0, 1, 2, 3, 4, 5, 6, 7, 10];

/// The first 16 bytes of the answer block as numbers.
#[derive(Clone, Copy, Debug, Default, PartialEq, Eq)]
pub struct Block {
    pub number: u8,
    pub kept: u8,
    pub count: u8,
    pub line: u32,
    pub cost: u32,
    pub run_in: u16,
    pub cycle: u16,
}

impl Block {
    pub fn bytes(&self) -> [u8; BLOCK_BYTES] {
        let mut bytes = [0; BLOCK_BYTES];
        bytes[0] = self.number;
        bytes[1] = self.kept;
        bytes[2] = self.count;
        bytes[4..8].copy_from_slice(&self.line.to_le_bytes());
        bytes[8..12].copy_from_slice(&self.cost.to_le_bytes());
        bytes[12..14].copy_from_slice(&self.run_in.to_le_bytes());
        bytes[14..16].copy_from_slice(&self.cycle.to_le_bytes());
        bytes
    }
}

/// Plans the file. A refused call leaves run-in and loop as they were, and a
/// block too short is left too.
pub fn plan_tour(file: &[u8], answer: &mut [u8], run_in: &mut [u8], cycle: &mut [u8]) -> u32 {
    plan_with(read, file, answer, run_in, cycle)
}

/// The same with another reader of the file.
pub fn plan_with(
    read: Reader,
    file: &[u8],
    answer: &mut [u8],
    run_in: &mut [u8],
    cycle: &mut [u8],
) -> u32 {
    plan_by((read, best_tour), file, answer, run_in, cycle)
}

/// The same with another reader and another search for the best tour.
pub fn plan_by(
    (read, best): (Reader, impl Fn(&Plan) -> Option<(Tour, u8)>),
    file: &[u8],
    answer: &mut [u8],
    run_in: &mut [u8],
    cycle: &mut [u8],
) -> u32 {
    if answer.len() < BLOCK_BYTES {
        return BLOCK_TOO_SHORT;
    }
    let block = match read(file).and_then(|plan| plan_into(&plan, best, run_in, cycle)) {
        Ok(block) => block,
        Err(refusal) => Block {
            number: refusal.number() as u8,
            line: refusal.line(),
            ..Block::default()
        },
    };
    answer[..BLOCK_BYTES].copy_from_slice(&block.bytes());
    block.number as u32
}

fn plan_into(
    plan: &Plan,
    best: impl Fn(&Plan) -> Option<(Tour, u8)>,
    run_in: &mut [u8],
    cycle: &mut [u8],
) -> Result<Block, Refusal> {
    if (run_in.len() as u64) < plan.size() || (cycle.len() as u64) < plan.cycle_bound() {
        return Err(Refusal::Buffer);
    }
    let (tour, kept) = best(plan).ok_or(Refusal::NoTour)?;
    run_in[..tour.run_in.len()].copy_from_slice(&tour.run_in);
    cycle[..tour.cycle.len()].copy_from_slice(&tour.cycle);
    Ok(success(plan, &tour, kept))
}

fn success(plan: &Plan, tour: &Tour, kept: u8) -> Block {
    Block {
        kept,
        count: kept.count_ones() as u8,
        cost: plan.cost(kept),
        run_in: tour.run_in.len() as u16,
        cycle: tour.cycle.len() as u16,
        ..Block::default()
    }
}
