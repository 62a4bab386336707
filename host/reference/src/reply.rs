//! A call with guarded buffers, and what must hold of all it leaves behind.

use crate::answers::Answer;
use crate::cases::Case;
use crate::checker::Worth;
use crate::entry::{Block, BLOCK_BYTES};
use crate::lent::Lent;
use crate::library::Library;
use crate::plan::Plan;
use crate::tour::judge;

/// The lengths of the three lent buffers.
#[derive(Clone, Copy, Debug)]
pub struct Lengths {
    pub answer: usize,
    pub run_in: usize,
    pub cycle: usize,
}

/// What a call answered: what it keeps and its number of places, if a tour.
pub type Found = Option<(u8, usize)>;

/// Everything a call leaves behind.
pub struct Reply {
    pub returned: u32,
    file_changed: bool,
    answer: Lent,
    run_in: Lent,
    cycle: Lent,
}

impl Reply {
    pub fn of(salt: u8, case: &Case, lengths: Lengths, library: Library) -> Reply {
        let memory = [&case.file[..], &case.behind].concat();
        let lent = |more, length| Lent::new(salt.wrapping_add(more), length, case.margin);
        let mut answer = lent(0, lengths.answer);
        let mut run_in = lent(1, lengths.run_in);
        let mut cycle = lent(2, lengths.cycle);
        let file = &memory[..case.file.len()];
        let returned = (library.plan_tour)(file, answer.lend(), run_in.lend(), cycle.lend());
        let file_changed = memory != [&case.file[..], &case.behind].concat();
        Reply {
            returned,
            file_changed,
            answer,
            run_in,
            cycle,
        }
    }

    fn block(&self) -> Option<Block> {
        let bytes = self.answer.content();
        let word = |at: usize| u16::from_le_bytes([bytes[at], bytes[at + 1]]);
        let long = |at: usize| word(at) as u32 | (word(at + 2) as u32) << 16;
        (bytes.len() >= BLOCK_BYTES).then(|| Block {
            number: bytes[0],
            kept: bytes[1],
            count: bytes[2],
            line: long(4),
            cost: long(8),
            run_in: word(12),
            cycle: word(14),
        })
    }

    /// What must hold of a call by itself: bytes that stay as they were, and
    /// a tour that is one, accepted, with just this cost and kept byte.
    pub fn sound(&self, plan: Option<&Plan>) -> Result<Found, String> {
        if self.file_changed {
            return Err("plan bytes changed".into());
        }
        let block = self.block();
        let numbers = block.map(|block| block.bytes());
        let others = [&self.run_in, &self.cycle];
        self.answer.of_form(numbers, self.returned, &others)?;
        let Some(block) = block else {
            return Ok(None);
        };
        let (run_in, cycle) = (block.run_in as usize, block.cycle as usize);
        if run_in > self.run_in.content().len() || cycle > self.cycle.content().len() {
            return Err(format!("lengths {run_in}, {cycle} beyond the buffers"));
        }
        if !self.run_in.unchanged_beyond(run_in) || !self.cycle.unchanged_beyond(cycle) {
            return Err("bytes beyond the tour changed".into());
        }
        if block.number != 0 {
            let only = Block {
                number: block.number,
                line: block.line,
                ..Block::default()
            };
            return if block == only {
                Ok(None)
            } else {
                Err(format!("refusal with {block:?}"))
            };
        }
        let plan = plan.ok_or("a tour for a file that is no plan")?;
        if run_in as u64 > plan.size() || cycle as u64 > plan.cycle_bound() {
            return Err(format!("tour longer than its bounds: {run_in}, {cycle}"));
        }
        let verdict = judge(
            plan,
            &self.run_in.content()[..run_in],
            &self.cycle.content()[..cycle],
        );
        let told = (block.kept, block.count, block.cost, block.line);
        if !verdict.is_tour
            || !verdict.hard
            || told != (verdict.kept, verdict.count, verdict.cost, 0)
        {
            return Err(format!("{block:?} but the tour is {verdict:?}"));
        }
        Ok(Some((block.kept, run_in + cycle)))
    }

    /// What is lent as the block.
    pub fn block_bytes(&self) -> &[u8] {
        self.answer.content()
    }

    /// All bytes of block, run-in and loop, margins and all.
    pub fn lent_bytes(&self) -> impl Iterator<Item = &u8> {
        let all = [&self.answer, &self.run_in, &self.cycle];
        all.into_iter().flat_map(Lent::bytes)
    }

    /// Run-in and loop of a tour. A call that is not sound may tell lengths
    /// beyond its buffers; then there is as much as they hold.
    pub fn tour(&self) -> Option<(&[u8], &[u8])> {
        let block = self.block().filter(|block| block.number == 0)?;
        Some((
            self.run_in.first(block.run_in as usize),
            self.cycle.first(block.cycle as usize),
        ))
    }

    /// What a checker should say of the tour.
    pub fn worth(&self) -> Option<Worth> {
        let block = self.block().filter(|block| block.number == 0)?;
        Some(Worth {
            accepted: true,
            cost: block.cost,
            kept: block.kept,
        })
    }

    /// The answer that `plantour` would print, once the call is known to be
    /// sound. There is none without a block.
    pub fn answer(&self) -> Option<Answer> {
        let block = self.block()?;
        let (run_in, cycle) = self.tour().unwrap_or_default();
        Some(Answer {
            number: block.number,
            line: block.line,
            cost: block.cost,
            kept: block.kept,
            run_in: run_in.to_vec(),
            cycle: cycle.to_vec(),
        })
    }

    /// The block without the tour's lengths, which are free.
    pub fn fixed(&self) -> Option<Block> {
        self.block().map(|block| Block {
            run_in: 0,
            cycle: 0,
            ..block
        })
    }

    /// All but the tour's places and lengths is as the reference has it.
    pub fn agrees(&self, reference: &Reply) -> Result<(), String> {
        let (own, other) = (
            (self.returned, self.fixed()),
            (reference.returned, reference.fixed()),
        );
        if own != other {
            return Err(format!("library {own:?}\nreference {other:?}"));
        }
        Ok(())
    }
}
