//! A call of `check_tour` with guarded bytes, and what must hold of all it
//! leaves behind.

use crate::cases::Case;
use crate::causes::{causes, Cause};
use crate::checker::{Block, Worth, BLOCK_BYTES};
use crate::drawn::{Drawn, Known};
use crate::lent::Lent;
use crate::library::Library;
use crate::plan::Plan;
use crate::reader::Refusal;
use crate::tour::judge;

/// Tours of more places are not judged by the definitions, which take their
/// time.
pub const JUDGED: usize = 2_000;

/// Everything a call leaves behind.
pub struct Finding {
    pub returned: u32,
    lists_changed: bool,
    file_changed: bool,
    block: Lent,
}

impl Finding {
    pub fn of(salt: u8, case: &Case, drawn: &Drawn, block: usize, library: Library) -> Finding {
        // Behind each list the tour goes on, for whoever reads too far.
        let behind = |list: &[u8]| match case.margin {
            0 => Vec::new(),
            _ => [list, &[0]].concat(),
        };
        let laid = [
            (&case.file, case.behind.clone()),
            (&drawn.run_in, behind(&drawn.cycle)),
            (&drawn.cycle, behind(&drawn.cycle)),
        ];
        let laid = laid.map(|(own, behind)| ([&own[..], &behind].concat(), own.len()));
        let memory = laid.clone();
        let [file, run_in, cycle] = memory.each_ref().map(|(bytes, length)| &bytes[..*length]);
        let mut block = Lent::new(salt, block, case.margin);
        let returned = (library.check_tour)(file, run_in, cycle, block.lend());
        Finding {
            returned,
            file_changed: memory[0] != laid[0],
            lists_changed: memory[1..] != laid[1..],
            block,
        }
    }

    pub fn block(&self) -> Option<Block> {
        let bytes = self.block.content().get(..BLOCK_BYTES)?;
        let long = |at: usize| u32::from_le_bytes(bytes[at..at + 4].try_into().unwrap());
        Some(Block {
            number: bytes[0],
            kept: bytes[1],
            accepts: bytes[2],
            line: long(4),
            cost: long(8),
            index: u64::from_le_bytes(bytes[16..24].try_into().unwrap()),
        })
    }

    /// What must hold of a call by itself: bytes that stay as they were, and a
    /// block that has what is due.
    pub fn sound(&self, due: &Due) -> Result<Option<Worth>, String> {
        if self.file_changed {
            return Err("plan bytes changed".into());
        }
        if self.lists_changed {
            return Err("bytes of run-in or loop changed".into());
        }
        let block = self.block();
        let numbers = block.map(|block| block.bytes());
        self.block.of_form(numbers, self.returned, &[])?;
        let Some(block) = block else {
            return Ok(None);
        };
        let worth = Worth {
            accepted: block.accepts == 1,
            cost: block.cost,
            kept: block.kept,
        };
        let due = due.block.unwrap_or(Ok(worth).into());
        if block != due {
            return Err(format!("{block:?}\nby the definitions {due:?}"));
        }
        Ok((block.number == 0).then_some(worth))
    }

    /// Every byte is as the reference has it.
    pub fn agrees(&self, reference: &Finding) -> Result<(), String> {
        let (own, other) = (
            (self.returned, self.block()),
            (reference.returned, reference.block()),
        );
        if own != other {
            return Err(format!("library {own:?}\nreference {other:?}"));
        }
        match self.block.same(&reference.block) {
            true => Ok(()),
            false => Err("bytes of the block differ".into()),
        }
    }
}

/// What the block must have, as far as the definitions tell it in good time.
pub struct Due {
    /// Nothing if it is a tour whose worth is left open.
    block: Option<Block>,
    /// What breaks the tour at the least index.
    pub causes: Vec<Cause>,
}

impl Due {
    /// What is due for the tour beside a plan, or beside a file that is refused.
    pub fn of(plan: Result<&Plan, Refusal>, drawn: &Drawn) -> Due {
        let told = |told: Option<Result<Worth, Refusal>>, causes| Due {
            block: told.map(Block::from),
            causes,
        };
        let plan = match plan {
            Ok(plan) => plan,
            Err(refusal) => return told(Some(Err(refusal)), Vec::new()),
        };
        let (run_in, cycle) = (&drawn.run_in, &drawn.cycle);
        if run_in.len() + cycle.len() > JUDGED && drawn.known != Known::Nothing {
            return told(drawn.known.told(), Vec::new());
        }
        let all = causes(plan, run_in, cycle);
        let least = all.iter().map(|(index, _)| *index).min();
        let known = least.map_or(Known::Tour, Known::BreaksAt);
        assert!([known, Known::Nothing].contains(&drawn.known), "{drawn:?}");
        let at_the_least = all.iter().filter(|(index, _)| Some(*index) == least);
        let causes = at_the_least.map(|(_, cause)| *cause).collect();
        let broken = known.told();
        told(
            broken.or_else(|| Some(Ok(judged(plan, run_in, cycle)))),
            causes,
        )
    }
}

fn judged(plan: &Plan, run_in: &[u8], cycle: &[u8]) -> Worth {
    let verdict = judge(plan, run_in, cycle);
    assert!(verdict.is_tour);
    Worth {
        accepted: verdict.hard,
        cost: verdict.cost,
        kept: verdict.kept,
    }
}
