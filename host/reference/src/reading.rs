//! One text put to the library's `read_answer` and to the reference's, the
//! answers set side by side.

use crate::answers::{read, Answer, Block, BLOCK_BYTES};
use crate::cases::Case;
use crate::lent::Lent;
use crate::library::{Library, REFERENCE};
use crate::random::Random;
use crate::reply::Lengths;
use crate::tally::Tally;

/// Everything a call leaves behind.
struct Reply {
    returned: u32,
    text_changed: bool,
    block: Lent,
    run_in: Lent,
    cycle: Lent,
}

impl Reply {
    fn of(salt: u8, case: &Case, lengths: Lengths, library: Library) -> Reply {
        let memory = [&case.file[..], &case.behind].concat();
        let (text, behind) = memory.split_at(case.file.len());
        let lent = |more, length| Lent::new(salt.wrapping_add(more), length, case.margin);
        let mut block = lent(0, lengths.answer);
        let mut run_in = lent(1, lengths.run_in);
        let mut cycle = lent(2, lengths.cycle);
        let returned = (library.read_answer)(text, block.lend(), run_in.lend(), cycle.lend());
        Reply {
            returned,
            text_changed: text != case.file || behind != case.behind,
            block,
            run_in,
            cycle,
        }
    }

    fn block(&self) -> Option<Block> {
        let bytes = self.block.content().get(..BLOCK_BYTES)?;
        let long = |at: usize| u32::from_le_bytes(bytes[at..at + 4].try_into().unwrap());
        let length = |at: usize| u64::from_le_bytes(bytes[at..at + 8].try_into().unwrap());
        Some(Block {
            number: bytes[0],
            kept: bytes[1],
            answer: bytes[2],
            fault: long(4),
            cost: long(8),
            line: long(12),
            run_in: length(16),
            cycle: length(24),
        })
    }

    fn untouched(&self) -> bool {
        self.run_in.unchanged_beyond(0) && self.cycle.unchanged_beyond(0)
    }

    /// What must hold of a call by itself, whatever the text: bytes that stay
    /// as they were, nothing but number and line on a refusal, and an answer
    /// that is printed as the text that it was read from.
    fn sound(&self, text: &[u8]) -> Result<Option<Answer>, String> {
        if self.text_changed {
            return Err("text bytes changed".into());
        }
        let block = self.block();
        let numbers = block.map(|block| block.bytes());
        let others = [&self.run_in, &self.cycle];
        self.block.of_form(numbers, self.returned, &others)?;
        let Some(block) = block else {
            return Ok(None);
        };
        if block.number != 0 {
            let only = Block {
                number: block.number,
                fault: block.fault,
                ..Block::default()
            };
            let lines = match block.number {
                2 => 1..=7,
                3 => 1..=6,
                _ => 0..=0,
            };
            if block != only || !lines.contains(&block.fault) {
                return Err(format!("refusal with {block:?}"));
            }
            if !self.untouched() {
                return Err("buffers changed on a refusal".into());
            }
            return Ok(None);
        }
        let list = |lent: &Lent, length: u64| {
            let length = usize::try_from(length).ok();
            let places = length.and_then(|length| lent.content().get(..length));
            let places = places.ok_or_else(|| format!("list longer than its buffer: {block:?}"))?;
            match lent.unchanged_beyond(places.len()) {
                true => Ok(places.to_vec()),
                false => Err("bytes beyond a list changed".to_string()),
            }
        };
        let answer = Answer {
            number: block.answer,
            line: block.line,
            cost: block.cost,
            kept: block.kept,
            run_in: list(&self.run_in, block.run_in)?,
            cycle: list(&self.cycle, block.cycle)?,
        };
        let printed = answer.text();
        if block.fault != 0 || printed.as_bytes() != text {
            return Err(format!("read {block:?}, printed {}", abridged(&printed)));
        }
        Ok(Some(answer))
    }

    /// Every byte is as the reference has it.
    fn agrees(&self, reference: &Reply) -> Result<(), String> {
        let (own, other) = (
            (self.returned, self.block()),
            (reference.returned, reference.block()),
        );
        if own != other {
            return Err(format!("library {own:?}\nreference {other:?}"));
        }
        let pairs = [
            (&self.block, &reference.block, "block"),
            (&self.run_in, &reference.run_in, "run-in"),
            (&self.cycle, &reference.cycle, "loop"),
        ];
        match pairs.iter().find(|(own, other, _)| !own.same(other)) {
            Some((.., name)) => Err(format!("bytes of the {name} differ")),
            None => Ok(()),
        }
    }
}

fn abridged(text: &str) -> String {
    const MOST: usize = 300;
    match text.len() {
        0..=MOST => format!("{text:?}"),
        length => format!("{length} bytes"),
    }
}

fn one_call(
    library: Library,
    case: &Case,
    lengths: Lengths,
    salt: u8,
    tally: &mut Tally,
) -> Result<Option<Answer>, String> {
    let reference = Reply::of(salt, case, lengths, REFERENCE);
    let own = Reply::of(salt, case, lengths, library);
    let with_lengths = |what: String| format!("{what}\nblock and buffers: {lengths:?}");
    reference
        .sound(&case.file)
        .map_err(|what| with_lengths(format!("reference: {what}")))?;
    let answer = own
        .sound(&case.file)
        .map_err(|what| with_lengths(format!("library: {what}")))?;
    own.agrees(&reference).map_err(with_lengths)?;
    let fault = reference.block().map_or(0, |block| block.fault);
    tally.read(reference.returned, fault);
    if let Ok(text) = read(&case.file) {
        let number = reference.returned;
        tally.hidden += (number == 5 && text.contradicts_itself()) as usize;
        if text.number == 10 {
            match (number, text.line) {
                (0, _) => tally.doubled_read[0] += 1,
                (8, 0) => tally.doubled_read[1] += 1,
                (8, _) => tally.doubled_read[2] += 1,
                _ => {}
            }
        }
    }
    Ok(answer)
}

/// How many places the text seems to list, whatever its faults: the lengths of
/// the run-in and of the loop.
fn listed(text: &[u8]) -> (usize, usize) {
    let places = |key: &[u8]| {
        let mut lines = text.split(|&byte| byte == b'\n');
        let value = lines.find_map(|line| line.strip_prefix(key));
        match value.unwrap_or_default() {
            [] => 0,
            value => 1 + value.iter().filter(|&&byte| byte == b',').count(),
        }
    };
    (places(b"runin="), places(b"loop="))
}

/// Puts the text to the library with buffers as long as the lists, with none,
/// and with longer ones.
pub fn check_text(library: Library, case: &Case, tally: &mut Tally) -> Result<(), String> {
    let (run_in, cycle) = listed(&case.file);
    tally.fixed_text(&case.kind);
    let buffers = [(run_in, cycle), (0, 0), (run_in + 3, cycle + 20)];
    for (salt, (run_in, cycle)) in buffers.into_iter().enumerate() {
        let lengths = Lengths {
            answer: BLOCK_BYTES + salt,
            run_in,
            cycle,
        };
        one_call(library, case, lengths, salt as u8, tally)?;
    }
    Ok(())
}

/// Puts the text to the library with every two buffers about the lengths of
/// the lists.
pub fn check_text_buffers(library: Library, case: &Case, tally: &mut Tally) -> Result<(), String> {
    let (run_in, cycle) = listed(&case.file);
    tally.fixed_text(&case.kind);
    let about = |length: usize| {
        let mut about = vec![0, length.saturating_sub(1), length, length + 1, length + 50];
        about.dedup();
        about
    };
    for run_in in about(run_in) {
        for cycle in about(cycle) {
            let lengths = Lengths {
                answer: BLOCK_BYTES,
                run_in,
                cycle,
            };
            one_call(library, case, lengths, run_in as u8, tally)?;
        }
    }
    Ok(())
}

/// Puts the text to the library with every block of up to 40 bytes, with
/// buffers as long as the lists and with none.
pub fn check_text_blocks(library: Library, case: &Case, tally: &mut Tally) -> Result<(), String> {
    let (run_in, cycle) = listed(&case.file);
    for answer in 0..=40 {
        for (run_in, cycle) in [(run_in, cycle), (0, 0)] {
            let lengths = Lengths {
                answer,
                run_in,
                cycle,
            };
            one_call(library, case, lengths, answer as u8, tally)?;
        }
    }
    Ok(())
}

/// Puts a generated text to the library with buffers as long as the lists, and
/// with block and buffers at, about or far from the limits.
pub fn check_chance_text(
    library: Library,
    case: &Case,
    random: &mut Random,
    tally: &mut Tally,
) -> Result<(), String> {
    let listed = listed(&case.file);
    tally.generated_text(&case.kind);
    let exact = Lengths {
        answer: BLOCK_BYTES,
        run_in: listed.0,
        cycle: listed.1,
    };
    one_call(library, case, exact, random.byte(), tally)?;
    let lengths = chance_lengths(listed, random);
    one_call(library, case, lengths, random.byte(), tally).map(|_| ())
}

fn chance_lengths((run_in, cycle): (usize, usize), random: &mut Random) -> Lengths {
    let mut about = |length: usize| match random.below(10) {
        0..=3 => length,
        4 | 5 => length.saturating_sub(1),
        6 => length + 1,
        7 => length + random.below(1_000),
        8 => random.below(length + 1),
        _ => 0,
    };
    let (run_in, cycle) = (about(run_in), about(cycle));
    let answer = if random.once_in(3) {
        random.below(41)
    } else {
        BLOCK_BYTES
    };
    Lengths {
        answer,
        run_in,
        cycle,
    }
}

/// All that was answered and printed comes back the same (02, note 2), whatever
/// the reference says. The buffers are `more` bytes longer than the lists.
pub fn check_read_back(
    library: Library,
    answer: &Answer,
    margin: usize,
    more: usize,
    tally: &mut Tally,
) -> Result<(), String> {
    let case = Case::new("answer read back", answer.text().into_bytes());
    let case = if margin == 0 { case.bare() } else { case };
    let lengths = Lengths {
        answer: BLOCK_BYTES,
        run_in: answer.run_in.len() + more,
        cycle: answer.cycle.len() + more,
    };
    let found = one_call(library, &case, lengths, more as u8, tally)
        .map_err(|what| format!("answer read back: {what}"))?;
    if found.as_ref() != Some(answer) {
        return Err(format!("answered {answer:?}, read back {found:?}"));
    }
    tally.read_back[(answer.number != 0) as usize] += 1;
    Ok(())
}
