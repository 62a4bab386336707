//! The text of an answer: printed as `plantour` prints it (01, "For the host
//! and for the rig"), and read back (02, note 2).

use crate::entry::BLOCK_TOO_SHORT;
use crate::reader::{number, Refusal};
use std::fmt::Write;

/// The answers that `plantour` may print, and which of them carry a line of the
/// plan: 10 came with 02's note 6. A number that a later note adds for a plan
/// line is one row more.
pub const ANSWERS: &[(u8, bool)] = &[
    (0, false),
    (1, false),
    (2, true),
    (3, true),
    (4, false),
    (5, false),
    (6, false),
    (10, true),
];

pub const MAX_LINE: u64 = 65_535;
pub const MAX_COST: u64 = 32_000_000;
pub const MAX_KEPT: u64 = 255;
pub const MAX_PLACE: u64 = 127;

/// What `plantour` prints, as numbers; the loop is called cycle.
#[derive(Clone, Debug, Default, PartialEq, Eq)]
pub struct Answer {
    pub number: u8,
    pub line: u32,
    pub cost: u32,
    pub kept: u8,
    pub run_in: Vec<u8>,
    pub cycle: Vec<u8>,
}

impl Answer {
    pub fn text(&self) -> String {
        self.lines().concat()
    }

    /// The six lines, each with its last byte.
    pub fn lines(&self) -> Vec<String> {
        let keys = LINES.iter().map(|line| line.key);
        let line = |(key, value)| format!("{key}={value}\n");
        keys.zip(self.values()).map(line).collect()
    }

    /// What stands in the six lines.
    pub fn values(&self) -> [String; 6] {
        [
            self.number.to_string(),
            self.line.to_string(),
            self.cost.to_string(),
            self.kept.to_string(),
            joined(&self.run_in),
            joined(&self.cycle),
        ]
    }

    /// The lines contradict each other: the cause of refusal 8.
    pub fn contradicts_itself(&self) -> bool {
        if self.number == 0 {
            return self.cycle.is_empty() || self.line != 0;
        }
        let told = self.cost != 0 || self.kept != 0;
        let listed = !self.run_in.is_empty() || !self.cycle.is_empty();
        let carries = ANSWERS.contains(&(self.number, true));
        told || listed || carries != (self.line != 0)
    }
}

/// The places with commas between them.
pub fn joined(places: &[u8]) -> String {
    let mut list = String::new();
    for place in places {
        let comma = if list.is_empty() { "" } else { "," };
        write!(list, "{comma}{place}").expect("a String takes all");
    }
    list
}

/// What may stand in one of the six lines: its key, whether it is a list, and
/// the numbers within its range.
pub struct Line {
    pub key: &'static str,
    pub list: bool,
    pub allows: fn(u64) -> bool,
}

pub const LINES: [Line; 6] = [
    Line {
        key: "answer",
        list: false,
        allows: |value| ANSWERS.iter().any(|(number, _)| *number as u64 == value),
    },
    Line {
        key: "line",
        list: false,
        allows: |value| value <= MAX_LINE,
    },
    Line {
        key: "cost",
        list: false,
        allows: |value| value <= MAX_COST,
    },
    Line {
        key: "kept",
        list: false,
        allows: |value| value <= MAX_KEPT,
    },
    Line {
        key: "runin",
        list: true,
        allows: |value| value <= MAX_PLACE,
    },
    Line {
        key: "loop",
        list: true,
        allows: |value| value <= MAX_PLACE,
    },
];

impl Line {
    /// The numbers of a line without its last byte, if it has the form.
    fn numbers(&self, line: &[u8]) -> Option<Vec<u64>> {
        let value = line.strip_prefix(self.key.as_bytes())?.strip_prefix(b"=")?;
        if !self.list {
            return Some(vec![number(value)?]);
        }
        if value.is_empty() {
            return Some(Vec::new());
        }
        value.split(|&byte| byte == b',').map(number).collect()
    }
}

/// Reads the six lines: refusals 2 and 3, of the first faulty line.
pub fn read(text: &[u8]) -> Result<Answer, Refusal> {
    let mut rest = text;
    let mut values = Vec::new();
    for (line, kind) in (1..).zip(&LINES) {
        let length = rest.iter().position(|&byte| byte == b'\n');
        let length = length.ok_or(Refusal::Form { line })?;
        let numbers = kind
            .numbers(&rest[..length])
            .ok_or(Refusal::Form { line })?;
        if !numbers.iter().all(|&value| (kind.allows)(value)) {
            return Err(Refusal::Range { line });
        }
        values.push(numbers);
        rest = &rest[length + 1..];
    }
    if !rest.is_empty() {
        let line = LINES.len() as u32 + 1;
        return Err(Refusal::Form { line });
    }
    let places = |list: &[u64]| list.iter().map(|&place| place as u8).collect();
    Ok(Answer {
        number: values[0][0] as u8,
        line: values[1][0] as u32,
        cost: values[2][0] as u32,
        kept: values[3][0] as u8,
        run_in: places(&values[4]),
        cycle: places(&values[5]),
    })
}

pub const BLOCK_BYTES: usize = 32;

/// The first 32 bytes of the block as numbers: `number` is that of the call and
/// `fault` the faulty line of the text; `answer` and `line` are what was read.
#[derive(Clone, Copy, Debug, Default, PartialEq, Eq)]
pub struct Block {
    pub number: u8,
    pub kept: u8,
    pub answer: u8,
    pub fault: u32,
    pub cost: u32,
    pub line: u32,
    pub run_in: u64,
    pub cycle: u64,
}

impl Block {
    pub fn bytes(&self) -> [u8; BLOCK_BYTES] {
        let mut bytes = [0; BLOCK_BYTES];
        bytes[0] = self.number;
        bytes[1] = self.kept;
        bytes[2] = self.answer;
        bytes[4..8].copy_from_slice(&self.fault.to_le_bytes());
        bytes[8..12].copy_from_slice(&self.cost.to_le_bytes());
        bytes[12..16].copy_from_slice(&self.line.to_le_bytes());
        bytes[16..24].copy_from_slice(&self.run_in.to_le_bytes());
        bytes[24..32].copy_from_slice(&self.cycle.to_le_bytes());
        bytes
    }
}

/// Reads a text as a C host has it read. A refused call leaves run-in and loop
/// as they were, and a block too short is left too.
pub fn read_answer(text: &[u8], block: &mut [u8], run_in: &mut [u8], cycle: &mut [u8]) -> u32 {
    if block.len() < BLOCK_BYTES {
        return BLOCK_TOO_SHORT;
    }
    let told = match read_into(text, run_in, cycle) {
        Ok(answer) => Block {
            number: 0,
            kept: answer.kept,
            answer: answer.number,
            fault: 0,
            cost: answer.cost,
            line: answer.line,
            run_in: answer.run_in.len() as u64,
            cycle: answer.cycle.len() as u64,
        },
        Err(refusal) => Block {
            number: refusal.number() as u8,
            fault: refusal.line(),
            ..Block::default()
        },
    };
    block[..BLOCK_BYTES].copy_from_slice(&told.bytes());
    told.number as u32
}

fn read_into(text: &[u8], run_in: &mut [u8], cycle: &mut [u8]) -> Result<Answer, Refusal> {
    let answer = read(text)?;
    if run_in.len() < answer.run_in.len() || cycle.len() < answer.cycle.len() {
        return Err(Refusal::Buffer);
    }
    if answer.contradicts_itself() {
        return Err(Refusal::Contradiction);
    }
    run_in[..answer.run_in.len()].copy_from_slice(&answer.run_in);
    cycle[..answer.cycle.len()].copy_from_slice(&answer.cycle);
    Ok(answer)
}
