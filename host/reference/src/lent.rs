//! A buffer lent to a call, and whether the call kept to its part of it.

use crate::entry::BLOCK_TOO_SHORT;

/// A buffer between two margins, perhaps of no bytes, all filled with a
/// pattern. No byte of the pattern is a place.
pub struct Lent {
    bytes: Vec<u8>,
    filled: Vec<u8>,
    from: usize,
    length: usize,
}

impl Lent {
    pub fn new(salt: u8, length: usize, margin: usize) -> Lent {
        let from = if margin == 0 {
            0
        } else {
            margin + salt as usize % 8
        };
        let pattern = |i: usize| (i as u8).wrapping_mul(37).wrapping_add(salt) | 0x80;
        let filled: Vec<u8> = (0..from + length + margin).map(pattern).collect();
        Lent {
            bytes: filled.clone(),
            filled,
            from,
            length,
        }
    }

    pub fn lend(&mut self) -> &mut [u8] {
        &mut self.bytes[self.from..self.from + self.length]
    }

    pub fn content(&self) -> &[u8] {
        &self.bytes[self.from..self.from + self.length]
    }

    /// The first so many bytes of the content, or all if it has fewer.
    pub fn first(&self, count: usize) -> &[u8] {
        let content = self.content();
        &content[..count.min(content.len())]
    }

    /// All bytes, margins and all.
    pub fn bytes(&self) -> &[u8] {
        &self.bytes
    }

    /// The same bytes as in another buffer, margins and all.
    pub fn same(&self, other: &Lent) -> bool {
        self.bytes == other.bytes
    }

    /// Nothing was written but, perhaps, the first `written` bytes.
    pub fn unchanged_beyond(&self, written: usize) -> bool {
        let (start, end) = (self.from, self.from + written);
        self.bytes[..start] == self.filled[..start] && self.bytes[end..] == self.filled[end..]
    }

    /// What must hold of a block, whatever it tells. One that is too short for
    /// its numbers is refused, with nothing touched, neither it nor the other
    /// buffers; else it has the bytes of its numbers, the first of which is
    /// returned, and nothing behind them is touched.
    pub fn of_form<const BYTES: usize>(
        &self,
        numbers: Option<[u8; BYTES]>,
        returned: u32,
        others: &[&Lent],
    ) -> Result<(), String> {
        let Some(numbers) = numbers else {
            let untouched = |lent: &&Lent| lent.unchanged_beyond(0);
            return match returned {
                BLOCK_TOO_SHORT if untouched(&self) && others.iter().all(untouched) => Ok(()),
                BLOCK_TOO_SHORT => Err("bytes changed on refusal 7".into()),
                other => Err(format!("short block, returned {other}")),
            };
        };
        if *self.first(BYTES) != numbers {
            return Err("bytes of the block that should be 0 are not".into());
        }
        if !self.unchanged_beyond(BYTES) {
            return Err("bytes beyond the block changed".into());
        }
        match numbers[0] as u32 {
            number if number == returned => Ok(()),
            number => Err(format!("returned {returned}, block has {number}")),
        }
    }
}
