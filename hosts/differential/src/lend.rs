//! What is lent to a call: bytes between guard bytes.

use crate::call::Call;
use crate::case::Case;
use crate::random::Random;

/// The guard bytes on either side of what is lent.
const GUARD: usize = 64;

/// Lent bytes begin at so many different places, so that they are not always aligned.
const PLACES: usize = 8;

/// A pointer and a length, as a call takes them.
#[derive(Clone, Copy, Debug)]
pub struct Bytes {
    pub start: *mut u8,
    pub length: usize,
}

/// Everything that a call is given, as it takes it. What the call does not take has length 0, or is
/// 0.
#[derive(Clone, Copy, Debug)]
pub struct Lent {
    pub key: Bytes,
    pub second_key: Bytes,
    pub rounds: u32,
    pub stage: u32,
    pub roll: Bytes,
    pub holder: Bytes,
    pub list: Bytes,
    pub block: Bytes,
    pub contractor: u32,
    pub size_block: u32,
    pub right: u32,
    pub page_number: u16,
    pub scratch: Bytes,
    pub out: Bytes,
}

/// Something that makes the calls: the archive, or what stands for it in a test. Its answer has the 64
/// bits that the opening of a page needs.
pub type Library<'a> = dyn Fn(Call, &Lent) -> u64 + Sync + 'a;

/// Bytes between guard bytes.
pub struct Guarded {
    memory: Vec<u8>,
    start: usize,
    length: usize,
}

impl Guarded {
    /// A copy of the bytes, that begins at some place between the guards.
    pub fn new(content: &[u8], random: &mut Random) -> Self {
        let start = GUARD + random.below(PLACES);
        let mut memory: Vec<u8> = (0..start).map(guard).collect();
        memory.extend_from_slice(content);
        let end = memory.len();
        memory.extend((end..end + GUARD).map(guard));
        Guarded {
            memory,
            start,
            length: content.len(),
        }
    }

    /// The pointer and the length that a call is given. They are good for as long as nothing else
    /// is done with these bytes.
    fn lend(&mut self) -> Bytes {
        Bytes {
            start: self.memory.as_mut_ptr().wrapping_add(self.start),
            length: self.length,
        }
    }

    /// The bytes between the guards.
    pub fn content(&self) -> &[u8] {
        &self.memory[self.start..self.start + self.length]
    }

    /// Whether the guard bytes before are as they were.
    pub fn guarded_before(&self) -> bool {
        self.guarded(0, self.start)
    }

    /// Whether the guard bytes after are as they were.
    pub fn guarded_after(&self) -> bool {
        self.guarded(self.start + self.length, self.memory.len())
    }

    fn guarded(&self, from: usize, to: usize) -> bool {
        (from..to).all(|place| self.memory[place] == guard(place))
    }
}

/// The guard byte at a place. They differ from place to place, so that a copy of a guard byte to
/// its neighbour shows.
fn guard(place: usize) -> u8 {
    (place as u8).wrapping_mul(29) ^ 0x5a
}

/// All that is lent for a case.
pub struct Loan {
    pub key: Guarded,
    pub second_key: Guarded,
    pub roll: Guarded,
    pub holder: Guarded,
    pub list: Guarded,
    pub block: Guarded,
    pub scratch: Guarded,
    pub out: Guarded,
}

impl Loan {
    /// What is lent for a case; `scratch` and `out` are what stands in the scratch and in the output
    /// before the call.
    pub fn new(case: &Case, scratch: &[u8], out: &[u8], random: &mut Random) -> Self {
        Loan {
            key: Guarded::new(&case.key, random),
            second_key: Guarded::new(&case.second_key, random),
            roll: Guarded::new(&case.roll, random),
            holder: Guarded::new(&case.holder, random),
            list: Guarded::new(&case.list, random),
            block: Guarded::new(&case.block, random),
            scratch: Guarded::new(scratch, random),
            out: Guarded::new(out, random),
        }
    }

    /// Makes the case's call. Its answer.
    pub fn call(&mut self, case: &Case, library: &Library<'_>) -> u64 {
        let key = self.key.lend();
        let mut second_key = self.second_key.lend();
        let mut block = self.block.lend();
        match (case.shared, Call::ON_PAGES.contains(&case.call)) {
            (true, false) => block.start = key.start,
            (true, true) => second_key.start = key.start,
            (false, _) => {}
        }
        let lent = Lent {
            key,
            second_key,
            rounds: case.rounds,
            stage: case.stage,
            roll: self.roll.lend(),
            holder: self.holder.lend(),
            list: self.list.lend(),
            block,
            contractor: case.contractor,
            size_block: case.size_block,
            right: case.right,
            page_number: case.page_number,
            scratch: self.scratch.lend(),
            out: self.out.lend(),
        };
        library(case.call, &lent)
    }
}
