//! A case: a call with everything that it is given.

use std::fmt;

use crate::call::{Argument, Call};

/// A call and what it is given. What the call does not take is empty or 0.
#[derive(Clone, Debug, PartialEq, Eq)]
pub struct Case {
    pub call: Call,
    /// The key, or the first of the two keys for a page.
    pub key: Vec<u8>,
    pub second_key: Vec<u8>,
    pub rounds: u32,
    /// The number of a key stage.
    pub stage: u32,
    pub roll: Vec<u8>,
    /// A key holder.
    pub holder: Vec<u8>,
    /// A subkey list.
    pub list: Vec<u8>,
    /// A block, a grant, the grants of a queue, one after the other, a payload or a page.
    pub block: Vec<u8>,
    pub contractor: u32,
    pub size_block: u32,
    pub right: u32,
    pub page_number: u16,
    /// How many bytes are lent as a scratch.
    pub scratch: usize,
    /// How many bytes are lent to be written to.
    pub out: usize,
    /// Whether the block, or of a case on a page the second key, is lent from within the key's own
    /// bytes. Then the key begins with it.
    pub shared: bool,
}

impl Case {
    /// A case that gives nothing yet.
    pub fn new(call: Call) -> Self {
        Case {
            call,
            key: Vec::new(),
            second_key: Vec::new(),
            rounds: 0,
            stage: 0,
            roll: Vec::new(),
            holder: Vec::new(),
            list: Vec::new(),
            block: Vec::new(),
            contractor: 0,
            size_block: 0,
            right: 0,
            page_number: 0,
            scratch: 0,
            out: 0,
            shared: false,
        }
    }

    /// What the case gives for an argument, as text.
    fn given(&self, argument: Argument) -> String {
        match argument {
            Argument::Key => format!("key={}", hex(&self.key)),
            Argument::SecondKey => format!("second_key={}", hex(&self.second_key)),
            Argument::Rounds => format!("rounds={}", self.rounds),
            Argument::Stage => format!("stage={}", self.stage),
            Argument::Roll => format!("roll={}", hex(&self.roll)),
            Argument::Holder => format!("holder={}", hex(&self.holder)),
            Argument::List => format!("list={}", hex(&self.list)),
            Argument::Block => format!("block={}", hex(&self.block)),
            Argument::Grant => format!("grant={}", hex(&self.block)),
            Argument::Grants => format!("grants={}", hex(&self.block)),
            Argument::Contractor => format!("contractor={}", self.contractor),
            Argument::SizeBlock => format!("size_block={}", self.size_block),
            Argument::Right => format!("right={}", self.right),
            Argument::PageNumber => format!("page_number={}", self.page_number),
            Argument::Payload => format!("payload={}", hex(&self.block)),
            Argument::Page => format!("page={}", hex(&self.block)),
            Argument::Scratch => format!("scratch_length={}", self.scratch),
            Argument::Out => format!("out_length={}", self.out),
        }
    }
}

impl fmt::Display for Case {
    fn fmt(&self, out: &mut fmt::Formatter<'_>) -> fmt::Result {
        out.write_str(self.call.name())?;
        for &argument in self.call.arguments() {
            write!(out, " {}", self.given(argument))?;
        }
        match (self.shared, Call::ON_PAGES.contains(&self.call)) {
            (true, false) => out.write_str(" (the block is lent from the key's bytes)"),
            (true, true) => out.write_str(" (the second key is lent from the key's bytes)"),
            (false, _) => Ok(()),
        }
    }
}

/// The digits of hex.
const DIGITS: [char; 16] = [
    '0', '1', '2', '3', '4', '5', '6', '7', '8', '9', 'a', 'b', 'c', 'd', 'e', 'f',
];

/// Bytes in hex, with their number before them. The digits are looked up: to format byte by byte would
/// take most of the time of the tests, where many bytes differ.
pub fn hex(bytes: &[u8]) -> String {
    let mut text = format!("{}:", bytes.len());
    for &byte in bytes {
        text.push(DIGITS[usize::from(byte >> 4)]);
        text.push(DIGITS[usize::from(byte & 15)]);
    }
    text
}
