//! A family: a key and things around it, from which cases are drawn. What is slow to compute is
//! shared by the cases of a family.

use curupira_reference::roll::Grant;

use crate::expect::{allowed_rounds, BLOCK_BYTES, OVERWRITING};
use crate::holders;
use crate::oracle::{Oracle, Way};
use crate::paging::{self, Sealed};
use crate::random::Random;
use crate::rolls::{self, count, in_standing, model, set_count, set_figure, ROLL_BYTES};

const BLOCKS: usize = 3;
const ROLLS: usize = 3;
const HELD: usize = 2;
const BESIDE: usize = 6;

/// For each grant, so many others that were tampered with.
const TAMPERED: usize = 5;

/// The calls in the life of a roll.
const LIFE: usize = 200;

/// A key and things around it.
pub struct Family {
    pub key: Vec<u8>,
    pub rounds: u32,
    pub blocks: Vec<Vec<u8>>,
    pub rolls: Vec<Vec<u8>>,
    pub held: Vec<Held>,
    /// Grants for the size block of the first grant that is held, for any contractors, and forged
    /// ones.
    pub beside: Vec<Vec<u8>>,
    /// The second key for pages.
    pub second_key: Vec<u8>,
    pub pages: Vec<Sealed>,
}

/// A grant, the roll with which it opens unless it names size block 0, and what was made of the grant.
pub struct Held {
    pub roll: Vec<u8>,
    pub contractor: u32,
    pub size_block: u32,
    pub right: u32,
    pub grant: Vec<u8>,
    pub tampered: Vec<Vec<u8>>,
}

impl Family {
    /// Draws a family with pages. All its cases are on them.
    pub fn with_pages(oracle: &mut Oracle, random: &mut Random) -> Self {
        let mut family = Family::new(oracle, random);
        family.second_key = paging::second_key(&family.key, random);
        family.pages = paging::draw_pages(&family, oracle, random);
        family
    }

    /// Draws a family.
    pub fn new(oracle: &mut Oracle, random: &mut Random) -> Self {
        let key_length = random.pick(&[12, 18, 24]);
        let mut family = Family {
            key: bytes(key_length, random),
            rounds: right_rounds(key_length, random),
            blocks: (0..BLOCKS).map(|_| bytes(BLOCK_BYTES, random)).collect(),
            rolls: (0..ROLLS).map(|_| roll(random)).collect(),
            held: Vec::new(),
            beside: Vec::new(),
            second_key: Vec::new(),
            pages: Vec::new(),
        };
        family.held = (0..HELD).map(|_| family.hold(oracle, random)).collect();
        family.beside = (0..BESIDE)
            .map(|_| family.stand_beside(&family.held[0], oracle, random))
            .collect();
        family
    }

    /// A grant from one of the rolls, after its contractor was brought into standing there, and was
    /// raised for a grant to overwrite.
    fn hold(&self, oracle: &mut Oracle, random: &mut Random) -> Held {
        let mut roll = random.pick(&self.rolls);
        let contractor = some_contractor(random);
        set_count(&mut roll, contractor, standing_count(random));
        let grant = Grant {
            contractor: contractor as u16,
            count: count(&roll, contractor),
            block: any_size_block(random),
            right: random.pick(&[1, 2, 2]),
        };
        if u32::from(grant.right) == OVERWRITING {
            set_figure(&mut roll, contractor, grant.right);
        }
        let plain = grant.plain_bytes();
        let mut encipher =
            |plain: &[u8]| oracle.block(Way::Encipher, &self.key, self.rounds, plain);
        let issued = encipher(&plain);
        let mut tampered = Vec::new();
        for _ in 0..TAMPERED {
            tampered.push(match random.below(6) {
                0 => random.bytes(BLOCK_BYTES),
                1 | 2 => one_bit_changed(&issued, 0..96, random),
                _ => encipher(&forged(&plain, random)),
            });
        }
        Held {
            roll,
            contractor,
            size_block: grant.block,
            right: u32::from(grant.right),
            grant: issued,
            tampered,
        }
    }

    /// A grant for the size block of one that is held, with any contractor's count on its roll or,
    /// once in four times, on another. If the first contractor that is drawn is not in standing
    /// there, it is for a second one. Now and then it is forged.
    fn stand_beside(&self, held: &Held, oracle: &mut Oracle, random: &mut Random) -> Vec<u8> {
        let roll = match random.below(4) {
            0 => random.pick(&self.rolls),
            _ => held.roll.clone(),
        };
        let mut contractor = some_contractor(random);
        if !in_standing(count(&roll, contractor)) {
            contractor = some_contractor(random);
        }
        let grant = Grant {
            contractor: contractor as u16,
            count: count(&roll, contractor),
            block: held.size_block,
            right: random.pick(&[1, 2, 2]),
        };
        let mut plain = grant.plain_bytes();
        if random.once_in(4) {
            plain = forged(&plain, random);
        }
        oracle.made_of(&self.key, self.rounds, &plain)
    }
}

/// Plain bytes of a grant with something in them replaced. With size block 0 they are those of a grant
/// that was issued before 14 was a reason.
fn forged(plain: &[u8], random: &mut Random) -> Vec<u8> {
    let mut forged = plain.to_vec();
    match random.below(7) {
        0 => forged = one_bit_changed(plain, 72..96, random),
        1 => forged[9..].copy_from_slice(&random.bytes(3)),
        2 => {
            let contractor: u16 = random.pick(&[0, 201, 255, 256, 257, 456, 51_200, 65_535]);
            forged[..2].copy_from_slice(&contractor.to_be_bytes());
        }
        3 => forged[8] = random.pick(&[0, 3, 4, 129, 130, 254, 255]),
        4 => forged[2..4].copy_from_slice(&some_count(random).to_be_bytes()),
        5 => forged[4..8].fill(0),
        _ => forged = one_bit_changed(plain, 16..32, random),
    }
    forged
}

/// Bytes with one bit changed, of those in a range.
pub fn one_bit_changed(
    bytes: &[u8],
    range: std::ops::Range<usize>,
    random: &mut Random,
) -> Vec<u8> {
    let bit = range.start + random.below(range.len());
    let mut changed = bytes.to_vec();
    changed[bit / 8] ^= 0x80 >> (bit % 8);
    changed
}

/// Random or structured bytes.
pub fn bytes(length: usize, random: &mut Random) -> Vec<u8> {
    match random.below(12) {
        0 => vec![0; length],
        1 => vec![0xff; length],
        2 if length > 0 => one_bit_changed(&vec![0; length], 0..8 * length, random),
        3 => (0..length).map(|place| place as u8).collect(),
        4 => vec![random.byte(); length],
        _ => random.bytes(length),
    }
}

/// A round count that the key length allows.
pub fn right_rounds(key_length: usize, random: &mut Random) -> u32 {
    let range = allowed_rounds(key_length).expect("the key length is right");
    let choices: Vec<u32> = range.collect();
    random.pick(&choices)
}

/// A contractor, often the first or the last.
pub fn some_contractor(random: &mut Random) -> u32 {
    match random.below(6) {
        0 => 1,
        1 => 200,
        _ => 1 + random.below(200) as u32,
    }
}

/// A size block that may be asked for: often at an end, or one that would be 0 if it were cut to 8, 16
/// or 24 bits.
pub fn some_size_block(random: &mut Random) -> u32 {
    let word = random.word().max(1);
    let byte = 1 + random.below(255) as u32;
    random.pick(&[
        1,
        u32::MAX,
        byte << 8,
        byte << 16,
        byte << 24,
        word,
        word,
        word,
    ])
}

/// Any size block, once in six times 0: a grant or a page that was made before 14 was a reason can name
/// it, and a blank form asks for it.
pub fn any_size_block(random: &mut Random) -> u32 {
    match random.below(6) {
        0 => 0,
        _ => some_size_block(random),
    }
}

/// A number of a stage, often the first or the last.
pub fn some_stage(stages: usize, random: &mut Random) -> u32 {
    let last = stages as u32 - 1;
    match random.below(6) {
        0 => 0,
        1 => last,
        _ => random.below(stages) as u32,
    }
}

/// A whole holder of any bytes.
pub fn some_holder(random: &mut Random) -> Vec<u8> {
    let length = random.pick(&[12, 18, 24]);
    let number = some_stage(length, random);
    holders::bytes(length, number, &bytes(length, random))
}

/// A count, often near an end.
pub fn some_count(random: &mut Random) -> u16 {
    match random.below(4) {
        0 => random.below(4) as u16,
        1 => 65_531 + random.below(5) as u16,
        _ => random.word() as u16,
    }
}

/// A count of someone in standing.
pub fn standing_count(random: &mut Random) -> u16 {
    let count = some_count(random) | 1;
    count.min(65_533)
}

/// A figure for a highest right: often 2, 1, one that differs from 2 in one bit, or any other.
pub fn some_figure(random: &mut Random) -> u8 {
    let any = random.byte();
    match random.below(8) {
        0..=3 => 2,
        4 => 1,
        5 | 6 => 2 ^ (1 << random.below(8)),
        _ => random.pick(&[0, 3, 255, any]),
    }
}

/// A roll: new, of zeros or of random bytes, after some life, or of counts near the ends with figures
/// of every kind.
fn roll(random: &mut Random) -> Vec<u8> {
    match random.below(12) {
        0 => rolls::empty(),
        1 => vec![0; ROLL_BYTES],
        2 | 3 => random.bytes(ROLL_BYTES),
        4 | 5 => lived(&rolls::empty(), random),
        _ => {
            let mut roll = rolls::empty();
            for contractor in 1..=200 {
                set_count(&mut roll, contractor, some_count(random));
                set_figure(&mut roll, contractor, some_figure(random));
            }
            roll
        }
    }
}

/// A roll after some calls on it for any contractors, the refused ones among them.
fn lived(roll: &[u8], random: &mut Random) -> Vec<u8> {
    let mut model = model(roll);
    for _ in 0..LIFE {
        let contractor = some_contractor(random) as u16;
        let right = random.pick(&[1, 2]);
        // A call that is refused changes nothing, as it has to be.
        let _ = match random.below(3) {
            0 => model.enter(contractor, right),
            1 => model.change_right(contractor, right),
            _ => model.withdraw(contractor),
        };
    }
    model.to_bytes()
}

/// A roll after so many changes of one contractor's standing, or fewer where the count is spent. The
/// contractor is entered with any right.
pub fn changed(roll: &[u8], contractor: u32, times: usize, random: &mut Random) -> Vec<u8> {
    let mut model = model(roll);
    let contractor = contractor as u16;
    for _ in 0..times {
        let right = random.pick(&[1, 2]);
        if model.enter(contractor, right).is_err() && model.withdraw(contractor).is_err() {
            break;
        }
    }
    model.to_bytes()
}
