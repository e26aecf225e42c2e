//! What README.md says about sealed pages. Pages are chained again here on bytes, and
//! their payloads are deciphered by the decryption keys of Theorem 1 (section 3.10).

use curupira_reference::cipher::{decrypt_with, decryption_keys, encrypt_with};
use curupira_reference::generator::Generator;
use curupira_reference::layers::{inverse_pi, inverse_sigma, pi, sigma};
use curupira_reference::matrix::{Matrix, State};
use curupira_reference::pages::{
    chain, keys_allowed, old_zero_page, open, opened_with, page_under, page_with, plain_bytes,
    seal, unchain, Header, Refusal, CHECKED_LENGTH, CHECK_LENGTH, HEADER_LENGTH, PAGE_LENGTH,
    PAYLOAD_LENGTH, SCRATCH_LENGTH,
};
use curupira_reference::schedule::round_subkeys;
use curupira_reference::vectors::pages_text;

/// The key lengths with their least and greatest numbers of rounds (Table 2).
const SIZES: [(usize, usize, usize); 3] = [(12, 10, 11), (18, 14, 17), (24, 18, 23)];

/// What lent bytes have before a call, so that it shows which of them are written.
const LENT: u8 = 0xA5;

/// The header of most pages here.
const HEADER: Header = Header {
    size_block: 0x0102_0304,
    page_number: 0x0506,
    used: 17,
};

/// The inputs of a call. For sealing, the page is not used; for opening, neither are the
/// payload, the size block and the page number.
#[derive(Clone)]
struct Call {
    first: Vec<u8>,
    second: Vec<u8>,
    rounds: usize,
    block: u32,
    payload: Vec<u8>,
    page: Vec<u8>,
    scratch: usize,
    out: usize,
}

/// What a call answers, and the lent bytes after it.
struct After<T> {
    answer: Result<T, Refusal>,
    scratch: Vec<u8>,
    out: Vec<u8>,
}

impl Call {
    /// A call in which nothing is wrong, under keys of a length, with a payload of so many
    /// bytes that are not zero. Exactly as many bytes are lent as are needed for sealing.
    fn new(key_length: usize, rounds: usize, used: usize) -> Self {
        let [first, second] = two_keys(key_length);
        Call {
            first,
            second,
            rounds,
            block: HEADER.size_block,
            payload: (1..=251).cycle().take(used).collect(),
            page: Vec::new(),
            scratch: 576,
            out: 512,
        }
    }

    fn seal(&self) -> After<()> {
        let (mut scratch, mut out) = (vec![LENT; self.scratch], vec![LENT; self.out]);
        let answer = seal(
            &self.first,
            &self.second,
            self.rounds,
            self.block,
            HEADER.page_number,
            &self.payload,
            &mut scratch,
            &mut out,
        );
        After {
            answer,
            scratch,
            out,
        }
    }

    fn open(&self) -> After<Header> {
        let (mut scratch, mut out) = (vec![LENT; self.scratch], vec![LENT; self.out]);
        let answer = open(
            &self.first,
            &self.second,
            self.rounds,
            &self.page,
            &mut scratch,
            &mut out,
        );
        After {
            answer,
            scratch,
            out,
        }
    }

    /// The same call with another page, and 492 bytes for the output.
    fn with_page(&self, page: Vec<u8>) -> Self {
        Call {
            page,
            out: 492,
            ..self.clone()
        }
    }

    /// The page of these plain bytes under the keys of the call.
    fn page_of(&self, plain: &[u8; 504]) -> Vec<u8> {
        let page = page_under(&self.first, &self.second, self.rounds, plain);
        page.expect("the keys and the rounds are allowed")
    }

    /// The plain bytes of the page that the call seals, written out, or would seal if its
    /// size block were not 0.
    fn plain(&self) -> [u8; 504] {
        let mut plain = [0; 504];
        plain[..4].copy_from_slice(&self.block.to_be_bytes());
        plain[4..6].copy_from_slice(&[5, 6]);
        plain[6] = (self.payload.len() / 256) as u8;
        plain[7] = (self.payload.len() % 256) as u8;
        plain[12..12 + self.payload.len()].copy_from_slice(&self.payload);
        plain
    }
}

impl Call {
    /// The same call for size block 0, with the old page of its payload to be opened.
    fn with_old_page(&self) -> Self {
        let (first, second) = (&self.first, &self.second);
        let page = old_zero_page(first, second, self.rounds, 0x0506, &self.payload);
        let page = page.expect("the keys, the rounds and the payload are allowed");
        Call {
            block: 0,
            ..self.with_page(page)
        }
    }
}

impl<T> After<T> {
    /// The number of the call: 0, or that of the reason for which it is refused.
    fn number(&self) -> u8 {
        match self.answer {
            Ok(_) => 0,
            Err(refusal) => refusal.number(),
        }
    }

    /// Whether no lent byte was written.
    fn untouched(&self) -> bool {
        let mut lent = self.scratch.iter().chain(&self.out);
        lent.all(|byte| *byte == LENT)
    }

    /// Whether the first 576 bytes of the scratch are zero, those beyond are as before,
    /// and so is all of the output.
    fn only_wiped(&self) -> bool {
        self.wiped() && self.out.iter().all(|byte| *byte == LENT)
    }

    /// Whether the first 576 bytes of the scratch are zero and those beyond are as before.
    fn wiped(&self) -> bool {
        let (used, rest) = self.scratch.split_at(576);
        used.iter().all(|byte| *byte == 0) && rest.iter().all(|byte| *byte == LENT)
    }
}

/// Two keys of a length that have no byte in common.
fn two_keys(length: usize) -> [Vec<u8>; 2] {
    [1, 101].map(|start| (start..).take(length).collect())
}

/// A state drawn from the generator.
fn draw_state(generator: &mut Generator) -> State {
    Matrix::from_bytes(&generator.bytes(12)).expect("a state has 12 bytes")
}

/// The sum of two blocks of bytes.
fn xored(a: &[u8], b: &[u8]) -> Vec<u8> {
    assert_eq!((a.len(), b.len()), (12, 12));
    a.iter().zip(b).map(|(x, y)| x ^ y).collect()
}

/// Bytes enciphered with a list of subkeys.
fn enciphered(list: &[State], block: &[u8]) -> Vec<u8> {
    let state = Matrix::from_bytes(block).expect("12 bytes");
    let result = encrypt_with(list, &state).expect("there are subkeys");
    result.to_bytes()
}

/// The stored page of plain bytes, by the words of README.md: all of the payload, then the
/// check, block by block.
fn page_by_words(call: &Call, plain: &[u8]) -> Vec<u8> {
    let [first, second] = [&call.first, &call.second]
        .map(|key| round_subkeys(key, call.rounds).expect("an allowed key"));
    let mut page = plain[..12].to_vec();
    let mut previous = enciphered(&first, &plain[..12]);
    for k in 0..41 {
        let block = &plain[12 + 12 * k..24 + 12 * k];
        previous = enciphered(&first, &xored(block, &previous));
        page.extend(&previous);
    }
    assert_eq!(page.len(), 504);
    let mut last = vec![0; 12];
    for k in 0..42 {
        last = enciphered(&second, &xored(&page[12 * k..12 * k + 12], &last));
    }
    page.extend(&last[..8]);
    page
}

/// The payload of a page, deciphered by the decryption keys of Theorem 1. The check is
/// not looked at.
fn payload_by_turned_list(key: &[u8], rounds: usize, page: &[u8]) -> Vec<u8> {
    let list = round_subkeys(key, rounds).expect("an allowed key");
    let turned = decryption_keys(&list).expect("there are subkeys");
    let mut payload = Vec::new();
    let mut previous = enciphered(&list, &page[..12]);
    for block in page[12..504].chunks(12) {
        payload.extend(xored(&enciphered(&turned, block), &previous));
        previous = block.to_vec();
    }
    payload
}

#[test]
fn the_numbers_are_as_documented() {
    let numbers = [
        (Refusal::Keys, 1),
        (Refusal::Rounds, 2),
        (Refusal::TooShort, 4),
        (Refusal::NoPage, 11),
        (Refusal::LongPayload, 12),
        (Refusal::OtherCheck, 13),
        (Refusal::ZeroBlock, 14),
    ];
    for (refusal, number) in numbers {
        assert_eq!(refusal.number(), number);
    }
    let lengths = [PAGE_LENGTH, HEADER_LENGTH, PAYLOAD_LENGTH, CHECK_LENGTH];
    assert_eq!(lengths, [512, 12, 492, 8]);
    assert_eq!((CHECKED_LENGTH, SCRATCH_LENGTH), (504, 576));
}

/// The number of 24 subkeys of 12 bytes, twice: 23 rounds are the most of Table 2.
#[test]
fn the_scratch_has_room_for_two_lists() {
    let list = round_subkeys(&[0; 24], 23).expect("24 bytes");
    assert_eq!(2 * 12 * list.len(), 576);
}

/// With the identity as the function, block n of the result is the sum of the start and
/// of the blocks up to n.
#[test]
fn chaining_with_the_identity_sums_up() {
    let [start, a, b, c] = [0x01, 0x02, 0x04, 0x18].map(|byte| block_of([byte; 12]));
    let sums = [0x03, 0x07, 0x1F].map(|byte| block_of([byte; 12]));
    assert_eq!(chain(|x: &State| *x, &start, &[a, b, c]), sums);
    assert_eq!(unchain(|x: &State| *x, &start, &sums), [a, b, c]);
    assert_eq!(chain(|x: &State| *x, &start, &[]), []);
    assert_eq!(unchain(|x: &State| *x, &start, &[]), []);
}

/// The block of 12 bytes.
fn block_of(bytes: [u8; 12]) -> State {
    Matrix::from_bytes(&bytes).expect("12 bytes")
}

/// A function that adds 1 to each byte modulo 256. Added first, then enciphered: 1 xor 2
/// is 3, plus 1 is 4; 4 xor 7 is 3, plus 1 is 4; 4 xor 4 is 0, plus 1 is 1.
#[test]
fn a_block_is_added_before_it_is_enciphered() {
    let up = |a: &State| Matrix::from_rule(|i, j| a.rows[i][j].wrapping_add(1));
    let down = |a: &State| Matrix::from_rule(|i, j| a.rows[i][j].wrapping_sub(1));
    let start = block_of([1; 12]);
    let blocks = [2, 7, 4].map(|byte| block_of([byte; 12]));
    let chained = [4, 4, 1].map(|byte| block_of([byte; 12]));
    assert_eq!(chain(up, &start, &blocks), chained);
    assert_eq!(unchain(down, &start, &chained), blocks);
}

#[test]
fn unchaining_undoes_chaining_from_either_side() {
    let mut generator = Generator::new(50);
    for count in [0, 1, 2, 3, 41] {
        let list: Vec<State> = (0..4).map(|_| draw_state(&mut generator)).collect();
        let encipher = |a: &State| encrypt_with(&list, a).expect("there are subkeys");
        let decipher = |a: &State| decrypt_with(&list, a).expect("there are subkeys");
        let start = draw_state(&mut generator);
        let blocks: Vec<State> = (0..count).map(|_| draw_state(&mut generator)).collect();
        let chained = chain(encipher, &start, &blocks);
        assert_eq!(chained.len(), count);
        assert_eq!(unchain(decipher, &start, &chained), blocks);
        let unchained = unchain(decipher, &start, &blocks);
        assert_eq!(chain(encipher, &start, &unchained), blocks);
    }
}

/// A chain can be cut: what was enciphered last is the start of the rest.
#[test]
fn a_chain_goes_on_from_its_last_block() {
    let mut generator = Generator::new(51);
    let list: Vec<State> = (0..3).map(|_| draw_state(&mut generator)).collect();
    let encipher = |a: &State| encrypt_with(&list, a).expect("there are subkeys");
    let start = draw_state(&mut generator);
    let blocks: Vec<State> = (0..9).map(|_| draw_state(&mut generator)).collect();
    let whole = chain(encipher, &start, &blocks);
    for cut in 1..9 {
        assert_eq!(
            chain(encipher, &whole[cut - 1], &blocks[cut..]),
            whole[cut..]
        );
    }
}

/// The first header is one of an old page.
#[test]
fn a_header_is_as_written_by_hand() {
    let cases: [(u32, u16, u16, [u8; 12]); 4] = [
        (0, 0, 0, [0; 12]),
        (16_909_060, 1_286, 17, [1, 2, 3, 4, 5, 6, 0, 17, 0, 0, 0, 0]),
        (300, 256, 492, [0, 0, 1, 44, 1, 0, 1, 236, 0, 0, 0, 0]),
        (
            4_294_967_295,
            65_535,
            491,
            [255, 255, 255, 255, 255, 255, 1, 235, 0, 0, 0, 0],
        ),
    ];
    for (size_block, page_number, used, bytes) in cases {
        let header = Header {
            size_block,
            page_number,
            used,
        };
        assert_eq!(header.to_bytes(), bytes);
        let mut page = vec![LENT; 512];
        page[..12].copy_from_slice(&bytes);
        assert_eq!(Header::from_page(&page), Ok(header));
    }
}

#[test]
fn the_plain_bytes_end_with_zeros() {
    let call = Call::new(12, 10, 17);
    assert_eq!(plain_bytes(&HEADER, &call.payload), call.plain());
    assert!(call.plain()[29..].iter().all(|byte| *byte == 0));
}

/// With the identity in both places. Stored block n of the payload is the sum of the
/// header and of the payload blocks up to n. In the sum of all 42 stored blocks the header
/// is 42 times, and payload block n is 41 - n times, so that the check is the sum of the
/// payload blocks 0, 2, ..., 40.
#[test]
fn a_page_with_the_identity_is_as_derived_by_hand() {
    let mut plain = [0; 504];
    plain[0] = 0x40;
    for (block, byte) in [(0, 0x01), (1, 0x02), (2, 0x04), (39, 0x08), (40, 0x10)] {
        plain[12 + 12 * block] = byte;
        plain[12 + 12 * block + 7] = byte;
        plain[12 + 12 * block + 8] = byte;
    }
    let page = page_with(|a: &State| *a, |a: &State| *a, &plain);
    assert_eq!(page.len(), 512);
    assert_eq!(page[..12], plain[..12]);
    let starts = [0x41, 0x43, 0x47]
        .into_iter()
        .chain([0x47; 36])
        .chain([0x4F, 0x5F]);
    for (block, start) in page[12..504].chunks(12).zip(starts) {
        let rest = start - 0x40;
        let written = [start, 0, 0, 0, 0, 0, 0, rest, rest, 0, 0, 0];
        assert_eq!(block, written);
    }
    assert_eq!(page[504..], [0x15, 0, 0, 0, 0, 0, 0, 0x15]);
}

#[test]
fn a_page_is_chained_as_in_the_words() {
    for (length, rounds) in [(12, 10), (12, 11), (18, 14), (18, 17), (24, 18), (24, 23)] {
        for used in [0, 17, 492] {
            let call = Call::new(length, rounds, used);
            let after = call.seal();
            assert_eq!(after.answer, Ok(()));
            assert!(after.wiped());
            assert_eq!(after.out, page_by_words(&call, &call.plain()));
            let payload = payload_by_turned_list(&call.first, rounds, &after.out);
            assert_eq!(payload, call.plain()[12..]);
        }
    }
}

#[test]
fn any_plain_bytes_are_chained_as_in_the_words() {
    let mut generator = Generator::new(52);
    for (length, rounds) in [(12, 11), (18, 15), (24, 20)] {
        let call = Call::new(length, rounds, 0);
        let plain: Vec<u8> = generator.bytes(504);
        let plain: [u8; 504] = plain.try_into().expect("504 bytes");
        assert_eq!(call.page_of(&plain), page_by_words(&call, &plain));
    }
}

#[test]
fn opening_what_was_sealed_gives_payload_and_header() {
    for (length, least, greatest) in SIZES {
        for rounds in least..=greatest {
            let call = Call::new(length, rounds, 37 * rounds % 493);
            let after = call.with_page(call.seal().out).open();
            let used = call.payload.len() as u16;
            assert_eq!(after.answer, Ok(Header { used, ..HEADER }));
            assert_eq!(after.out, call.plain()[12..]);
            assert!(after.wiped());
        }
    }
}

#[test]
fn payloads_of_many_lengths_are_sealed_and_opened() {
    for used in [0, 1, 11, 12, 13, 255, 256, 480, 481, 491, 492] {
        let call = Call::new(12, 10, used);
        let after = call.with_page(call.seal().out).open();
        let used = used as u16;
        assert_eq!(after.answer, Ok(Header { used, ..HEADER }));
        assert_eq!(after.out, call.plain()[12..]);
    }
}

/// A byte of the payload may be zero and used.
#[test]
fn zeros_may_be_used() {
    for used in [1, 12, 492] {
        let mut call = Call::new(12, 11, 0);
        call.payload = vec![0; used];
        let sealed = call.seal().out;
        assert_eq!(sealed[6..8], (used as u16).to_be_bytes());
        let after = call.with_page(sealed).open();
        assert_eq!(
            after.answer.map(|header| usize::from(header.used)),
            Ok(used)
        );
        assert_eq!(after.out, vec![0; 492]);
    }
}

/// Lent bytes beyond those that are used stay. What the scratch has before has no bearing.
#[test]
fn longer_scratches_and_outputs_keep_their_rest() {
    let exact = Call::new(12, 10, 100);
    let page = exact.seal().out;
    for more in [1, 11, 600] {
        let longer = Call {
            scratch: 576 + more,
            out: 512 + more,
            ..exact.clone()
        };
        let after = longer.seal();
        assert_eq!(after.answer, Ok(()));
        assert!(after.wiped());
        assert_eq!(after.out, [&page[..], &vec![LENT; more]].concat());
        let longer = Call {
            out: 492 + more,
            ..longer.with_page(page.clone())
        };
        let after = longer.open();
        assert_eq!(after.answer.map(|header| header.used), Ok(100));
        assert!(after.wiped());
        let payload = &exact.plain()[12..];
        assert_eq!(after.out, [payload, &vec![LENT; more]].concat());
    }
}

/// The two lengths, and whether keys of these lengths may be used if they differ.
#[test]
fn two_keys_have_one_length_and_differ() {
    for first in 0..=50 {
        for second in 0..=50 {
            let good = first == second && [12, 18, 24].contains(&first);
            assert_eq!(keys_allowed(&vec![1; first], &vec![2; second]), good);
            assert!(!keys_allowed(&vec![1; first], &vec![1; second]));
        }
    }
}

/// One bit is enough for two keys to differ, wherever it is.
#[test]
fn keys_that_differ_in_one_bit_differ() {
    for length in [12, 18, 24] {
        let first: Vec<u8> = (1..).take(length).collect();
        for position in 0..length {
            for bit in 0..8 {
                let mut second = first.clone();
                second[position] ^= 1 << bit;
                assert!(keys_allowed(&first, &second));
                assert!(keys_allowed(&second, &first));
            }
        }
    }
}

/// Neither a payload of 493 bytes nor a page of no bytes is looked at before the key and
/// the rounds; a good number of rounds is refused for what comes next.
#[test]
fn the_keys_and_the_rounds_have_to_be_those_of_table_2() {
    for length in 0..=30 {
        for rounds in 0..=30 {
            let call = Call::new(length, rounds, 493);
            let size = SIZES.iter().find(|size| size.0 == length);
            let [sealing, opening] = match size {
                None => [1, 1],
                Some((_, least, most)) if rounds < *least || rounds > *most => [2, 2],
                Some(_) => [12, 11],
            };
            let (sealed, opened) = (call.seal(), call.open());
            assert_eq!((sealed.number(), opened.number()), (sealing, opening));
            assert!(sealed.untouched() && opened.untouched());
            let plain = [0; 504];
            let page = page_under(&call.first, &call.second, rounds, &plain);
            let number = page.map_or_else(Refusal::number, |_| 0);
            assert_eq!(number, if sealing == 12 { 0 } else { sealing });
        }
    }
}

#[test]
fn a_sealing_needs_576_and_512_lent_bytes() {
    let good = Call::new(12, 10, 17);
    for (scratch, out, number) in [
        (576, 512, 0),
        (575, 512, 4),
        (576, 511, 4),
        (575, 511, 4),
        (0, 512, 4),
        (576, 0, 4),
        (576, 492, 4),
        (512, 576, 4),
        (577, 513, 0),
    ] {
        let call = Call {
            scratch,
            out,
            ..good.clone()
        };
        let after = call.seal();
        assert_eq!(after.number(), number, "{} and {}", scratch, out);
        assert_eq!(after.untouched(), number == 4);
    }
}

#[test]
fn an_opening_needs_576_and_492_lent_bytes() {
    let good = Call::new(12, 10, 17);
    let good = good.with_page(good.seal().out);
    for (scratch, out, number) in [
        (576, 492, 0),
        (575, 492, 4),
        (576, 491, 4),
        (575, 491, 4),
        (0, 492, 4),
        (576, 0, 4),
        (576, 17, 4),
        (492, 576, 4),
        (577, 493, 0),
    ] {
        let call = Call {
            scratch,
            out,
            ..good.clone()
        };
        let after = call.open();
        assert_eq!(after.number(), number, "{} and {}", scratch, out);
        assert_eq!(after.untouched(), number == 4);
    }
}

#[test]
fn a_payload_has_at_most_492_bytes() {
    for (used, number) in [(491, 0), (492, 0), (493, 12), (504, 12), (70_000, 12)] {
        let after = Call::new(12, 10, used).seal();
        assert_eq!(after.number(), number, "{} bytes", used);
        assert_eq!(after.untouched(), number == 12);
    }
}

/// Each of these is a page with a right check but for one thing, which is seen before the
/// check is. Nothing is written.
#[test]
fn what_does_not_look_like_a_page_is_refused() {
    let call = Call::new(12, 10, 17);
    let plain = call.plain();
    let mut pages = Vec::new();
    for (high, low) in [(1, 237), (1, 255), (2, 0), (128, 0), (255, 255)] {
        let mut bad = plain;
        bad[6..8].copy_from_slice(&[high, low]);
        pages.push(call.page_of(&bad));
    }
    for position in 8..12 {
        for byte in [1, 0x80, 0xFF] {
            let mut bad = plain;
            bad[position] = byte;
            pages.push(call.page_of(&bad));
        }
    }
    let page = call.page_of(&plain);
    for length in [0, 1, 11, 12, 504, 511, 513, 524, 1024] {
        pages.push(page.iter().copied().cycle().take(length).collect());
    }
    for page in pages {
        assert_eq!(Header::from_page(&page), Err(Refusal::NoPage));
        let after = call.with_page(page).open();
        assert_eq!(after.answer, Err(Refusal::NoPage));
        assert!(after.untouched());
    }
}

/// All 65,536 used counts: those up to 492 have the form of a page.
#[test]
fn the_used_count_is_at_most_492() {
    let mut page = [0; 512];
    for used in 0..=65_535 {
        page[6..8].copy_from_slice(&u16::to_be_bytes(used));
        let count = Header::from_page(&page).map(|header| header.used);
        let said = if used <= 492 {
            Ok(used)
        } else {
            Err(Refusal::NoPage)
        };
        assert_eq!(count, said);
    }
}

/// Any byte of bytes 0 to 5 and from 12 on may be any.
#[test]
fn no_other_byte_matters_for_the_form() {
    for position in (0..6).chain(12..512) {
        let mut page = [0; 512];
        page[position] = 0xFF;
        assert!(Header::from_page(&page).is_ok(), "byte {}", position);
    }
}

/// One byte of each block is damaged, and each byte of the header and of the check. The
/// used count becomes 16, which is a good one, and bytes 8 to 11 are left alone. The
/// first 576 bytes of the scratch are zero thereafter, and nothing else is written.
#[test]
fn a_damaged_page_is_refused_with_13() {
    let call = Call::new(12, 10, 17);
    let page = call.seal().out;
    let one_a_block = (1..42).map(|block| 12 * block + block % 12);
    for position in (0..6).chain([7]).chain(one_a_block).chain(504..512) {
        let mut damaged = page.clone();
        damaged[position] ^= 1;
        let damaged = Call {
            scratch: 580,
            ..call.with_page(damaged)
        };
        let after = damaged.open();
        assert_eq!(after.answer, Err(Refusal::OtherCheck), "byte {}", position);
        assert!(after.only_wiped());
    }
}

/// Another first key changes the payload only, which the check does not see: then the
/// unused bytes give it away.
#[test]
fn a_page_under_other_keys_or_rounds_does_not_open() {
    let call = Call::new(12, 10, 17);
    let opening = call.with_page(call.seal().out);
    let others = [
        (&call.second, &call.first, 10, Refusal::OtherCheck),
        (&call.first, &call.second, 11, Refusal::OtherCheck),
        (&call.first, &vec![7; 12], 10, Refusal::OtherCheck),
        (&vec![7; 12], &call.second, 10, Refusal::NoPage),
    ];
    for (first, second, rounds, refusal) in others {
        let other = Call {
            first: first.clone(),
            second: second.clone(),
            rounds,
            ..opening.clone()
        };
        let after = other.open();
        assert_eq!(after.answer, Err(refusal));
        assert!(after.only_wiped());
    }
}

/// If all bytes are used, nothing is left to give another first key away.
#[test]
fn a_full_page_opens_under_another_first_key() {
    let call = Call::new(12, 10, 492);
    let page = call.seal().out;
    let other = Call {
        first: vec![7; 12],
        ..call.with_page(page.clone())
    };
    let after = other.open();
    assert_eq!(
        after.answer,
        Ok(Header {
            used: 492,
            ..HEADER
        })
    );
    assert_eq!(after.out, payload_by_turned_list(&[7; 12], 10, &page));
    assert_ne!(after.out, call.payload);
}

/// The check is right, but an unused byte of the payload was not zero: the used count,
/// and the position in the payload.
#[test]
fn unused_bytes_that_are_not_zero_are_refused_after_the_check() {
    let cases = [
        (0, 0),
        (0, 491),
        (12, 12),
        (17, 17),
        (17, 24),
        (480, 491),
        (491, 491),
    ];
    for (used, position) in cases {
        let call = Call::new(12, 10, used);
        let mut plain = call.plain();
        plain[12 + position] = 0x80;
        let page = call.page_of(&plain);
        let call = Call {
            scratch: 600,
            out: 500,
            ..call.with_page(page.clone())
        };
        let after = call.open();
        assert_eq!(
            after.answer,
            Err(Refusal::NoPage),
            "{} of {}",
            position,
            used
        );
        assert!(after.only_wiped());
        let mut damaged = page;
        damaged[511] ^= 0x80;
        let after = call.with_page(damaged).open();
        assert_eq!(after.answer, Err(Refusal::OtherCheck));
        assert!(after.only_wiped());
    }
}

/// A toy in the place of the cipher, and its inverse: pi and a constant.
fn toy(byte: u8) -> (impl Fn(&State) -> State, impl Fn(&State) -> State) {
    let constant: State = Matrix::from_rule(|i, j| byte.wrapping_mul(1 + i as u8 + 3 * j as u8));
    (
        move |a: &State| sigma(&constant, &pi(a)),
        move |b: &State| inverse_pi(&inverse_sigma(&constant, b)),
    )
}

/// What opening with toys says of a page that is made of these plain bytes with toys.
fn toy_opened(plain: &[u8; 504]) -> Result<(Header, Vec<u8>), Refusal> {
    let ((first, undo_first), (second, _)) = (toy(29), toy(71));
    let page = page_with(&first, &second, plain);
    opened_with(first, undo_first, second, &page)
}

/// With toys in the places of the keys, each used count with its own payload.
#[test]
fn every_used_count_is_sealed_and_opened() {
    for used in 0..=492 {
        let plain = Call::new(12, 10, used).plain();
        let (header, payload) = toy_opened(&plain).expect("nothing is wrong");
        assert_eq!(usize::from(header.used), used);
        assert_eq!(payload, plain[12..]);
    }
}

/// Each byte of the payload in turn is not zero.
#[test]
fn every_unused_byte_is_looked_at_and_no_used_one() {
    for used in [0, 1, 12, 17, 479, 480, 491, 492] {
        for position in 0..492 {
            let mut plain = [0; 504];
            plain[6..8].copy_from_slice(&u16::to_be_bytes(used));
            plain[12 + position] = 0x01;
            let opened = toy_opened(&plain).map(|(header, _)| header.used);
            let good = position < usize::from(used);
            assert_eq!(opened, if good { Ok(used) } else { Err(Refusal::NoPage) });
        }
    }
}

/// A way to make a reason hold.
type Change = fn(&mut Call);

/// Ways to make reason 1 hold.
const KEYS_WRONG: [Change; 6] = [
    |call| call.first.truncate(11),
    |call| call.second.truncate(11),
    |call| call.second = call.first.clone(),
    |call| call.second.resize(18, 1),
    |call| {
        call.first.push(0);
        call.second.push(0);
    },
    |call| {
        call.first.clear();
        call.second.clear();
    },
];

/// Ways to make reason 2 hold.
const ROUNDS_WRONG: [Change; 4] = [
    |call| call.rounds = 0,
    |call| call.rounds = 9,
    |call| call.rounds = 12,
    |call| call.rounds = 14,
];

/// Ways to make reason 4 hold.
const LENT_SHORT: [Change; 4] = [
    |call| call.scratch = 575,
    |call| call.out = if call.page.is_empty() { 511 } else { 491 },
    |call| call.scratch = 0,
    |call| call.out = 0,
];

/// A way to make reason 14 hold.
const BLOCK_ZERO: [Change; 1] = [|call| call.block = 0];

/// Ways to make reason 12 hold.
const PAYLOAD_LONG: [Change; 2] = [
    |call| call.payload.push(0),
    |call| call.payload.resize(1000, 0),
];

/// Ways to make the first reason 11 hold.
const FORM_WRONG: [Change; 4] = [
    |call| call.page[8] = 1,
    |call| call.page[11] = 0xFF,
    |call| call.page[6] = 2,
    |call| call.page.truncate(511),
];

/// Ways to make reason 13 hold. The last two change the size block in the header.
const CHECK_WRONG: [Change; 4] = [
    |call| call.page[504] ^= 1,
    |call| call.page[503] ^= 1,
    |call| call.page[0] ^= 1,
    |call| call.page[3] ^= 4,
];

/// Ways to make the second reason 11 hold.
const UNUSED_WRONG: [Change; 1] = [|call| {
    let mut plain = call.plain();
    plain[12 + 17] = 1;
    call.page = call.page_of(&plain);
}];

/// Checks that a call in which nothing is wrong is not refused, that each reason holds if
/// it is made to, and that of two reasons the first is given. The later one is made to
/// hold first, because 13 damages a page that is made anew for the last 11. Nothing is
/// written if the call is refused for a reason before 13, which is one of the first `early`.
fn check_order<T>(
    good: &Call,
    order: &[(u8, &[Change])],
    early: usize,
    make: fn(&Call) -> After<T>,
) {
    assert_eq!(make(good).number(), 0);
    for (k, (number, changes)) in order.iter().enumerate() {
        for change in *changes {
            let mut call = good.clone();
            change(&mut call);
            check_refused(&make(&call), *number, k < early);
            for later in order[k + 1..].iter().flat_map(|(_, changes)| *changes) {
                let mut call = good.clone();
                later(&mut call);
                change(&mut call);
                check_refused(&make(&call), *number, k < early);
            }
        }
    }
}

/// Checks the number of a refused call, and which lent bytes it wrote.
fn check_refused<T>(after: &After<T>, number: u8, early: bool) {
    assert_eq!(after.number(), number);
    assert!(if early {
        after.untouched()
    } else {
        after.only_wiped()
    });
}

#[test]
fn a_sealing_is_refused_with_the_first_of_two_reasons() {
    let good = Call::new(12, 10, 492);
    let order: [(u8, &[Change]); 5] = [
        (1, &KEYS_WRONG),
        (2, &ROUNDS_WRONG),
        (4, &LENT_SHORT),
        (14, &BLOCK_ZERO),
        (12, &PAYLOAD_LONG),
    ];
    check_order(&good, &order, 5, Call::seal);
}

#[test]
fn an_opening_is_refused_with_the_first_of_two_reasons() {
    let good = Call::new(12, 10, 17);
    check_opening_order(&good.with_page(good.seal().out));
}

/// An old page is opened on the same terms as a page for any other size block.
#[test]
fn an_opening_of_an_old_page_is_refused_with_the_first_of_the_same_reasons() {
    check_opening_order(&Call::new(12, 10, 17).with_old_page());
}

/// Checks the order of the reasons for opening a page with which nothing is wrong.
fn check_opening_order(good: &Call) {
    let order: [(u8, &[Change]); 6] = [
        (1, &KEYS_WRONG),
        (2, &ROUNDS_WRONG),
        (4, &LENT_SHORT),
        (11, &FORM_WRONG),
        (13, &CHECK_WRONG),
        (11, &UNUSED_WRONG),
    ];
    check_order(good, &order, 4, Call::open);
}

/// 14 comes after 4, so that the keys, the rounds and the lent bytes are good here.
#[test]
fn no_page_is_sealed_for_size_block_0() {
    for (length, least, most) in SIZES {
        for rounds in least..=most {
            for used in [0, 17, 492, 493] {
                let call = Call {
                    block: 0,
                    ..Call::new(length, rounds, used)
                };
                let after = call.seal();
                assert_eq!(after.answer, Err(Refusal::ZeroBlock));
                assert!(after.untouched());
            }
        }
    }
}

/// Each of 32 bits alone, and some numbers of which whole bytes are 0.
#[test]
fn a_page_is_sealed_and_opened_for_any_other_size_block() {
    let bits = (0..32).map(|bit| 1 << bit);
    for block in bits.chain([0x00FF_00FF, 0xFF00_FF00, 4_294_967_295]) {
        let call = Call {
            block,
            ..Call::new(12, 10, 17)
        };
        let after = call.seal();
        assert_eq!(after.answer, Ok(()), "size block {}", block);
        assert_eq!(after.out[..4], block.to_be_bytes());
        let opened = call.with_page(after.out).open();
        let header = opened.answer.expect("a page");
        assert_eq!(header.size_block, block);
    }
}

/// Under every number of rounds. The page is the one of the words, with four zero bytes
/// where the size block is.
#[test]
fn an_old_page_opens_with_its_payload_and_header() {
    for (length, least, most) in SIZES {
        for rounds in least..=most {
            let call = Call::new(length, rounds, 41 * rounds % 493).with_old_page();
            assert_eq!(call.page, page_by_words(&call, &call.plain()));
            assert_eq!(call.page[..6], [0, 0, 0, 0, 5, 6]);
            let after = call.open();
            let header = Header {
                size_block: 0,
                page_number: 0x0506,
                used: call.payload.len() as u16,
            };
            assert_eq!(after.answer, Ok(header));
            assert_eq!(after.out, call.plain()[12..]);
            assert!(after.wiped());
        }
    }
}

/// The page number, and the bytes of the payload.
#[test]
fn old_pages_of_many_lengths_open() {
    for (page_number, used) in [(0, 0), (0, 1), (65_535, 12), (256, 491), (1, 492)] {
        let call = Call::new(12, 11, used);
        let (first, second) = (&call.first, &call.second);
        let page = old_zero_page(first, second, 11, page_number, &call.payload);
        let after = call.with_page(page.expect("an old page")).open();
        let header = after.answer.expect("it opens");
        assert_eq!((header.size_block, header.page_number), (0, page_number));
        assert_eq!(usize::from(header.used), used);
        assert_eq!(after.out, call.plain()[12..]);
    }
}

/// It is no call of the store, so that 4 and 14 are no reasons of it.
#[test]
fn an_old_page_is_made_unless_the_keys_the_rounds_or_the_payload_are_wrong() {
    let cases = [
        (12, 10, 492, 0),
        (12, 10, 493, 12),
        (12, 9, 493, 2),
        (12, 12, 17, 2),
        (13, 12, 493, 1),
        (24, 23, 0, 0),
    ];
    for (length, rounds, used, refused) in cases {
        let call = Call::new(length, rounds, used);
        let (first, second) = (&call.first, &call.second);
        let made = old_zero_page(first, second, rounds, 1, &call.payload);
        let number = made.map_or_else(Refusal::number, |_| 0);
        assert_eq!(number, refused);
    }
    let key = [1; 12];
    let made = old_zero_page(&key, &key, 10, 1, &[]);
    assert_eq!(made, Err(Refusal::Keys));
}

/// What is stored of an old page is damaged, one byte of each block and each byte of the
/// header and of the check. Where the size block becomes another than 0, the check does
/// not become right.
#[test]
fn a_damaged_old_page_is_refused_with_13() {
    let call = Call::new(12, 10, 17).with_old_page();
    let one_a_block = (1..42).map(|block| 12 * block + block % 12);
    for position in (0..6).chain([7]).chain(one_a_block).chain(504..512) {
        let mut damaged = call.clone();
        damaged.page[position] ^= 1;
        let after = damaged.open();
        assert_eq!(after.answer, Err(Refusal::OtherCheck), "byte {}", position);
        assert!(after.only_wiped());
    }
}

/// The fields of the lines that the subcommand prints.
fn vector_lines() -> Vec<Vec<String>> {
    let text = pages_text().expect("all keys have allowed lengths");
    assert!(text.ends_with('\n'));
    text.lines()
        .map(|line| line.split(' ').map(String::from).collect())
        .collect()
}

/// The bytes that hexadecimal digits stand for.
fn bytes(digits: &str) -> Vec<u8> {
    (0..digits.len() / 2)
        .map(|k| u8::from_str_radix(&digits[2 * k..2 * k + 2], 16).expect("hex digits"))
        .collect()
}

/// The printed pages have the header of the line, decipher to a payload whose unused bytes
/// are zero, and are the pages of this payload by the words.
#[test]
fn the_printed_pages_are_those_of_the_words() {
    let lines = vector_lines();
    assert_eq!(lines.len(), 12);
    for line in lines {
        assert_eq!((line.len(), line[0].as_str()), (8, "page"));
        let [block, number, used]: [u32; 3] = [4, 5, 6].map(|k| line[k].parse().expect("a number"));
        let page = bytes(&line[7]);
        let digits = format!("{:08x}{:04x}{:04x}00000000", block, number, used);
        assert_eq!(line[7][..24], digits);
        let call = Call {
            first: bytes(&line[1]),
            second: bytes(&line[2]),
            rounds: line[3].parse().expect("a number of rounds"),
            ..Call::new(12, 10, 0)
        };
        let payload = payload_by_turned_list(&call.first, call.rounds, &page);
        let unused = &payload[used as usize..];
        assert!(unused.iter().all(|byte| *byte == 0));
        let plain = [&page[..12], &payload].concat();
        assert_eq!(page_by_words(&call, &plain), page);
        let header = call.with_page(page).open().answer.expect("a page");
        let said = [header.page_number, header.used].map(u32::from);
        assert_eq!((header.size_block, said), (block, [number, used]));
    }
}

/// What README.md prints of the first line.
#[test]
fn the_first_page_starts_and_ends_as_documented() {
    let line = &vector_lines()[0];
    let inputs = "page c67e816b4bfbe2fb54f6bddf 7c1ce18701bf31de56720f47 10 1734772569 43656 166";
    let start = "67668759aa8800a600000000ff97eb1d103d5938b65c664027d28f6a21389f0636b81de9";
    let check = "dd9804b6e8272993";
    assert_eq!(line[..7].join(" "), inputs);
    assert!(line[7].starts_with(start) && line[7].ends_with(check));
    let readme = include_str!("../README.md");
    assert!(readme.contains(&format!("    {}\n    {}\n\n", inputs, start)));
    assert!(readme.contains(&format!("ends with the check {}.", check)));
}
