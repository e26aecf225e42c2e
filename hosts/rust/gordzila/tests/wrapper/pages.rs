//! Sealed pages: what a page has, what it opens to, when a call refuses, and what it leaves
//! in the scratch and in the output.

use crate::{block, bytes_of};
use gordzila::{encipher, open_page, raw, seal_page, OpenedPage, PageKeys, Reason};

const FIRST: [u8; 24] = [3; 24];
const SECOND: [u8; 24] = [7; 24];

/// The key lengths, each with its round counts.
const SIZES: [(usize, u32, u32); 3] = [(12, 10, 11), (18, 14, 17), (24, 18, 23)];

/// Two keys of a length.
fn keys(length: usize) -> PageKeys<'static> {
    PageKeys {
        first: &FIRST[..length],
        second: &SECOND[..length],
    }
}

/// The 12 plain bytes of a page.
pub fn header(block: u32, number: u16, used: u16) -> [u8; 12] {
    let parts = [
        &block.to_be_bytes()[..],
        &number.to_be_bytes(),
        &used.to_be_bytes(),
        &[0; 4],
    ];
    parts.concat().try_into().unwrap()
}

/// One step of the chaining: a block is added to what the one before became, and the sum
/// enciphered.
fn chained(key: &[u8], rounds: u32, previous: [u8; 12], block: &[u8]) -> [u8; 12] {
    let mut sum = previous;
    sum.iter_mut().zip(block).for_each(|(to, by)| *to ^= by);
    encipher(key, rounds, &sum).unwrap()
}

/// The check of what is stored.
fn check(key: &[u8], rounds: u32, stored: &[u8]) -> [u8; 8] {
    let blocks = stored[..504].chunks(12);
    let last = blocks.fold([0; 12], |previous, block| {
        chained(key, rounds, previous, block)
    });
    last[..8].try_into().unwrap()
}

/// The page with any 12 plain bytes and any payload, zeros after it, by the header's words
/// over the cipher.
pub fn page_of(keys: PageKeys<'_>, rounds: u32, header: [u8; 12], payload: &[u8]) -> [u8; 512] {
    let (mut page, mut plain) = ([0; 512], [0; 492]);
    page[..12].copy_from_slice(&header);
    plain[..payload.len()].copy_from_slice(payload);
    let mut previous = encipher(keys.first, rounds, &header).unwrap();
    for (to, block) in page[12..504].chunks_mut(12).zip(plain.chunks(12)) {
        previous = chained(keys.first, rounds, previous, block);
        to.copy_from_slice(&previous);
    }
    let check = check(keys.second, rounds, &page);
    page[504..].copy_from_slice(&check);
    page
}

/// Bytes that are not zero.
fn bytes(length: usize) -> Vec<u8> {
    (0..length).map(|at| (at % 255) as u8 + 1).collect()
}

/// The first page that the independent program prints (reference/README.md, `pages`), of size
/// block 1734772569 with page number 43656 and 166 used bytes.
const PRINTED: &str = "\
    67668759aa8800a600000000ff97eb1d103d5938b65c664027d28f6a21389f0636b81de9da771eab\
    6c497949a2d668134cd377c53403110367c723f5bec95b66f3c9e35e5643e3b07b4cb9fb48b2c9b8\
    8eaa09c0b0205ff8df2555f95008597a7a42d666019577b272c9107a908435d65605b18008e7de7b\
    d94e152df643158e88663a257c67f20092fc20e4dbd6a5bad4e5beeb1965c6dadc29aabbd306b034\
    9519abc8b74e1838fdb16a77e5ed2a7e08e4ec9ddbc7e5d4c6da72a5cb2d1f496690d4ff2b6a52ca\
    1a4924bde49e9b796f85659689ae1b4b3f9822ac23c5631148fae84d83983e526cdfebcc38a8b204\
    ea1453b9404b360367e57ff453227a92b321f2560ce19d5660aebdc3a9740ea0a72f2e183761b7fd\
    4b811f362ddc5c295e7815d5b637a3931b3dec6964ad87137a059a26bfc917ab850075059d25a191\
    2b1d4dc39fa8b0b9219d528086714f97c92a0f3068a203dc790b724dd465755069eb9ff76dcb3089\
    8a424980948c3ebf6d6c0e868febd416614a86268d61ae351a156fa2d18d4be715dd9a804e597368\
    21efa7a27474da71829c3046c9dfd0b12128edfc54e32b55681f27f37cd4482483b4702141f23a48\
    fcd142eb1a3f9e8f159685139df7141f50d044d97ceea5fa7c3ae1e42134ae2035635180c8645dd5\
    63575f5bfa7dedba2452222c48a6067f61860e17062a54afdd9804b6e8272993";

#[test]
fn a_page_of_the_independent_program_opens_and_is_sealed_again() {
    let first = &bytes_of("c67e816b4bfbe2fb54f6bddf");
    let second = &bytes_of("7c1ce18701bf31de56720f47");
    let (keys, page) = (PageKeys { first, second }, bytes_of(PRINTED));
    let opened = open_page(keys, 10, &page).unwrap();
    let (size_block, number) = (opened.size_block, opened.page_number);
    assert_eq!((size_block, number), (1_734_772_569, 43_656));
    assert_eq!(opened.payload.len(), 166);
    let again = seal_page(keys, 10, block(size_block), number, &opened.payload).unwrap();
    assert_eq!(again[..], page);
}

#[test]
fn a_page_is_what_the_rule_says_and_opens_to_what_was_sealed() {
    for (length, least, most) in SIZES {
        for rounds in least..=most {
            for used in [0, 1, 11, 12, 13, 300, 480, 481, 491, 492] {
                let (keys, payload) = (keys(length), bytes(used));
                let (size_block, page_number) = (0xfedc_ba98, 0x7654);
                let page = seal_page(keys, rounds, block(size_block), page_number, &payload);
                let page = page.unwrap();
                let header = header(size_block, page_number, used as u16);
                assert_eq!(page, page_of(keys, rounds, header, &payload));
                let opened = OpenedPage {
                    size_block,
                    page_number,
                    payload,
                };
                assert_eq!(open_page(keys, rounds, &page), Ok(opened));
            }
        }
    }
}

/// With bytes 8 to 11 the page is none, and with a count over 492; otherwise the check tells.
#[test]
fn a_page_with_a_byte_changed_never_opens() {
    for (length, rounds, _) in SIZES {
        let page = seal_page(keys(length), rounds, block(300), 4, &bytes(300)).unwrap();
        for at in 0..page.len() {
            for change in [1 << (at % 8), 255] {
                let mut changed = page;
                changed[at] ^= change;
                let used = u16::from_be_bytes([changed[6], changed[7]]);
                let expected = match (8..12).contains(&at) || used > 492 {
                    true => Reason::NotAPage,
                    false => Reason::CheckDiffers,
                };
                let refused = open_page(keys(length), rounds, &changed);
                assert_eq!(refused, Err(expected), "{at}");
            }
        }
    }
}

#[test]
fn a_count_that_was_changed_is_refused() {
    let mut page = seal_page(keys(12), 10, block(300), 4, &bytes(300)).unwrap();
    for used in (0..=1000_u16).chain([32_768, 65_535]) {
        page[6..8].copy_from_slice(&used.to_be_bytes());
        let expected = match used {
            300 => None,
            0..=492 => Some(Reason::CheckDiffers),
            _ => Some(Reason::NotAPage),
        };
        assert_eq!(open_page(keys(12), 10, &page).err(), expected, "{used}");
    }
}

/// Which page is wanted, only who opens it knows.
#[test]
fn a_page_is_not_bound_to_its_place_or_time() {
    let older = seal_page(keys(18), 14, block(300), 4, b"older").unwrap();
    let newer = seal_page(keys(18), 14, block(300), 4, b"newer").unwrap();
    let other = seal_page(keys(18), 14, block(301), 4, b"other").unwrap();
    for (page, block, payload) in [(older, 300, b"older"), (newer, 300, b"newer")] {
        let opened = open_page(keys(18), 14, &page).unwrap();
        assert_eq!((opened.size_block, opened.page_number), (block, 4));
        assert_eq!(opened.payload, payload);
    }
    assert_eq!(open_page(keys(18), 14, &other).unwrap().size_block, 301);
    let again = seal_page(keys(18), 14, block(300), 4, b"older");
    assert_eq!(again, Ok(older));
}

#[test]
fn other_keys_and_rounds_do_not_open_a_page() {
    let under = |first, second| PageKeys { first, second };
    let (a, b, c) = (&[1; 12], &[2; 12], &[3; 12]);
    for used in [0, 300, 480] {
        let page = seal_page(under(a, b), 10, block(300), 4, &bytes(used)).unwrap();
        for (keys, rounds, expected) in [
            (under(b, a), 10, Reason::CheckDiffers),
            (under(a, c), 10, Reason::CheckDiffers),
            (under(a, b), 11, Reason::CheckDiffers),
            // The check is that of the second key; what the first gives is not zero.
            (under(c, b), 10, Reason::NotAPage),
        ] {
            assert_eq!(open_page(keys, rounds, &page), Err(expected), "{used}");
        }
    }
    // Where no byte is unused, nothing tells that the first key is another.
    let page = seal_page(under(a, b), 10, block(300), 4, &bytes(492)).unwrap();
    let opened = open_page(under(c, b), 10, &page).unwrap();
    assert_eq!((opened.size_block, opened.page_number), (300, 4));
    assert_ne!(opened.payload, bytes(492));
}

/// Whether two keys are taken, which both calls have to agree on.
fn taken(first: &[u8], second: &[u8], rounds: u32) -> Result<(), Reason> {
    let keys = PageKeys { first, second };
    let page = seal_page(keys, rounds, block(300), 4, b"front panel");
    let opened = open_page(keys, rounds, &page.unwrap_or([0; 512]));
    assert_eq!(page.err(), opened.err());
    page.map(|_| ())
}

#[test]
fn the_two_keys_differ_and_have_one_length() {
    let refused = Err(Reason::KeyLength);
    for (length, rounds, _) in SIZES {
        let first = bytes(length);
        assert_eq!(taken(&first, &first, rounds), refused);
        assert_eq!(taken(&first, &first[1..], rounds), refused);
        assert_eq!(taken(&first[1..], &first, rounds), refused);
        for other in [0, 11, 12, 13, 17, 18, 19, 23, 24, 25] {
            let expected = if other == length { Ok(()) } else { refused };
            assert_eq!(taken(&first, &vec![9; other], rounds), expected);
            assert_eq!(taken(&vec![9; other], &first, rounds), expected);
        }
        // One bit is enough.
        for at in 0..length {
            let mut second = first.clone();
            second[at] ^= 1 << (at % 8);
            assert_eq!(taken(&first, &second, rounds), Ok(()), "{at}");
        }
    }
}

/// What a call came to: its number, whether the scratch was cleared, and whether the output
/// was written to.
#[derive(Debug, PartialEq)]
struct Left {
    number: u64,
    cleared: bool,
    written: bool,
}

/// What a call comes to with a scratch and an output of these lengths. It clears 576 bytes
/// or none, and writes as many as are said or none: two fills show every byte that it writes.
fn left(
    scratch: usize,
    out: usize,
    most: usize,
    call: impl Fn(&mut [u8], &mut [u8]) -> u64,
) -> Left {
    let filled = |fill| {
        let (mut scratch, mut out) = (vec![fill; scratch], vec![fill; out]);
        let number = call(&mut scratch, &mut out);
        (number, is_cleared(&scratch, fill), out)
    };
    let ((number, cleared, one), (again, twice, other)) = (filled(0x55), filled(0xaa));
    assert_eq!((number, cleared), (again, twice));
    let all = |bytes: &[u8], fill| bytes.iter().all(|&byte| byte == fill);
    let written = !all(&one, 0x55);
    let from = if written { most } else { 0 };
    assert_eq!(one[..from], other[..from]);
    assert!(all(&one[from..], 0x55) && all(&other[from..], 0xaa));
    Left {
        number,
        cleared,
        written,
    }
}

/// Whether the first 576 bytes are zero and the others as they were; otherwise all have to
/// be as they were.
fn is_cleared(scratch: &[u8], fill: u8) -> bool {
    let cleared = scratch.first() == Some(&0);
    let (start, rest) = scratch.split_at(if cleared { 576 } else { 0 });
    assert!(start.iter().all(|&byte| byte == 0));
    assert!(rest.iter().all(|&byte| byte == fill));
    cleared
}

/// The first fault of a set, by the number that each has.
fn first_of(faults: u32, numbers: &[u64]) -> Option<usize> {
    (0..numbers.len()).find(|at| faults >> at & 1 == 1)
}

/// What can be wrong with a sealing, in the header's order: a key, its length against the
/// other's, equal keys, round count, scratch, output, size block, payload.
const SEALING: [u64; 8] = [1, 1, 1, 2, 4, 4, 14, 12];

#[test]
fn sealing_refuses_with_1_2_4_14_12() {
    for faults in 0..1 << SEALING.len() {
        let or = |at: u32, right: usize, wrong: usize| match faults >> at & 1 {
            1 => wrong,
            _ => right,
        };
        let (first, second) = (bytes(or(0, 18, 17)), [bytes(24), vec![0; 24]]);
        let length = first.len() - or(1, 0, 1);
        let second = &second[or(2, 1, 0)][..length];
        let (first, rounds) = (&first[..], or(3, 14, 18) as u32);
        let (keys, block) = (PageKeys { first, second }, or(6, 300, 0) as u32);
        let payload = bytes(or(7, 492, 493));
        let given = left(or(4, 576, 575), or(5, 512, 511), 512, |scratch, out| {
            raw::seal_page_number(keys, rounds, block, 4, &payload, scratch, out).into()
        });
        let refused = first_of(faults, &SEALING);
        let expected = Left {
            number: refused.map_or(0, |at| SEALING[at]),
            cleared: refused.is_none(),
            written: refused.is_none(),
        };
        assert_eq!(given, expected, "{faults:08b}");
    }
}

/// What can be wrong with an opening, in the header's order: key, round count, scratch,
/// output, the page's length, its count, its zeros, its check, its unused bytes.
const OPENING: [u64; 9] = [1, 2, 4, 4, 11, 11, 11, 13, 11];

/// The faults from the check on are found once the scratch is used.
const CHECK: usize = 7;

/// A page of a size block with some of these faults.
fn faulty(keys: PageKeys<'_>, block: u32, faults: u32) -> Vec<u8> {
    let has = |at: u32| faults >> at & 1 == 1;
    let mut header = header(block, 4, if has(5) { 493 } else { 200 });
    header[10] = has(6).into();
    let mut payload = bytes(200);
    if has(8) {
        payload.resize(491, 0);
        payload.push(1);
    }
    let mut page = page_of(keys, 14, header, &payload).to_vec();
    page[511] ^= u8::from(has(7));
    page.truncate(if has(4) { 511 } else { 512 });
    page
}

/// Pages for size block 0, which were sealed before version 0.7, are refused for the same
/// faults and for no other.
#[test]
fn opening_refuses_with_1_2_4_11_13_11() {
    for (faults, block) in (0..1 << OPENING.len()).flat_map(|set| [(set, 300), (set, 0)]) {
        let or = |at: u32, right: usize, wrong: usize| match faults >> at & 1 {
            1 => wrong,
            _ => right,
        };
        let page = faulty(keys(18), block, faults);
        let (keys, rounds) = (keys(or(0, 18, 17)), or(1, 14, 18) as u32);
        let given = left(or(2, 576, 575), or(3, 492, 491), 492, |scratch, out| {
            raw::open_page_number(keys, rounds, &page, scratch, out)
        });
        let refused = first_of(faults, &OPENING);
        let expected = Left {
            // 2^63, 200 used bytes, page 4, and the size block.
            number: refused.map_or(0x80c8_0004_0000_0000 + u64::from(block), |at| OPENING[at]),
            cleared: refused.map_or(true, |at| at >= CHECK),
            written: refused.is_none(),
        };
        assert_eq!(given, expected, "{faults:09b}, {block}");
    }
}

#[test]
fn what_is_longer_than_it_has_to_be_keeps_the_rest() {
    let page = seal_page(keys(24), 23, block(300), 4, &bytes(492)).unwrap();
    let done = |number| Left {
        number,
        cleared: true,
        written: true,
    };
    for more in [0, 1, 64, 600] {
        let sealed = left(576 + more, 512 + more, 512, |scratch, out| {
            raw::seal_page_number(keys(24), 23, 300, 4, &bytes(492), scratch, out).into()
        });
        assert_eq!(sealed, done(0));
        let opened = left(576 + more, 492 + more, 492, |scratch, out| {
            raw::open_page_number(keys(24), 23, &page, scratch, out)
        });
        assert_eq!(opened, done(0x81ec_0004_0000_012c));
    }
}

#[test]
fn the_lengths_have_these_limits() {
    let sealed = |payload| raw_seal(576, 512, payload);
    for right in [0, 1, 11, 12, 13, 491, 492] {
        assert_eq!(sealed(right), 0, "{right}");
    }
    for wrong in [493, 494, 504, 512, 984, 1004, 65_536, 66_028] {
        assert_eq!(sealed(wrong), 12, "{wrong}");
    }
    for (scratch, out) in [(0, 512), (575, 512), (288, 512), (576, 0), (576, 511)] {
        assert_eq!(raw_seal(scratch, out, 492), 4, "{scratch}, {out}");
    }
    assert_eq!((raw_seal(577, 512, 0), raw_seal(576, 513, 0)), (0, 0));
    let page = seal_page(keys(12), 11, block(300), 4, b"").unwrap();
    let page = [page, [0; 512]].concat();
    let opened = |length: usize| open_page(keys(12), 11, &page[..length]);
    for wrong in [0, 1, 12, 492, 504, 511, 513, 768, 1024] {
        assert_eq!(opened(wrong), Err(Reason::NotAPage), "{wrong}");
    }
    assert_eq!(opened(512).map(|opened| opened.payload), Ok(vec![]));
}

/// The number that a sealing answers with these lengths.
fn raw_seal(scratch: usize, out: usize, payload: usize) -> u32 {
    let (mut scratch, mut out) = (vec![1; scratch], vec![1; out]);
    let payload = vec![1; payload];
    raw::seal_page_number(keys(12), 11, 300, 4, &payload, &mut scratch, &mut out)
}
