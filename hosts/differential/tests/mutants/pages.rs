//! Libraries that do something wrong with a page are found out. They are made of the archive's single
//! blocks.

use gordzila::raw;
use gordzila_differential::expect::SEEN_IN_A_PAGE;
use gordzila_differential::order::{number, LATE_11};
use gordzila_differential::pages::{
    answer, CHECKED_BYTES, HEADER_BYTES, PAGE_BYTES, PAYLOAD_BYTES, SCRATCH_BYTES,
};

use super::*;

type Block = [u8; 12];

/// How a page is chained and checked: as it has to be, or otherwise in one thing.
#[derive(Clone, Copy, Debug, PartialEq, Eq)]
enum Rule {
    Right,
    /// What the first block of the payload is added to.
    StartIsZero,
    StartIsThePlainHeader,
    StartIsUnderTheSecondKey,
    /// What another block of the payload is added to.
    NotChained,
    AddedToThePlainBlock,
    AddedAfterEnciphering,
    /// What the check is made of, and how.
    CheckUnderTheFirstKey,
    CheckOfPlainBytes,
    CheckWithoutTheHeader,
    CheckWithoutTheLastBlock,
    CheckOfUsedBlocks,
    CheckFromTheStart,
    CheckNotChained,
    CheckIsTheBlocksEnd,
    KeysExchanged,
}

const OTHER_RULES: [Rule; 15] = [
    Rule::StartIsZero,
    Rule::StartIsThePlainHeader,
    Rule::StartIsUnderTheSecondKey,
    Rule::NotChained,
    Rule::AddedToThePlainBlock,
    Rule::AddedAfterEnciphering,
    Rule::CheckUnderTheFirstKey,
    Rule::CheckOfPlainBytes,
    Rule::CheckWithoutTheHeader,
    Rule::CheckWithoutTheLastBlock,
    Rule::CheckOfUsedBlocks,
    Rule::CheckFromTheStart,
    Rule::CheckNotChained,
    Rule::CheckIsTheBlocksEnd,
    Rule::KeysExchanged,
];

fn sum(block: &[u8], other: &[u8]) -> Block {
    let mut sum = [0; 12];
    (0..12).for_each(|i| sum[i] = block[i] ^ other[i]);
    sum
}

/// A block under a list.
fn run(list: &[u8], block: &[u8]) -> Block {
    let mut out = [0; 12];
    assert_eq!(raw::run_number(list, block, &mut out), 0);
    out
}

/// The lists for the two keys, and the one with which the first is undone.
struct Lists {
    rule: Rule,
    first: Vec<u8>,
    back: Vec<u8>,
    second: Vec<u8>,
}

impl Lists {
    /// The lists of what is lent, if both keys have them.
    fn new(rule: Rule, lent: &Lent) -> Option<Self> {
        let (mut first, mut second) = (copied(lent.key), copied(lent.second_key));
        if rule == Rule::KeysExchanged {
            std::mem::swap(&mut first, &mut second);
        }
        let rounds = lent.rounds;
        let list = |prepare: fn(&[u8], u32, &mut [u8]) -> u32, key: &[u8]| {
            let mut list = vec![0; 288];
            let done = prepare(key, rounds, &mut list) == 0;
            list.truncate(12 * (rounds as usize % 24 + 1));
            done.then_some(list)
        };
        Some(Lists {
            rule,
            first: list(raw::prepare_enciphering_number, &first)?,
            back: list(raw::prepare_deciphering_number, &first)?,
            second: list(raw::prepare_enciphering_number, &second)?,
        })
    }

    /// What the first block of a payload is added to.
    fn start(&self, header: &[u8]) -> Block {
        match self.rule {
            Rule::StartIsZero => [0; 12],
            Rule::StartIsThePlainHeader => sum(header, &[0; 12]),
            Rule::StartIsUnderTheSecondKey => run(&self.second, header),
            _ => run(&self.first, header),
        }
    }

    /// The page of 504 plain bytes.
    fn page(&self, plain: &[u8]) -> Vec<u8> {
        let (header, payload) = plain.split_at(HEADER_BYTES);
        let mut page = header.to_vec();
        let mut previous = self.start(header);
        for block in payload.chunks(12) {
            let own = match self.rule {
                Rule::NotChained => run(&self.first, block),
                Rule::AddedAfterEnciphering => sum(&run(&self.first, block), &previous),
                _ => run(&self.first, &sum(block, &previous)),
            };
            previous = match self.rule {
                Rule::AddedToThePlainBlock => sum(block, &[0; 12]),
                _ => own,
            };
            page.extend(own);
        }
        let check = self.check(&page, plain);
        page.extend(check);
        page
    }

    /// The payload of a page.
    fn payload(&self, page: &[u8]) -> Vec<u8> {
        let mut payload = Vec::new();
        let mut previous = self.start(&page[..HEADER_BYTES]);
        for own in page[HEADER_BYTES..CHECKED_BYTES].chunks(12) {
            let block = match self.rule {
                Rule::NotChained => run(&self.back, own),
                Rule::AddedAfterEnciphering => run(&self.back, &sum(own, &previous)),
                _ => sum(&run(&self.back, own), &previous),
            };
            previous = match self.rule {
                Rule::AddedToThePlainBlock => block,
                _ => sum(own, &[0; 12]),
            };
            payload.extend(block);
        }
        payload
    }

    /// The check of a page, as it is stored and as it is plain.
    fn check(&self, page: &[u8], plain: &[u8]) -> Vec<u8> {
        let used = usize::from(page[6]) << 8 | usize::from(page[7]);
        let bytes = match self.rule {
            Rule::CheckOfPlainBytes => plain,
            Rule::CheckWithoutTheHeader => &page[HEADER_BYTES..CHECKED_BYTES],
            Rule::CheckWithoutTheLastBlock => &page[..CHECKED_BYTES - 12],
            Rule::CheckOfUsedBlocks => &page[..HEADER_BYTES + (used + 11) / 12 * 12],
            _ => &page[..CHECKED_BYTES],
        };
        let list = match self.rule {
            Rule::CheckUnderTheFirstKey => &self.first,
            _ => &self.second,
        };
        let first = match self.rule {
            Rule::CheckFromTheStart => self.start(&page[..HEADER_BYTES]),
            _ => [0; 12],
        };
        let last = bytes.chunks(12).fold(first, |last, block| match self.rule {
            Rule::CheckNotChained => sum(&last, &run(list, block)),
            _ => run(list, &sum(&last, block)),
        });
        match self.rule {
            Rule::CheckIsTheBlocksEnd => last[4..].to_vec(),
            _ => last[..8].to_vec(),
        }
    }
}

/// A library for pages: what it does, in its parts.
#[derive(Clone, Copy)]
struct Pages<'a> {
    call: Call,
    rule: Rule,
    /// The reasons, in the order in which it tries them.
    order: &'a [u32],
    /// Whether a reason holds, where it has an opinion of its own.
    holds: &'a (dyn Fn(u32, &Lent) -> Option<bool> + Sync),
    /// The bytes of the scratch that it clears where it refuses for a reason, or does not.
    cleared: &'a (dyn Fn(Option<u32>, &Lent) -> usize + Sync),
    /// Changes the plain bytes before they are sealed.
    change: &'a (dyn Fn(&Lent, &mut [u8]) + Sync),
}

/// A library that does what it has to.
fn right(call: Call) -> Pages<'static> {
    Pages {
        call,
        rule: Rule::Right,
        order: call.reasons(),
        holds: &|_, _| None,
        cleared: &rightly_cleared,
        change: &|_, _| {},
    }
}

/// The bytes of the scratch that have to be cleared.
fn rightly_cleared(reason: Option<u32>, _: &Lent) -> usize {
    match reason {
        Some(reason) if !SEEN_IN_A_PAGE.contains(&reason) => 0,
        _ => SCRATCH_BYTES,
    }
}

impl Pages<'_> {
    /// Makes the call.
    fn call(&self, lent: &Lent) -> u64 {
        self.give(self.first(lent), lent)
    }

    /// The first reason that holds.
    fn first(&self, lent: &Lent) -> Option<u32> {
        self.order.iter().copied().find(|&one| {
            let own = (self.holds)(one, lent);
            own.unwrap_or_else(|| holds(self.call, self.rule, one, lent))
        })
    }

    /// Refuses for a reason, or does what is asked for.
    fn give(&self, given: Option<u32>, lent: &Lent) -> u64 {
        let cleared = (self.cleared)(given, lent).min(lent.scratch.length);
        fill(lent.scratch, &vec![0; cleared]);
        match (given, self.call) {
            (Some(reason), _) => u64::from(number(reason)),
            (None, Call::SealPage) => self.seal(lent),
            (None, _) => self.open(lent),
        }
    }

    fn seal(&self, lent: &Lent) -> u64 {
        let mut payload = copied(lent.block);
        let mut plain = lent.size_block.to_be_bytes().to_vec();
        plain.extend(lent.page_number.to_be_bytes());
        plain.extend((payload.len() as u16).to_be_bytes());
        plain.extend([0; 4]);
        payload.resize(PAYLOAD_BYTES, 0);
        plain.extend(payload);
        (self.change)(lent, &mut plain);
        if let Some(lists) = Lists::new(self.rule, lent) {
            fill(lent.out, &lists.page(&plain));
        }
        0
    }

    fn open(&self, lent: &Lent) -> u64 {
        let mut page = copied(lent.block);
        page.resize(PAGE_BYTES, 0);
        if let Some(lists) = Lists::new(self.rule, lent) {
            fill(lent.out, &lists.payload(&page));
        }
        answer(&page)
    }
}

/// Writes bytes to the start of what is lent, as far as it goes.
fn fill(bytes: Bytes, other: &[u8]) {
    let length = other.len().min(bytes.length);
    unsafe { bytes.start.copy_from(other.as_ptr(), length) };
}

/// The used count in the page that is lent.
fn used(lent: &Lent) -> usize {
    let page = copied(lent.block);
    usize::from(page[6]) << 8 | usize::from(page[7])
}

/// Whether a reason holds of what is lent, if pages are chained by a rule.
fn holds(call: Call, rule: Rule, reason: u32, lent: &Lent) -> bool {
    let lengths = [lent.key.length, lent.second_key.length];
    match reason {
        1 => {
            let right = [12, 18, 24].contains(&lengths[0]) && lengths[0] == lengths[1];
            !right || copied(lent.key) == copied(lent.second_key)
        }
        2 => match lengths {
            [12, 12] => !(10..=11).contains(&lent.rounds),
            [18, 18] => !(14..=17).contains(&lent.rounds),
            [24, 24] => !(18..=23).contains(&lent.rounds),
            _ => false,
        },
        4 => lent.scratch.length < SCRATCH_BYTES || lent.out.length < written(call, lent),
        11 => {
            let form = |page: &[u8]| page[8..12] == [0; 4] && used(lent) <= PAYLOAD_BYTES;
            lent.block.length != PAGE_BYTES || !form(&copied(lent.block))
        }
        12 => lent.block.length > PAYLOAD_BYTES,
        14 => lent.size_block == 0,
        13 => seen(rule, lent, |lists, page| !is_checked(lists, page)),
        _ => seen(rule, lent, |lists, page| {
            let unused = used(lent).min(PAYLOAD_BYTES);
            lists.payload(page)[unused..].iter().any(|&byte| byte != 0)
        }),
    }
}

/// Whether something is seen in a page with its keys.
fn seen(rule: Rule, lent: &Lent, look: impl Fn(&Lists, &[u8]) -> bool) -> bool {
    let page = copied(lent.block);
    let lists = Lists::new(rule, lent).filter(|_| page.len() == PAGE_BYTES);
    lists.map_or(false, |lists| look(&lists, &page))
}

fn is_checked(lists: &Lists, page: &[u8]) -> bool {
    right_check(lists, page) == page[CHECKED_BYTES..]
}

fn right_check(lists: &Lists, page: &[u8]) -> Vec<u8> {
    let plain = match lists.rule {
        Rule::CheckOfPlainBytes => [&page[..HEADER_BYTES], &lists.payload(page)].concat(),
        _ => Vec::new(),
    };
    lists.check(page, &plain)
}

/// Tries a library in place of a call on pages: in some case it is found out.
#[track_caller]
fn other_page_is_found(call: Call, library: impl Fn(&Lent) -> u64 + Sync) {
    let is_found = is_found(call, &|_, lent: &Lent| library(lent));
    assert!(is_found, "{}", call.name());
}

/// The same for one that is made of parts.
#[track_caller]
fn others_are_found(library: Pages<'_>) {
    other_page_is_found(library.call, |lent| library.call(lent));
}

#[test]
fn blocks_make_a_page() {
    for call in Call::ON_PAGES {
        let library = |_, lent: &Lent| right(call).call(lent);
        assert!(!is_found(call, &library), "{}", call.name());
    }
}

#[test]
fn every_other_rule_on_chaining_is_found() {
    for call in Call::ON_PAGES {
        for rule in OTHER_RULES {
            others_are_found(Pages {
                rule,
                ..right(call)
            });
        }
    }
}

/// Tries a library that seals other plain bytes.
#[track_caller]
fn other_plain_bytes_are_found(change: impl Fn(&Lent, &mut [u8]) + Sync) {
    others_are_found(Pages {
        change: &change,
        ..right(Call::SealPage)
    });
}

#[test]
fn another_header_that_is_sealed_is_found() {
    // Each number little end first, and numbers that changed places.
    for number in [0..4, 4..6, 6..8] {
        other_plain_bytes_are_found(|_, plain| plain[number.clone()].reverse());
    }
    other_plain_bytes_are_found(|_, plain| plain[4..8].rotate_left(2));
    other_plain_bytes_are_found(|_, plain| plain[..6].rotate_left(4));
    // A used count of all bytes, of one more or less, and in a byte.
    let counts: [fn(usize) -> usize; 4] = [
        |_| 492,
        |used| used + 1,
        |used| used.max(1) - 1,
        |used| used % 256,
    ];
    for count in counts {
        other_plain_bytes_are_found(|lent, plain| {
            let count = count(lent.block.length) as u16;
            plain[6..8].copy_from_slice(&count.to_be_bytes());
        });
    }
    // Bytes that have to be 0.
    for place in 8..12 {
        other_plain_bytes_are_found(|_, plain| plain[place] = 1);
    }
}

#[test]
fn unused_bytes_that_are_sealed_are_found() {
    let unused = |lent: &Lent| HEADER_BYTES + lent.block.length..CHECKED_BYTES;
    other_plain_bytes_are_found(|lent, plain| plain[unused(lent)].fill(0xff));
    // The first, the last, what stood in the output, and the payload again.
    for last in [false, true] {
        other_plain_bytes_are_found(|lent, plain| {
            let mut unused = unused(lent);
            let place = if last { unused.last() } else { unused.next() };
            place.into_iter().for_each(|place| plain[place] = 1);
        });
    }
    other_plain_bytes_are_found(|lent, plain| {
        let before = copied(lent.out);
        plain[unused(lent)].copy_from_slice(&before[unused(lent)]);
    });
    other_plain_bytes_are_found(|lent, plain| {
        for place in unused(lent).filter(|_| lent.block.length > 0) {
            plain[place] = plain[place - lent.block.length];
        }
    });
}

#[test]
fn each_other_order_of_two_reasons_is_found() {
    for call in Call::ON_PAGES {
        for (first, other) in call.pairs() {
            other_page_is_found(call, |lent| {
                let right = right(call);
                let given = right.first(lent);
                let both = given == Some(first) && holds(call, Rule::Right, other, lent);
                right.give(if both { Some(other) } else { given }, lent)
            });
        }
    }
}

#[test]
fn a_reason_that_is_not_tried_is_found() {
    for call in Call::ON_PAGES {
        for &reason in call.reasons() {
            let mut order = call.reasons().to_vec();
            order.retain(|&one| one != reason);
            others_are_found(Pages {
                order: &order,
                ..right(call)
            });
        }
    }
}

/// Tries libraries for which a reason holds in other cases, for each call that has it.
#[track_caller]
fn another_reason_is_found(reason: u32, holds: impl Fn(Call, &Lent) -> Option<bool> + Sync) {
    let has = |call: &Call| call.reasons().contains(&reason);
    for call in Call::ON_PAGES.into_iter().filter(has) {
        others_are_found(Pages {
            holds: &|one, lent| holds(call, lent).filter(|_| one == reason),
            ..right(call)
        });
    }
}

/// The two keys that are lent, if each has the length of one.
fn keys(lent: &Lent) -> Option<[Vec<u8>; 2]> {
    let keys = [lent.key, lent.second_key].map(copied);
    let right = keys.iter().all(|key| [12, 18, 24].contains(&key.len()));
    right.then_some(keys)
}

#[test]
fn keys_that_are_compared_otherwise_are_found() {
    // Equal keys, and keys of unequal lengths, are taken.
    another_reason_is_found(1, |_, lent| {
        keys(lent).map(|[one, other]| one.len() != other.len())
    });
    another_reason_is_found(1, |_, lent| keys(lent).map(|[one, other]| one == other));
    // One of the two lengths is looked at.
    let wrong = |key: Bytes| ![12, 18, 24].contains(&key.length);
    another_reason_is_found(1, |_, lent| {
        (lent.key.length > 0).then(|| wrong(lent.second_key))
    });
    another_reason_is_found(1, |_, lent| Some(wrong(lent.key)));
    another_reason_is_found(1, |_, lent| (!wrong(lent.second_key)).then_some(false));
    // Any one length will do.
    another_reason_is_found(1, |_, lent| {
        let unequal = lent.key.length != lent.second_key.length;
        Some(unequal || copied(lent.key) == copied(lent.second_key))
    });
    // Part of the bytes is compared: all but the last or the first, the last, the first half.
    for part in [|n: usize| 0..n - 1, |n| 1..n, |n| n - 1..n, |n| 0..n / 2] {
        another_reason_is_found(1, |_, lent| {
            let [one, other] = keys(lent).filter(|[one, other]| one.len() == other.len())?;
            let part = part(one.len());
            Some(one[part.clone()] == other[part])
        });
    }
}

#[test]
fn other_limits_of_what_is_lent_are_found() {
    let lists = |lent: &Lent| 24 * (lent.rounds as usize % 24 + 1);
    let scratches: [&(dyn Fn(&Lent) -> usize + Sync); 6] =
        [&|_| 575, &|_| 577, &|_| 0, &|_| 288, &|_| 600, &lists];
    for least in scratches {
        another_reason_is_found(4, |call, lent| {
            Some(lent.scratch.length < least(lent) || lent.out.length < written(call, lent))
        });
    }
    for more in [-492, -1, 1, 20] {
        another_reason_is_found(4, |call, lent| {
            let least = written(call, lent) as isize + more;
            Some(lent.scratch.length < SCRATCH_BYTES || (lent.out.length as isize) < least)
        });
    }
    for most in [491, 493, 480, 504, 512] {
        another_reason_is_found(12, |_, lent| Some(lent.block.length > most));
    }
}

#[test]
fn another_rule_on_size_block_0_is_found() {
    for refuses in zero::OTHER_RULES {
        another_reason_is_found(14, |_, lent| Some(refuses(lent.size_block)));
    }
}

/// A page that names size block 0 is not refused. 14 is tried here in each place after 4.
#[test]
fn a_page_for_size_block_0_that_does_not_open_is_found() {
    for place in 3..=Call::OpenPage.reasons().len() {
        let mut order = Call::OpenPage.reasons().to_vec();
        order.insert(place, 14);
        others_are_found(Pages {
            order: &order,
            holds: &|one, lent| (one == 14).then(|| copied(lent.block).starts_with(&[0; 4])),
            ..right(Call::OpenPage)
        });
    }
}

#[test]
fn another_form_of_a_page_is_found() {
    let form = |lent: &Lent, look: &dyn Fn(&[u8], usize) -> bool| {
        let page = copied(lent.block);
        (page.len() == PAGE_BYTES).then(|| !look(&page, used(lent)))
    };
    let zeros = |page: &[u8]| page[8..12] == [0; 4];
    for most in [491, 493, 504, 511, 512, 65_535] {
        another_reason_is_found(11, |_, lent| {
            form(lent, &|page, used| zeros(page) && used <= most)
        });
    }
    // One of the four bytes is not looked at, or only one is, or none.
    for place in 8..12 {
        let all = 0..PAYLOAD_BYTES + 1;
        another_reason_is_found(11, |_, lent| {
            form(lent, &|page, used| {
                let others = (8..12).filter(|&other| other != place);
                all.contains(&used) && others.into_iter().all(|other| page[other] == 0)
            })
        });
        another_reason_is_found(11, |_, lent| {
            form(lent, &|page, used| all.contains(&used) && page[place] == 0)
        });
    }
    another_reason_is_found(11, |_, lent| form(lent, &|_, used| used <= PAYLOAD_BYTES));
    // Of another length: longer, shorter, or without its check.
    for length in [511, 513, 504, 768] {
        another_reason_is_found(11, |_, lent| (lent.block.length == length).then_some(false));
    }
    another_reason_is_found(11, |_, lent| {
        (lent.block.length > PAGE_BYTES).then_some(false)
    });
}

/// Tries libraries that look at part of the check of a page.
#[test]
fn part_of_a_check_that_is_compared_is_found() {
    for part in [0..0, 0..1, 0..4, 0..7, 1..8, 4..8] {
        another_reason_is_found(13, |_, lent| {
            Some(seen(Rule::Right, lent, |lists, page| {
                let stored = &page[CHECKED_BYTES..];
                right_check(lists, page)[part.clone()] != stored[part.clone()]
            }))
        });
    }
}

#[test]
fn part_of_the_unused_bytes_that_is_looked_at_is_found() {
    // All but the first or the last, only these, whole blocks, and what is left of a block.
    let parts: [fn(usize) -> std::ops::Range<usize>; 6] = [
        |used| used + 1..492,
        |used| used..491,
        |used| used..used + 1,
        |_| 491..492,
        |used| (used + 11) / 12 * 12..492,
        |used| used..(used + 11) / 12 * 12,
    ];
    for part in parts {
        another_reason_is_found(LATE_11, |_, lent| {
            Some(seen(Rule::Right, lent, |lists, page| {
                let used = used(lent).min(PAYLOAD_BYTES - 1);
                lists.payload(page)[part(used)]
                    .iter()
                    .any(|&byte| byte != 0)
            }))
        });
    }
}

/// Tries libraries that clear another part of the scratch, for both calls.
#[track_caller]
fn another_scratch_is_found(cleared: impl Fn(Option<u32>, &Lent) -> usize + Sync) {
    for call in Call::ON_PAGES {
        others_are_found(Pages {
            cleared: &cleared,
            ..right(call)
        });
    }
}

#[test]
fn a_scratch_that_is_cleared_otherwise_is_found() {
    // Nothing, part of it, as much as two lists need, and more than there has to be.
    for bytes in [0, 1, 12, 288, 575, 577, 1000] {
        another_scratch_is_found(|reason, lent| match rightly_cleared(reason, lent) {
            0 => 0,
            _ => bytes,
        });
    }
    another_scratch_is_found(|reason, lent| match rightly_cleared(reason, lent) {
        0 => 0,
        _ => 24 * (lent.rounds as usize % 24 + 1),
    });
    // Always, and the other way round for each reason and for none.
    another_scratch_is_found(|_, _| SCRATCH_BYTES);
    for call in Call::ON_PAGES {
        let reasons = call.reasons().iter().copied().map(Some);
        for reason in reasons.chain([None]) {
            others_are_found(Pages {
                cleared: &|given, lent| match given == reason {
                    true => SCRATCH_BYTES - rightly_cleared(given, lent),
                    false => rightly_cleared(given, lent),
                },
                ..right(call)
            });
        }
    }
}

/// A byte of the scratch, at each of its places.
#[test]
fn a_byte_of_a_scratch_that_is_left_is_found() {
    for call in Call::ON_PAGES {
        let turn = AtomicUsize::new(0);
        while turn.load(Ordering::Relaxed) <= SCRATCH_BYTES {
            always_found(call, |lent| {
                let answer = archive(call, lent);
                if lent.scratch.length > 0 {
                    let place = turn.fetch_add(1, Ordering::Relaxed);
                    poke(lent.scratch, (place % lent.scratch.length) as isize);
                }
                (answer, lent.scratch.length > 0)
            });
        }
    }
}

#[test]
fn a_byte_written_past_either_end_of_a_scratch_is_found() {
    for call in Call::ON_PAGES {
        for past in [-64, -1, 0, 63] {
            always_found(call, |lent| {
                let answer = archive(call, lent);
                let place = if past < 0 {
                    past
                } else {
                    end(lent.scratch) + past
                };
                poke(lent.scratch, place);
                (answer, true)
            });
        }
    }
}

/// The lists are left where the call does not refuse, or is refused after they were made.
#[test]
fn lists_that_are_left_in_a_scratch_are_found() {
    for call in Call::ON_PAGES {
        other_page_is_found(call, |lent| {
            let before = copied(lent.scratch);
            let answer = archive(call, lent);
            if let Some(lists) =
                Lists::new(Rule::Right, lent).filter(|_| before != copied(lent.scratch))
            {
                fill(lent.scratch, &lists.first);
            }
            answer
        });
    }
}

#[test]
fn a_payload_that_is_written_too_early_is_found() {
    for reason in SEEN_IN_A_PAGE {
        for bytes in [1, 12, PAYLOAD_BYTES] {
            other_page_is_found(Call::OpenPage, |lent| {
                let answer = archive(Call::OpenPage, lent);
                let late = copied(lent.scratch)
                    .iter()
                    .take(SCRATCH_BYTES)
                    .all(|&byte| byte == 0);
                let lists = Lists::new(Rule::Right, lent);
                if let (true, true, Some(lists)) =
                    (late, answer == u64::from(number(reason)), lists)
                {
                    fill(lent.out, &lists.payload(&copied(lent.block))[..bytes]);
                }
                answer
            });
        }
    }
}

#[test]
fn a_payload_that_is_not_all_written_is_found() {
    // Only the used bytes, only whole blocks of them, or all but the last.
    let written: [fn(usize) -> usize; 3] = [|used| used, |used| (used + 11) / 12 * 12, |_| 491];
    for written in written {
        other_page_is_found(Call::OpenPage, |lent| {
            let before = copied(lent.out);
            let answer = archive(Call::OpenPage, lent);
            if is_done(answer) {
                let after = copied(lent.out);
                fill(lent.out, &before);
                fill(lent.out, &after[..written(used(lent))]);
            }
            answer
        });
    }
}

#[test]
fn another_answer_to_a_page_that_opens_is_found() {
    let others: [fn(u64) -> u64; 8] = [
        |answer| answer & !(1 << 63),
        |answer| answer | 1 << 62,
        |answer| answer & 0xffff_ffff,
        |answer| answer & !0xffff_0000_0000,
        |answer| answer & !(0x7fff << 48),
        |answer| answer & !0xffff_ffff,
        // The numbers in other places, and each little end first.
        |answer| {
            1 << 63
                | (answer & 0x7fff << 48) >> 16
                | (answer & 0xffff << 32) << 16 & 0x7fff << 48
                | answer & 0xffff_ffff
        },
        |answer| answer & !0xffff_ffff | u64::from((answer as u32).swap_bytes()),
    ];
    for other in others {
        other_page_is_found(Call::OpenPage, |lent| match archive(Call::OpenPage, lent) {
            answer if is_done(answer) => other(answer),
            answer => answer,
        });
    }
}
