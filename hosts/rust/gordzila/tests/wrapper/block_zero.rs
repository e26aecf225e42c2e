//! Size block 0, which was for practice: nobody can ask for it any more, grants for it open
//! nothing, and pages for it still open.

use crate::header::in_one_line;
use crate::pages::{header, page_of};
use crate::refusals::numbered;
use crate::{block, repository_file};
use gordzila::{check, check_queue, encipher, issue, open_page, raw, seal_page};
use gordzila::{Opened, OpenedPage, PageKeys, Reason, Right, Roll, SizeBlock};
use Right::{Overwriting, Reading};

const KEY: [u8; 12] = [9; 12];
const ROUNDS: u32 = 10;
const KEYS: PageKeys<'static> = PageKeys {
    first: &KEY,
    second: &[8; 12],
};

/// Numbers that are not 0. Some have one byte alone that is not, each in another place.
const OTHERS: [u32; 6] = [1, 256, 300, 65_536, 1 << 24, u32::MAX];

/// A roll on which contractor 7 has an entry.
fn roll(count: u8, highest: u8) -> Roll {
    let mut bytes = *Roll::empty().bytes();
    (bytes[13], bytes[406]) = (count, highest);
    Roll::from_bytes(&bytes).unwrap()
}

/// A grant to contractor 7 for size block 0 at count 1, as it was issued before version 0.7.
fn old_grant(right: Right) -> [u8; 12] {
    let right = right.number() as u8;
    let plain = [0, 7, 0, 1, 0, 0, 0, 0, right, 0x47, 0x52, 0x44];
    encipher(&KEY, ROUNDS, &plain).unwrap()
}

/// The numbers that the calls answer for a size block, with all else right: the issue, the
/// check of what is issued for size block 300, the queue of it, and the sealing.
fn numbers(size_block: u32) -> [u32; 4] {
    let (roll, mut grant) = (*roll(1, 2).bytes(), [0; 12]);
    raw::issue(&KEY, ROUNDS, &roll, 7, 300, 2, &mut grant).unwrap();
    [
        numbered(13, 12, |out| {
            raw::issue_number(&KEY, ROUNDS, &roll, 7, size_block, 2, out)
        }),
        raw::check_number(&KEY, ROUNDS, &roll, &grant, size_block, 2),
        numbered(2, 1, |answers| {
            raw::check_queue_number(&KEY, ROUNDS, &roll, &grant, size_block, 2, answers)
        }),
        numbered(513, 512, |out| {
            let scratch = &mut [1; 576];
            let number = raw::seal_page_number(KEYS, ROUNDS, size_block, 4, b"", scratch, out);
            assert_eq!(number == 0, *scratch == [0; 576]);
            assert!(number == 0 || *scratch == [1; 576]);
            number
        }),
    ]
}

#[test]
fn each_call_that_is_asked_for_0_refuses_with_14() {
    assert_eq!(numbers(0), [14; 4]);
    for other in OTHERS {
        let checked = if other == 300 { 2007 } else { 9 };
        assert_eq!(numbers(other), [0, checked, 0, 0], "{other}");
    }
}

#[test]
fn a_number_that_comes_in_is_refused_with_the_same_reason() {
    let roll = *roll(1, 2).bytes();
    let refused = raw::issue(&KEY, ROUNDS, &roll, 7, 0, 2, &mut [0; 12]);
    assert_eq!(refused, Err(Reason::BlockZero));
    assert_eq!(SizeBlock::try_from(0).map(|_| ()), refused);
}

/// What a grant is asked for by a form that was left blank says nothing of the grant: it
/// opens once the form is filled in.
#[test]
fn a_blank_form_spoils_no_grant() {
    let roll = roll(1, 2);
    for other in OTHERS {
        let grant = issue(&KEY, ROUNDS, &roll, 7, block(other), Overwriting).unwrap();
        for right in [Reading, Overwriting] {
            let asked =
                |number| raw::check(&KEY, ROUNDS, roll.bytes(), &grant, number, right.number());
            let contractor = 7;
            assert_eq!(asked(0), Err(Reason::BlockZero));
            assert_eq!(asked(other), Ok(Opened { contractor, right }));
        }
    }
}

/// On rolls on which its contractor is in the standing written in it, for either right, and
/// on rolls on which they are not.
#[test]
fn an_old_grant_opens_nothing() {
    for (count, highest) in [(1, 2), (1, 1), (0, 1), (2, 1), (3, 2)] {
        let roll = roll(count, highest);
        for (of, asked) in [(1, 1), (1, 2), (2, 1), (2, 2)] {
            let [of, asked] = [of, asked].map(|number| Right::from_number(number).unwrap());
            let (grant, right) = (old_grant(of), asked.number());
            let for_0 = raw::check(&KEY, ROUNDS, roll.bytes(), &grant, 0, right);
            assert_eq!(for_0, Err(Reason::BlockZero));
            for other in OTHERS.map(block) {
                let single = check(&KEY, ROUNDS, &roll, &grant, other, asked);
                assert_eq!(single, Err(Reason::OtherBlock), "{other}");
                let queued = check_queue(&KEY, ROUNDS, &roll, &[grant], other, asked);
                assert_eq!(queued, Ok(vec![Err(Reason::OtherBlock)]), "{other}");
            }
        }
    }
}

/// The grant itself is not what is wrong with it: with another number in the place of 0, the
/// same bytes open.
#[test]
fn an_old_grant_differs_from_others_in_its_size_block_alone() {
    let roll = roll(1, 2);
    let mut plain = gordzila::decipher(&KEY, ROUNDS, &old_grant(Overwriting)).unwrap();
    plain[7] = 1;
    let grant = encipher(&KEY, ROUNDS, &plain).unwrap();
    let issued = issue(&KEY, ROUNDS, &roll, 7, block(1), Overwriting);
    assert_eq!(issued, Ok(grant));
    assert!(check(&KEY, ROUNDS, &roll, &grant, block(1), Overwriting).is_ok());
}

/// Who has an old grant stays in standing, and goes on with grants for other size blocks.
#[test]
fn the_contractor_of_an_old_grant_stays_in_standing() {
    let before = roll(1, 2);
    let mut roll = before.clone();
    let _ = check(
        &KEY,
        ROUNDS,
        &roll,
        &old_grant(Overwriting),
        block(300),
        Reading,
    );
    assert!(roll.in_standing(7));
    assert_eq!(roll.enter(7, Reading), Err(Reason::InStanding));
    let grant = issue(&KEY, ROUNDS, &roll, 7, block(300), Overwriting).unwrap();
    let pile = [old_grant(Overwriting), grant, old_grant(Reading)];
    let verdicts = check_queue(&KEY, ROUNDS, &roll, &pile, block(300), Overwriting);
    let old = Err(Reason::OtherBlock);
    assert_eq!(verdicts, Ok(vec![old, Ok(()), old]));
    assert_eq!(roll, before);
}

/// Old grants and their like, asked for 0 in one queue: no byte is written.
#[test]
fn a_queue_for_0_has_no_verdicts() {
    let pile = [old_grant(Overwriting), [0; 12], old_grant(Reading)].concat();
    for n in 0..=3 {
        let number = numbered(5, n, |answers| {
            let (roll, grants) = (roll(1, 2), &pile[..12 * n]);
            raw::check_queue_number(&KEY, ROUNDS, roll.bytes(), grants, 0, 2, answers)
        });
        assert_eq!(number, 14, "{n}");
    }
}

#[test]
fn an_old_page_opens_and_is_not_sealed_again() {
    for used in [0, 1, 12, 300, 492] {
        let (payload, page_number) = (vec![5; used], 4);
        let page = page_of(KEYS, ROUNDS, header(0, page_number, used as u16), &payload);
        let opened = open_page(KEYS, ROUNDS, &page).unwrap();
        assert_eq!((opened.size_block, opened.page_number), (0, page_number));
        assert_eq!(opened.payload, payload);
        assert_eq!(SizeBlock::new(opened.size_block), None);
        let (scratch, mut out) = (&mut [0; 576], [7; 512]);
        let again = raw::seal_page(KEYS, ROUNDS, 0, page_number, &payload, scratch, &mut out);
        assert_eq!((again, out), (Err(Reason::BlockZero), [7; 512]));
        // What it holds is kept up to date in a page of another size block.
        let kept = seal_page(KEYS, ROUNDS, block(300), page_number, &opened.payload).unwrap();
        let size_block = 300;
        let expected = OpenedPage {
            size_block,
            ..opened
        };
        assert_eq!(open_page(KEYS, ROUNDS, &kept), Ok(expected));
    }
}

/// What a host of 0.6 has to be told stands in the header.
#[test]
fn the_header_tells_of_size_block_0() {
    let text = repository_file("include/gordzila.h");
    let (_, changes) = text.split_once("\n * Changes in 0.7.0").unwrap();
    let (changes, rest) = changes.split_once("\n * Changes in ").unwrap();
    let changes = in_one_line(&changes.replace("\n *", "\n"));
    for words in [
        "for hosts that were written for 0.6",
        "Reason 14 is new",
        "no byte of answers is 14",
        "a mistake of the form and says nothing of the grant",
        "Grants that were issued for 0 open nothing any more",
        "can throw away those for 0",
        "Nothing is to be done on the roll",
        "Pages that were sealed for 0 still open, and answer size block 0",
        "open it and seal what it holds for another size block",
        "No call changed its form",
    ] {
        assert!(changes.contains(words), "{words}: {changes}");
    }
    let rest = in_one_line(&rest.replace("\n *", "\n"));
    for order in [
        "3 (grant or roll), 7, 14, 8, 9, 10, 20, 23, 25",
        "4 (answers shorter than the number of grants), 7, 14. They refuse the whole call",
        "Order: 1, 2, 3 (roll), 4, 6, 7, 14, 20, 25",
        "4 (scratch under 576 or out under 512), 14, 12",
        "it opens, and the size block in the answer is 0",
    ] {
        assert!(rest.contains(order), "{order}");
    }
}

/// The example has words for it.
#[test]
fn the_example_in_c_has_words_for_14() {
    let example = repository_file("hosts/c/plotter.c");
    assert!(example.contains("case GORDZILA_BLOCK_ZERO:"));
    let printed = repository_file("hosts/c/plotter.expected");
    let refused = "overwrite size block 0: refused with 14, size block number left blank\n";
    assert!(printed.contains(refused), "{printed}");
}
