//! What is expected of size block 0, which is refused with 14, against examples that were worked out by
//! hand.

use super::*;

/// The calls that are asked for a size block.
const ASKING: [Call; 4] = [Call::Issue, Call::Check, Call::CheckQueue, Call::SealPage];

/// Size blocks that may be asked for. Those from 256 on are 0, or 300, if they are cut to 8, 16 or 24 bits.
const OTHERS: [u32; 10] = [
    1,
    44,
    255,
    256,
    65_536,
    65_836,
    1 << 24,
    (1 << 24) + 300,
    1 << 31,
    u32::MAX,
];

fn reasons(case: &Case) -> Vec<u32> {
    expected(case, &mut Oracle::new()).reasons
}

/// A check of a grant that names one size block, asked for another or the same.
fn check_for(named: u32, asked: u32) -> Case {
    let mut case = right(Call::Check);
    case.block = grant_for(7, 1, named, 2);
    case.size_block = asked;
    case
}

#[test]
fn size_block_0_is_refused_and_no_other() {
    for call in ASKING {
        let mut case = right(call);
        case.size_block = 0;
        assert_eq!(answer(&case), 14, "{case}");
        let left = effect(&case);
        assert_eq!((left.written, left.scratch), (vec![], vec![]), "{case}");
        assert_eq!(left.roll, case.roll, "{case}");
        for asked in OTHERS {
            case.size_block = asked;
            assert!(!reasons(&case).contains(&14), "{case}");
            assert_ne!(answer(&case), 14, "{case}");
        }
    }
}

/// What is issued for another size block names it.
#[test]
fn grants_for_other_size_blocks_open_for_these() {
    for asked in OTHERS {
        let mut case = right(Call::Issue);
        case.size_block = asked;
        assert_eq!(effect(&case).written, grant_for(7, 1, asked, 2), "{case}");
        assert_eq!(answer(&check_for(asked, asked)), 2007, "{asked}");
        assert_eq!(answer(&check_for(300, asked)), 9, "{asked}");
        assert_eq!(answer(&check_for(asked, 300)), 9, "{asked}");
    }
}

/// A grant that was issued for 0 opens nothing. It is a whole grant still, and one for another block.
#[test]
fn a_grant_that_names_size_block_0_opens_nothing() {
    assert_eq!(reasons(&check_for(0, 0)), [14]);
    assert_eq!(reasons(&check_for(300, 0)), [14, 9]);
    for right in [READING, OVERWRITING] {
        for asked in OTHERS {
            let mut case = check_for(0, asked);
            case.right = right;
            assert_eq!(reasons(&case), [9], "{case}");
            assert_eq!(answer(&case), 9, "{case}");
        }
        let mut case = check_for(0, 0);
        case.right = right;
        assert_eq!(answer(&case), 14, "{case}");
    }
}

/// 14 is told by the number that is asked for, so it is given whatever the grant and the roll are.
#[test]
fn fourteen_holds_whatever_the_grant_is() {
    let spoilt: [(&[u32], &[u32]); 9] = [
        (&[8], &[14, 8]),
        (&[10], &[14, 9, 10]),
        (&[20], &[14, 9, 20, 23]),
        (&[23], &[14, 9, 23]),
        (&[25], &[14, 9, 25]),
        (&[10, 20, 25], &[14, 9, 10, 20, 23, 25]),
        (&[7], &[7, 14, 9]),
        (&[3], &[3, 14]),
        (&[1, 3], &[1, 3, 14]),
    ];
    for (spoils, held) in spoilt {
        let mut case = right(Call::Check);
        spoils.iter().for_each(|&reason| spoil(&mut case, reason));
        case.size_block = 0;
        assert_eq!(reasons(&case), held, "{case}");
        assert_eq!(answer(&case), u64::from(held[0]), "{case}");
    }
    let mut case = check_for(0, 0);
    for spoiler in [10, 20, 25] {
        case.block = grant_for(7, 1, 0, if spoiler == 10 { 1 } else { 2 });
        case.roll = right(Call::Check).roll;
        if spoiler != 10 {
            spoil(&mut case, spoiler);
        }
        assert_eq!(reasons(&case)[..2], [14, spoiler], "{case}");
        assert_eq!(answer(&case), 14, "{case}");
    }
}

/// All reasons of an issue for 0, whoever asks.
#[test]
fn an_issue_for_size_block_0_is_refused_before_the_standing_is_looked_at() {
    for (contractor, count, figure, held) in [
        (7, 1, 2, vec![14]),
        (7, 1, 1, vec![14, 25]),
        (7, 2, 2, vec![14, 20]),
        (7, 65_535, 0, vec![14, 20, 25]),
        (8, 1, 2, vec![14, 20, 25]),
        (201, 1, 2, vec![6, 14]),
    ] {
        let mut case = roll_case(Call::Issue, contractor, count);
        set_figure(&mut case.roll, 7, figure);
        case.size_block = 0;
        assert_eq!(reasons(&case), held, "{case}");
        assert_eq!(answer(&case), u64::from(held[0]), "{case}");
        case.right = 3;
        case.out = 11;
        assert_eq!(reasons(&case)[0], 4, "{case}");
    }
}

/// A queue for 0 is refused as a whole, whatever stands in it. In one for another size block, a grant
/// that names 0 has the byte 9; no byte is 14.
#[test]
fn a_queue_with_grants_that_name_size_block_0() {
    let old = grant_for(7, 1, 0, 2);
    let forged = grant_for(201, 1, 0, 2);
    let mut case = queue_case(0, 4);
    case.block = [&old[..], &grant_of(7, 1, 2), &forged, &old].concat();
    for asked in [READING, OVERWRITING] {
        (case.right, case.size_block) = (asked, 300);
        assert_eq!(effect(&case).answer, 0);
        assert_eq!(effect(&case).written, [9, 0, 8, 9]);
        for other in OTHERS {
            case.size_block = other;
            assert_eq!(effect(&case).written, [9, 9, 8, 9], "{other}");
        }
        case.size_block = 0;
        assert_eq!(effect(&case).answer, 14);
        assert_eq!(effect(&case).written, []);
    }
    case.right = 3;
    assert_eq!(reasons(&case), [7, 14]);
    case.out = 3;
    assert_eq!(reasons(&case), [4, 7, 14]);
}
