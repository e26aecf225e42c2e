//! What matters of size block 0 occurs among the cases.

use super::*;

/// The size block that the grant of a check names, if it is whole.
fn named(case: &Case) -> Option<u32> {
    let grant = case.block.as_slice().try_into().ok()?;
    let plain = gordzila::decipher(&case.key, case.rounds, grant).ok()?;
    let bytes = plain[4..8].try_into().expect("these are 4 bytes");
    right_in_grant(case)
        .filter(|right| [1, 2].contains(right))
        .map(|_| u32::from_be_bytes(bytes))
}

/// How many checks there are of grants that name 0 or not, asked for 0 or not, for which these reasons
/// hold.
fn checks(names_0: bool, asks_0: bool, reasons: &[u32]) -> usize {
    let checks = cases().iter().filter(|pair| pair.0.call == Call::Check);
    let held = checks.filter(|pair| pair.1.reasons == reasons);
    let asked = held.filter(|pair| (pair.0.size_block == 0) == asks_0);
    let named = asked.filter(|pair| named(&pair.0).map(|block| block == 0) == Some(names_0));
    named.count()
}

#[test]
fn grants_that_name_0_and_others_are_asked_for_0_and_others() {
    for reasons in [&[14][..], &[14, 10], &[14, 20, 23], &[14, 23], &[14, 25]] {
        assert!(checks(true, true, reasons) > 3, "{reasons:?}");
    }
    for reasons in [&[9][..], &[9, 10], &[9, 23], &[9, 25]] {
        assert!(checks(true, false, reasons) > 3, "{reasons:?}");
    }
    for reasons in [&[14, 9][..], &[14, 9, 10], &[14, 9, 23], &[14, 9, 25]] {
        assert!(checks(false, true, reasons) > 3, "{reasons:?}");
    }
}

/// 14 alone, and with what is no grant at all.
#[test]
fn size_block_0_alone_occurs() {
    for call in [Call::Issue, Call::Check, Call::CheckQueue] {
        let mut of_call = cases().iter().filter(|pair| pair.0.call == call);
        assert!(of_call.any(|pair| pair.1.reasons == [14]), "{call:?}");
    }
    let mut checks = cases().iter().filter(|pair| pair.0.call == Call::Check);
    assert!(checks.any(|pair| pair.1.reasons == [14, 8]));
}

/// A queue for 0 of no grants, of one, and of as many as there can be.
#[test]
fn queues_for_size_block_0_occur() {
    let queues = cases().iter().filter(|pair| pair.1.reasons == [14]);
    let grants: Vec<usize> = queues
        .filter(|pair| pair.0.call == Call::CheckQueue)
        .map(|pair| pair.0.block.len() / 12)
        .collect();
    for wanted in [0, 1, 2, 63, 64] {
        assert!(grants.contains(&wanted), "{wanted}: {grants:?}");
    }
}

/// A grant that names 0 stands in a queue beside one that opens.
#[test]
fn grants_that_name_0_occur_in_queues() {
    let with_both = |(case, written): &(&'static Case, &'static [u8])| {
        let names_0 = case.block.chunks(12).any(|grant| {
            let mut single = (*case).clone();
            single.block = grant.to_vec();
            named(&single) == Some(0)
        });
        names_0 && written.contains(&0)
    };
    let found = queues().filter(with_both).count();
    assert!(found > 20, "{found}");
}
