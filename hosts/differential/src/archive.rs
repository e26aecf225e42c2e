//! The calls of the library's archive, through the Rust wrapper's calls over any slices and numbers:
//! so the wrapper is compared with the independent program too.

use std::slice;

use gordzila::{raw, PageKeys};

use crate::call::Call;
use crate::lend::{Bytes, Lent};

/// Makes a call of the archive.
///
/// Whoever makes a `Lent` answers for its pointers: each has as many bytes as its length says, and
/// what the call writes to overlaps nothing else.
pub fn archive(call: Call, lent: &Lent) -> u64 {
    match call {
        Call::OpenPage => open_page(lent),
        _ => u64::from(short_answer(call, lent)),
    }
}

/// Makes a call of the archive that answers 32 bits.
fn short_answer(call: Call, lent: &Lent) -> u32 {
    let (key, list, block) = (read(lent.key), read(lent.list), read(lent.block));
    match call {
        Call::Encipher => raw::encipher_number(key, lent.rounds, block, write(lent.out)),
        Call::Decipher => raw::decipher_number(key, lent.rounds, block, write(lent.out)),
        Call::PrepareEnciphering => {
            raw::prepare_enciphering_number(key, lent.rounds, write(lent.out))
        }
        Call::PrepareDeciphering => {
            raw::prepare_deciphering_number(key, lent.rounds, write(lent.out))
        }
        Call::Run => raw::run_number(list, block, write(lent.out)),
        Call::Issue => issue(key, lent),
        Call::Check => check(key, block, lent),
        Call::CheckQueue => check_queue(key, block, lent),
        Call::EmptyRoll => raw::empty_roll_number(write(lent.out)),
        Call::Enter => raw::enter_number(write(lent.roll), lent.contractor, lent.right),
        Call::ChangeRight => {
            raw::change_right_number(write(lent.roll), lent.contractor, lent.right)
        }
        Call::Withdraw => raw::withdraw_number(write(lent.roll), lent.contractor),
        Call::Stage => raw::stage_number(key, lent.stage, write(lent.out)),
        Call::Subkey => raw::subkey_number(key, lent.stage, write(lent.out)),
        Call::HolderMake => raw::holder_make_number(key, write(lent.out)),
        Call::HolderForward => raw::holder_forward_number(write(lent.holder)),
        Call::HolderBack => raw::holder_back_number(write(lent.holder)),
        Call::HolderWalk => raw::holder_walk_number(write(lent.holder), lent.stage),
        Call::HolderSubkey => raw::holder_subkey_number(read(lent.holder), write(lent.out)),
        Call::SealPage => seal_page(block, lent),
        Call::OpenPage => unreachable!("the opening of a page answers 64 bits"),
    }
}

fn issue(key: &[u8], lent: &Lent) -> u32 {
    raw::issue_number(
        key,
        lent.rounds,
        read(lent.roll),
        lent.contractor,
        lent.size_block,
        lent.right,
        write(lent.out),
    )
}

fn check(key: &[u8], grant: &[u8], lent: &Lent) -> u32 {
    raw::check_number(
        key,
        lent.rounds,
        read(lent.roll),
        grant,
        lent.size_block,
        lent.right,
    )
}

fn check_queue(key: &[u8], grants: &[u8], lent: &Lent) -> u32 {
    raw::check_queue_number(
        key,
        lent.rounds,
        read(lent.roll),
        grants,
        lent.size_block,
        lent.right,
        write(lent.out),
    )
}

fn seal_page(payload: &[u8], lent: &Lent) -> u32 {
    raw::seal_page_number(
        page_keys(lent),
        lent.rounds,
        lent.size_block,
        lent.page_number,
        payload,
        write(lent.scratch),
        write(lent.out),
    )
}

fn open_page(lent: &Lent) -> u64 {
    let (scratch, out) = (write(lent.scratch), write(lent.out));
    raw::open_page_number(page_keys(lent), lent.rounds, read(lent.block), scratch, out)
}

fn page_keys<'a>(lent: &Lent) -> PageKeys<'a> {
    PageKeys {
        first: read(lent.key),
        second: read(lent.second_key),
    }
}

/// Bytes that the call only reads.
fn read<'a>(bytes: Bytes) -> &'a [u8] {
    if bytes.length == 0 {
        return &[];
    }
    // SAFETY: whoever made the `Lent` answers for pointer and length; nothing writes to these bytes
    // during the call.
    unsafe { slice::from_raw_parts(bytes.start, bytes.length) }
}

/// Bytes that the call may write to.
fn write<'a>(bytes: Bytes) -> &'a mut [u8] {
    if bytes.length == 0 {
        return &mut [];
    }
    // SAFETY: whoever made the `Lent` answers for pointer and length, and that these bytes overlap
    // nothing else that is lent.
    unsafe { slice::from_raw_parts_mut(bytes.start, bytes.length) }
}
