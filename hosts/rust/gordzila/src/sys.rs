//! The C calls, declared as in include/gordzila.h, and a safe function over each.
//! All unsafe code of the package stands here.
//!
//! Why the calls are sound for any slices and numbers, by the rules of the header:
//!
//! - Each pointer comes from a slice and goes with the length of that slice, so that
//!   it points to as many bytes as the length says.
//! - No pointer is null: that of an empty slice is not null in Rust, though it points
//!   to no byte. With the length 0, the header allows it.
//! - What a call writes to is a `&mut` slice. Rust lets nothing else that is lent at
//!   the same time overlap it, another `&mut` slice included.
//! - The slices are borrowed for the whole call, and the library keeps no pointer.
//! - The calls have no state, so that any thread may make them at any time.

use crate::PageKeys;

extern "C" {
    fn gordzila_check(
        key: *const u8,
        key_length: usize,
        rounds: u32,
        roll: *const u8,
        roll_length: usize,
        grant: *const u8,
        grant_length: usize,
        size_block: u32,
        right: u32,
    ) -> u32;
    fn gordzila_check_queue(
        key: *const u8,
        key_length: usize,
        rounds: u32,
        roll: *const u8,
        roll_length: usize,
        grants: *const u8,
        grants_length: usize,
        size_block: u32,
        right: u32,
        answers: *mut u8,
        answers_length: usize,
    ) -> u32;
    fn gordzila_empty_roll(out: *mut u8, out_length: usize) -> u32;
    fn gordzila_enter(roll: *mut u8, roll_length: usize, contractor: u32, right: u32) -> u32;
    fn gordzila_change_right(roll: *mut u8, roll_length: usize, contractor: u32, right: u32)
        -> u32;
    fn gordzila_withdraw(roll: *mut u8, roll_length: usize, contractor: u32) -> u32;
    fn gordzila_issue(
        key: *const u8,
        key_length: usize,
        rounds: u32,
        roll: *const u8,
        roll_length: usize,
        contractor: u32,
        size_block: u32,
        right: u32,
        out: *mut u8,
        out_length: usize,
    ) -> u32;
    fn gordzila_seal_page(
        first_key: *const u8,
        first_key_length: usize,
        second_key: *const u8,
        second_key_length: usize,
        rounds: u32,
        size_block: u32,
        page_number: u16,
        payload: *const u8,
        payload_length: usize,
        scratch: *mut u8,
        scratch_length: usize,
        out: *mut u8,
        out_length: usize,
    ) -> u32;
    fn gordzila_open_page(
        first_key: *const u8,
        first_key_length: usize,
        second_key: *const u8,
        second_key_length: usize,
        rounds: u32,
        page: *const u8,
        page_length: usize,
        scratch: *mut u8,
        scratch_length: usize,
        out: *mut u8,
        out_length: usize,
    ) -> u64;
    fn gordzila_encipher(
        key: *const u8,
        key_length: usize,
        rounds: u32,
        block: *const u8,
        block_length: usize,
        out: *mut u8,
        out_length: usize,
    ) -> u32;
    fn gordzila_decipher(
        key: *const u8,
        key_length: usize,
        rounds: u32,
        block: *const u8,
        block_length: usize,
        out: *mut u8,
        out_length: usize,
    ) -> u32;
    fn gordzila_prepare_enciphering(
        key: *const u8,
        key_length: usize,
        rounds: u32,
        out: *mut u8,
        out_length: usize,
    ) -> u32;
    fn gordzila_prepare_deciphering(
        key: *const u8,
        key_length: usize,
        rounds: u32,
        out: *mut u8,
        out_length: usize,
    ) -> u32;
    fn gordzila_run(
        list: *const u8,
        list_length: usize,
        block: *const u8,
        block_length: usize,
        out: *mut u8,
        out_length: usize,
    ) -> u32;
    fn gordzila_stage(
        key: *const u8,
        key_length: usize,
        n: u32,
        out: *mut u8,
        out_length: usize,
    ) -> u32;
    fn gordzila_subkey(
        key: *const u8,
        key_length: usize,
        n: u32,
        out: *mut u8,
        out_length: usize,
    ) -> u32;
    fn gordzila_holder_make(
        key: *const u8,
        key_length: usize,
        out: *mut u8,
        out_length: usize,
    ) -> u32;
    fn gordzila_holder_forward(holder: *mut u8, holder_length: usize) -> u32;
    fn gordzila_holder_back(holder: *mut u8, holder_length: usize) -> u32;
    fn gordzila_holder_walk(holder: *mut u8, holder_length: usize, n: u32) -> u32;
    fn gordzila_holder_subkey(
        holder: *const u8,
        holder_length: usize,
        out: *mut u8,
        out_length: usize,
    ) -> u32;
}

/// The number that `gordzila_check` answers: that of a reason, or, where the grant
/// opens, 1,000 times the right asked for plus the contractor.
pub fn check_number(
    key: &[u8],
    rounds: u32,
    roll: &[u8],
    grant: &[u8],
    size_block: u32,
    right: u32,
) -> u32 {
    // SAFETY: pointers with the lengths of their slices, all only read.
    unsafe {
        gordzila_check(
            key.as_ptr(),
            key.len(),
            rounds,
            roll.as_ptr(),
            roll.len(),
            grant.as_ptr(),
            grant.len(),
            size_block,
            right,
        )
    }
}

/// The number that `gordzila_check_queue` returns: that of a reason to refuse the whole
/// call, or 0. 0 does not say that a grant opens: `answers` has a byte for each.
pub fn check_queue_number(
    key: &[u8],
    rounds: u32,
    roll: &[u8],
    grants: &[u8],
    size_block: u32,
    right: u32,
    answers: &mut [u8],
) -> u32 {
    // SAFETY: pointers with the lengths of their slices; `answers`, which is lent for
    // writing, overlaps no other slice.
    unsafe {
        gordzila_check_queue(
            key.as_ptr(),
            key.len(),
            rounds,
            roll.as_ptr(),
            roll.len(),
            grants.as_ptr(),
            grants.len(),
            size_block,
            right,
            answers.as_mut_ptr(),
            answers.len(),
        )
    }
}

/// The number that `gordzila_empty_roll` answers: 0, or that of a reason.
pub fn empty_roll_number(out: &mut [u8]) -> u32 {
    // SAFETY: the pointer with the length of its slice, which is lent for writing.
    unsafe { gordzila_empty_roll(out.as_mut_ptr(), out.len()) }
}

/// The number that `gordzila_enter` answers: 0, or that of a reason.
pub fn enter_number(roll: &mut [u8], contractor: u32, right: u32) -> u32 {
    // SAFETY: the pointer with the length of its slice, which is lent for writing.
    unsafe { gordzila_enter(roll.as_mut_ptr(), roll.len(), contractor, right) }
}

/// The number that `gordzila_change_right` answers: 0, or that of a reason.
pub fn change_right_number(roll: &mut [u8], contractor: u32, right: u32) -> u32 {
    // SAFETY: the pointer with the length of its slice, which is lent for writing.
    unsafe { gordzila_change_right(roll.as_mut_ptr(), roll.len(), contractor, right) }
}

/// The number that `gordzila_withdraw` answers: 0, or that of a reason.
pub fn withdraw_number(roll: &mut [u8], contractor: u32) -> u32 {
    // SAFETY: the pointer with the length of its slice, which is lent for writing.
    unsafe { gordzila_withdraw(roll.as_mut_ptr(), roll.len(), contractor) }
}

/// The number that `gordzila_issue` answers: 0, or that of a reason.
pub fn issue_number(
    key: &[u8],
    rounds: u32,
    roll: &[u8],
    contractor: u32,
    size_block: u32,
    right: u32,
    out: &mut [u8],
) -> u32 {
    // SAFETY: pointers with the lengths of their slices; `out`, which is lent for
    // writing, overlaps no other slice.
    unsafe {
        gordzila_issue(
            key.as_ptr(),
            key.len(),
            rounds,
            roll.as_ptr(),
            roll.len(),
            contractor,
            size_block,
            right,
            out.as_mut_ptr(),
            out.len(),
        )
    }
}

/// The number that `gordzila_seal_page` answers: 0, or that of a reason.
pub fn seal_page_number(
    keys: PageKeys<'_>,
    rounds: u32,
    size_block: u32,
    page_number: u16,
    payload: &[u8],
    scratch: &mut [u8],
    out: &mut [u8],
) -> u32 {
    // SAFETY: pointers with the lengths of their slices; `scratch` and `out`, which are
    // lent for writing, overlap no other slice.
    unsafe {
        gordzila_seal_page(
            keys.first.as_ptr(),
            keys.first.len(),
            keys.second.as_ptr(),
            keys.second.len(),
            rounds,
            size_block,
            page_number,
            payload.as_ptr(),
            payload.len(),
            scratch.as_mut_ptr(),
            scratch.len(),
            out.as_mut_ptr(),
            out.len(),
        )
    }
}

/// The number that `gordzila_open_page` answers: that of a reason, or, where the page
/// opens, 2^63 + 2^48 times the used count + 2^32 times the page number + the size block.
pub fn open_page_number(
    keys: PageKeys<'_>,
    rounds: u32,
    page: &[u8],
    scratch: &mut [u8],
    out: &mut [u8],
) -> u64 {
    // SAFETY: pointers with the lengths of their slices; `scratch` and `out`, which are
    // lent for writing, overlap no other slice.
    unsafe {
        gordzila_open_page(
            keys.first.as_ptr(),
            keys.first.len(),
            keys.second.as_ptr(),
            keys.second.len(),
            rounds,
            page.as_ptr(),
            page.len(),
            scratch.as_mut_ptr(),
            scratch.len(),
            out.as_mut_ptr(),
            out.len(),
        )
    }
}

/// The number that `gordzila_encipher` answers: 0, or that of a reason.
pub fn encipher_number(key: &[u8], rounds: u32, block: &[u8], out: &mut [u8]) -> u32 {
    // SAFETY: pointers with the lengths of their slices; `out`, which is lent for
    // writing, overlaps no other slice.
    unsafe {
        gordzila_encipher(
            key.as_ptr(),
            key.len(),
            rounds,
            block.as_ptr(),
            block.len(),
            out.as_mut_ptr(),
            out.len(),
        )
    }
}

/// The number that `gordzila_decipher` answers: 0, or that of a reason.
pub fn decipher_number(key: &[u8], rounds: u32, block: &[u8], out: &mut [u8]) -> u32 {
    // SAFETY: pointers with the lengths of their slices; `out`, which is lent for
    // writing, overlaps no other slice.
    unsafe {
        gordzila_decipher(
            key.as_ptr(),
            key.len(),
            rounds,
            block.as_ptr(),
            block.len(),
            out.as_mut_ptr(),
            out.len(),
        )
    }
}

/// The number that `gordzila_prepare_enciphering` answers: 0, or that of a reason.
pub fn prepare_enciphering_number(key: &[u8], rounds: u32, out: &mut [u8]) -> u32 {
    // SAFETY: pointers with the lengths of their slices; `out`, which is lent for
    // writing, overlaps no other slice.
    unsafe {
        gordzila_prepare_enciphering(key.as_ptr(), key.len(), rounds, out.as_mut_ptr(), out.len())
    }
}

/// The number that `gordzila_prepare_deciphering` answers: 0, or that of a reason.
pub fn prepare_deciphering_number(key: &[u8], rounds: u32, out: &mut [u8]) -> u32 {
    // SAFETY: pointers with the lengths of their slices; `out`, which is lent for
    // writing, overlaps no other slice.
    unsafe {
        gordzila_prepare_deciphering(key.as_ptr(), key.len(), rounds, out.as_mut_ptr(), out.len())
    }
}

/// The number that `gordzila_run` answers: 0, or that of a reason.
pub fn run_number(list: &[u8], block: &[u8], out: &mut [u8]) -> u32 {
    // SAFETY: pointers with the lengths of their slices; `out`, which is lent for
    // writing, overlaps no other slice.
    unsafe {
        gordzila_run(
            list.as_ptr(),
            list.len(),
            block.as_ptr(),
            block.len(),
            out.as_mut_ptr(),
            out.len(),
        )
    }
}

/// The number that `gordzila_stage` answers: 0, or that of a reason.
pub fn stage_number(key: &[u8], n: u32, out: &mut [u8]) -> u32 {
    // SAFETY: pointers with the lengths of their slices; `out`, which is lent for
    // writing, overlaps no other slice.
    unsafe { gordzila_stage(key.as_ptr(), key.len(), n, out.as_mut_ptr(), out.len()) }
}

/// The number that `gordzila_subkey` answers: 0, or that of a reason.
pub fn subkey_number(key: &[u8], n: u32, out: &mut [u8]) -> u32 {
    // SAFETY: pointers with the lengths of their slices; `out`, which is lent for
    // writing, overlaps no other slice.
    unsafe { gordzila_subkey(key.as_ptr(), key.len(), n, out.as_mut_ptr(), out.len()) }
}

/// The number that `gordzila_holder_make` answers: 0, or that of a reason.
pub fn holder_make_number(key: &[u8], out: &mut [u8]) -> u32 {
    // SAFETY: pointers with the lengths of their slices; `out`, which is lent for
    // writing, overlaps no other slice.
    unsafe { gordzila_holder_make(key.as_ptr(), key.len(), out.as_mut_ptr(), out.len()) }
}

/// The number that `gordzila_holder_forward` answers: 0, or that of a reason.
pub fn holder_forward_number(holder: &mut [u8]) -> u32 {
    // SAFETY: the pointer with the length of its slice, which is lent for writing.
    unsafe { gordzila_holder_forward(holder.as_mut_ptr(), holder.len()) }
}

/// The number that `gordzila_holder_back` answers: 0, or that of a reason.
pub fn holder_back_number(holder: &mut [u8]) -> u32 {
    // SAFETY: the pointer with the length of its slice, which is lent for writing.
    unsafe { gordzila_holder_back(holder.as_mut_ptr(), holder.len()) }
}

/// The number that `gordzila_holder_walk` answers: that of a reason, or, where the
/// holder walked, its steps plus 1,000 forward or 2,000 back.
pub fn holder_walk_number(holder: &mut [u8], n: u32) -> u32 {
    // SAFETY: the pointer with the length of its slice, which is lent for writing.
    unsafe { gordzila_holder_walk(holder.as_mut_ptr(), holder.len(), n) }
}

/// The number that `gordzila_holder_subkey` answers: 0, or that of a reason.
pub fn holder_subkey_number(holder: &[u8], out: &mut [u8]) -> u32 {
    // SAFETY: pointers with the lengths of their slices; `out`, which is lent for
    // writing, overlaps no other slice.
    unsafe { gordzila_holder_subkey(holder.as_ptr(), holder.len(), out.as_mut_ptr(), out.len()) }
}
