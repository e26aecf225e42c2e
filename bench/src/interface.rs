//! The C interface that the library and the C baselines share. All are called
//! through the same function pointers, so that a call costs the same.

use crate::page::Page;
use crate::question::Question;

type CipherCall =
    unsafe extern "C" fn(*const u8, usize, u32, *const u8, usize, *mut u8, usize) -> u32;

type PrepareCall = unsafe extern "C" fn(*const u8, usize, u32, *mut u8, usize) -> u32;

type RunCall = unsafe extern "C" fn(*const u8, usize, *const u8, usize, *mut u8, usize) -> u32;

type CheckCall = unsafe extern "C" fn(
    *const u8,
    usize,
    u32,
    *const u8,
    usize,
    *const u8,
    usize,
    u32,
    u32,
) -> u32;

type QueueCall = unsafe extern "C" fn(
    *const u8,
    usize,
    u32,
    *const u8,
    usize,
    *const u8,
    usize,
    u32,
    u32,
    *mut u8,
    usize,
) -> u32;

type SealCall = unsafe extern "C" fn(
    *const u8,
    usize,
    *const u8,
    usize,
    u32,
    u32,
    u16,
    *const u8,
    usize,
    *mut u8,
    usize,
    *mut u8,
    usize,
) -> u32;

type OpenCall = unsafe extern "C" fn(
    *const u8,
    usize,
    *const u8,
    usize,
    u32,
    *const u8,
    usize,
    *mut u8,
    usize,
    *mut u8,
    usize,
) -> u64;

type WalkCall = unsafe extern "C" fn(*mut u8, usize, u32) -> u32;

type StageCall = unsafe extern "C" fn(*const u8, usize, u32, *mut u8, usize) -> u32;

/// The eleven calls, in the order of `struct baseline` in baseline.h. Each answers 0,
/// or the number of a refusal, or, for a walk and for a check or a page that opens,
/// 1000 or more.
#[repr(C)]
#[derive(Clone, Copy)]
pub struct Interface {
    encipher: CipherCall,
    decipher: CipherCall,
    prepare_enciphering: PrepareCall,
    prepare_deciphering: PrepareCall,
    run: RunCall,
    check: CheckCall,
    check_queue: QueueCall,
    seal_page: SealCall,
    open_page: OpenCall,
    holder_walk: WalkCall,
    stage: StageCall,
}

extern "C" {
    fn gordzila_encipher(
        key: *const u8,
        key_length: usize,
        rounds: u32,
        block: *const u8,
        block_length: usize,
        out: *mut u8,
        out_length: usize,
    ) -> u32;
    fn gordzila_decipher(
        key: *const u8,
        key_length: usize,
        rounds: u32,
        block: *const u8,
        block_length: usize,
        out: *mut u8,
        out_length: usize,
    ) -> u32;
    fn gordzila_prepare_enciphering(
        key: *const u8,
        key_length: usize,
        rounds: u32,
        out: *mut u8,
        out_length: usize,
    ) -> u32;
    fn gordzila_prepare_deciphering(
        key: *const u8,
        key_length: usize,
        rounds: u32,
        out: *mut u8,
        out_length: usize,
    ) -> u32;
    fn gordzila_run(
        list: *const u8,
        list_length: usize,
        block: *const u8,
        block_length: usize,
        out: *mut u8,
        out_length: usize,
    ) -> u32;
    fn gordzila_check(
        key: *const u8,
        key_length: usize,
        rounds: u32,
        roll: *const u8,
        roll_length: usize,
        grant: *const u8,
        grant_length: usize,
        size_block: u32,
        right: u32,
    ) -> u32;
    fn gordzila_check_queue(
        key: *const u8,
        key_length: usize,
        rounds: u32,
        roll: *const u8,
        roll_length: usize,
        grants: *const u8,
        grants_length: usize,
        size_block: u32,
        right: u32,
        answers: *mut u8,
        answers_length: usize,
    ) -> u32;
    fn gordzila_seal_page(
        first_key: *const u8,
        first_key_length: usize,
        second_key: *const u8,
        second_key_length: usize,
        rounds: u32,
        size_block: u32,
        page_number: u16,
        payload: *const u8,
        payload_length: usize,
        scratch: *mut u8,
        scratch_length: usize,
        out: *mut u8,
        out_length: usize,
    ) -> u32;
    fn gordzila_open_page(
        first_key: *const u8,
        first_key_length: usize,
        second_key: *const u8,
        second_key_length: usize,
        rounds: u32,
        page: *const u8,
        page_length: usize,
        scratch: *mut u8,
        scratch_length: usize,
        out: *mut u8,
        out_length: usize,
    ) -> u64;
    fn gordzila_holder_walk(holder: *mut u8, holder_length: usize, n: u32) -> u32;
    fn gordzila_stage(
        key: *const u8,
        key_length: usize,
        n: u32,
        out: *mut u8,
        out_length: usize,
    ) -> u32;
}

pub const LIBRARY: Interface = Interface {
    encipher: gordzila_encipher,
    decipher: gordzila_decipher,
    prepare_enciphering: gordzila_prepare_enciphering,
    prepare_deciphering: gordzila_prepare_deciphering,
    run: gordzila_run,
    check: gordzila_check,
    check_queue: gordzila_check_queue,
    seal_page: gordzila_seal_page,
    open_page: gordzila_open_page,
    holder_walk: gordzila_holder_walk,
    stage: gordzila_stage,
};

// What the C files give out, once for every compiler and set of flags, and before.c
// for an earlier version of the library.
extern "C" {
    #[cfg(bench_before)]
    static library_before: Interface;
    static plain_c: Interface;
    static plain_scalar: Interface;
    static plain_words: Interface;
    #[cfg(bench_clang)]
    static plain_clang: Interface;
    #[cfg(bench_clang)]
    static plain_words_clang: Interface;
    static table_c: Interface;
    static table_scalar: Interface;
}

/// The names of the baselines that targets are set against. The first is always there.
pub const PLAIN: &str = "plain C";
pub const BEFORE: &str = "library before";

/// A C file under one compiler and one set of flags, or an earlier version of the
/// library.
pub struct Baseline {
    pub name: &'static str,
    pub interface: Interface,
}

/// The baselines. The first is the library before, if there is one, and the next is
/// plain C.
pub fn baselines() -> Vec<Baseline> {
    let one = |name, interface: &Interface| Baseline {
        name,
        interface: *interface,
    };
    // The structures are constant, and their calls have the types above.
    unsafe {
        vec![
            #[cfg(bench_before)]
            one(BEFORE, &library_before),
            one(PLAIN, &plain_c),
            one("plain C, no SLP", &plain_scalar),
            one("plain C, words", &plain_words),
            #[cfg(bench_clang)]
            one("plain C, clang", &plain_clang),
            #[cfg(bench_clang)]
            one("plain C, words, clang", &plain_words_clang),
            one("table C", &table_c),
            one("table C, no SLP", &table_scalar),
        ]
    }
}

// Every pointer below comes from a slice that is borrowed for the whole call,
// together with the length of that slice, and the calls keep no pointer.
impl Interface {
    #[inline(always)]
    pub fn encipher(&self, key: &[u8], rounds: u32, block: &[u8], out: &mut [u8]) -> u32 {
        call_cipher(self.encipher, key, rounds, block, out)
    }

    #[inline(always)]
    pub fn decipher(&self, key: &[u8], rounds: u32, block: &[u8], out: &mut [u8]) -> u32 {
        call_cipher(self.decipher, key, rounds, block, out)
    }

    #[inline(always)]
    pub fn prepare_enciphering(&self, key: &[u8], rounds: u32, out: &mut [u8]) -> u32 {
        call_prepare(self.prepare_enciphering, key, rounds, out)
    }

    #[inline(always)]
    pub fn prepare_deciphering(&self, key: &[u8], rounds: u32, out: &mut [u8]) -> u32 {
        call_prepare(self.prepare_deciphering, key, rounds, out)
    }

    #[inline(always)]
    pub fn run(&self, list: &[u8], block: &[u8], out: &mut [u8]) -> u32 {
        unsafe {
            (self.run)(
                list.as_ptr(),
                list.len(),
                block.as_ptr(),
                block.len(),
                out.as_mut_ptr(),
                out.len(),
            )
        }
    }

    /// A check of the grant that is asked about.
    #[inline(always)]
    pub fn check(&self, question: &Question) -> u32 {
        self.check_one(question, &question.grants)
    }

    /// The same of one grant, whichever the question has.
    #[inline(always)]
    pub fn check_one(&self, question: &Question, grant: &[u8]) -> u32 {
        unsafe {
            (self.check)(
                question.key.as_ptr(),
                question.key.len(),
                question.rounds,
                question.roll.as_ptr(),
                question.roll.len(),
                grant.as_ptr(),
                grant.len(),
                question.size_block,
                question.right,
            )
        }
    }

    /// A check of the grants that are asked about, as a queue.
    #[inline(always)]
    pub fn check_queue(&self, question: &Question, answers: &mut [u8]) -> u32 {
        unsafe {
            (self.check_queue)(
                question.key.as_ptr(),
                question.key.len(),
                question.rounds,
                question.roll.as_ptr(),
                question.roll.len(),
                question.grants.as_ptr(),
                question.grants.len(),
                question.size_block,
                question.right,
                answers.as_mut_ptr(),
                answers.len(),
            )
        }
    }

    /// The page of a payload.
    #[inline(always)]
    pub fn seal_page(&self, page: &Page, scratch: &mut [u8], out: &mut [u8]) -> u32 {
        unsafe {
            (self.seal_page)(
                page.first_key.as_ptr(),
                page.first_key.len(),
                page.second_key.as_ptr(),
                page.second_key.len(),
                page.rounds,
                page.size_block,
                page.page_number,
                page.bytes.as_ptr(),
                page.bytes.len(),
                scratch.as_mut_ptr(),
                scratch.len(),
                out.as_mut_ptr(),
                out.len(),
            )
        }
    }

    /// The payload of a page.
    #[inline(always)]
    pub fn open_page(&self, page: &Page, scratch: &mut [u8], out: &mut [u8]) -> u64 {
        unsafe {
            (self.open_page)(
                page.first_key.as_ptr(),
                page.first_key.len(),
                page.second_key.as_ptr(),
                page.second_key.len(),
                page.rounds,
                page.bytes.as_ptr(),
                page.bytes.len(),
                scratch.as_mut_ptr(),
                scratch.len(),
                out.as_mut_ptr(),
                out.len(),
            )
        }
    }

    /// A walk of a holder to stage n.
    #[inline(always)]
    pub fn holder_walk(&self, holder: &mut [u8], n: u32) -> u32 {
        unsafe { (self.holder_walk)(holder.as_mut_ptr(), holder.len(), n) }
    }

    /// Stage n, straight from the key.
    #[inline(always)]
    pub fn stage(&self, key: &[u8], n: u32, out: &mut [u8]) -> u32 {
        unsafe { (self.stage)(key.as_ptr(), key.len(), n, out.as_mut_ptr(), out.len()) }
    }
}

#[inline(always)]
fn call_cipher(call: CipherCall, key: &[u8], rounds: u32, block: &[u8], out: &mut [u8]) -> u32 {
    unsafe {
        call(
            key.as_ptr(),
            key.len(),
            rounds,
            block.as_ptr(),
            block.len(),
            out.as_mut_ptr(),
            out.len(),
        )
    }
}

#[inline(always)]
fn call_prepare(call: PrepareCall, key: &[u8], rounds: u32, out: &mut [u8]) -> u32 {
    unsafe { call(key.as_ptr(), key.len(), rounds, out.as_mut_ptr(), out.len()) }
}
