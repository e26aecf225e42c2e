//! Four ciphers of libtomcrypt, called through its own functions. Without
//! libtomcrypt the list of them is empty.
#![cfg_attr(not(bench_tomcrypt), allow(dead_code))]

use std::ffi::c_int;

/// libtomcrypt's type for a prepared key.
#[repr(C)]
pub struct SymmetricKey {
    _opaque: [u8; 0],
}

type BlockCall = unsafe extern "C" fn(*const u8, *mut u8, *mut SymmetricKey) -> c_int;

type PageCall = unsafe extern "C" fn(c_int, *const u8, usize, *const u8, *mut u8) -> c_int;

/// The bytes of a page, and the most that its OMAC has, as in others.h.
pub const PAGE_BYTES: usize = 512;
const LONGEST_MAC: usize = 16;

/// A page with room for its OMAC.
pub type SealedPage = [u8; PAGE_BYTES + LONGEST_MAC];

#[cfg(bench_tomcrypt)]
extern "C" {
    fn others_version() -> *const std::ffi::c_char;
    fn others_block_bytes(which: u32) -> usize;
    fn others_prepare(which: u32, key: *const u8, key_length: usize) -> *mut SymmetricKey;
    fn others_release(which: u32, prepared: *mut SymmetricKey);
    fn others_passes(which: u32) -> c_int;
    fn others_encipher(which: u32) -> BlockCall;
    fn others_decipher(which: u32) -> BlockCall;
    fn others_register(which: u32) -> c_int;
    fn others_seal(
        registered: c_int,
        keys: *const u8,
        key_length: usize,
        page: *const u8,
        out: *mut u8,
    ) -> c_int;
    fn others_open(
        registered: c_int,
        keys: *const u8,
        key_length: usize,
        page: *const u8,
        out: *mut u8,
    ) -> c_int;
}

/// A cipher with a prepared key.
pub struct Other {
    pub name: String,
    pub block_bytes: usize,
    /// Whether it passes the test that libtomcrypt has for it.
    pub passes: bool,
    which: u32,
    prepared: *mut SymmetricKey,
    encipher: BlockCall,
    decipher: BlockCall,
    /// The number under which libtomcrypt has the cipher for its modes.
    registered: c_int,
    /// The two keys for a page, one after the other.
    keys: Vec<u8>,
    seal: PageCall,
    open: PageCall,
}

impl Other {
    #[inline(always)]
    pub fn encipher(&self, block: &[u8], out: &mut [u8]) -> c_int {
        self.call(self.encipher, block, out)
    }

    #[inline(always)]
    pub fn decipher(&self, block: &[u8], out: &mut [u8]) -> c_int {
        self.call(self.decipher, block, out)
    }

    // The lengths are asserted, and the prepared key lives as long as `self`.
    #[inline(always)]
    fn call(&self, call: BlockCall, block: &[u8], out: &mut [u8]) -> c_int {
        assert!(block.len() == self.block_bytes && out.len() == self.block_bytes);
        unsafe { call(block.as_ptr(), out.as_mut_ptr(), self.prepared) }
    }

    /// A page in CBC mode, and its OMAC under another key.
    #[inline(always)]
    pub fn seal(&self, page: &[u8; PAGE_BYTES], out: &mut SealedPage) -> c_int {
        self.call_page(self.seal, page, out)
    }

    /// The same undone, if the OMAC is right.
    #[inline(always)]
    pub fn open(&self, page: &SealedPage, out: &mut [u8; PAGE_BYTES]) -> c_int {
        self.call_page(self.open, page, out)
    }

    // A sealed page is read or written with its OMAC, another without; both have their
    // lengths by their types. The keys are two of the same length.
    #[inline(always)]
    fn call_page(&self, call: PageCall, page: &[u8], out: &mut [u8]) -> c_int {
        let (keys, key_length) = (self.keys.as_ptr(), self.keys.len() / 2);
        let (page, out) = (page.as_ptr(), out.as_mut_ptr());
        unsafe { call(self.registered, keys, key_length, page, out) }
    }
}

/// The version of libtomcrypt, or that it is missing.
#[cfg(bench_tomcrypt)]
pub fn version() -> String {
    // The text is constant and ends with a zero.
    let version = unsafe { std::ffi::CStr::from_ptr(others_version()) };
    format!("{}, as installed", version.to_string_lossy())
}

#[cfg(not(bench_tomcrypt))]
pub fn version() -> String {
    "libtomcrypt-dev is not installed: those rows are left out".to_string()
}

/// The ciphers. Where one has keys of several lengths, it is the least that is not
/// shorter than ours.
#[cfg(bench_tomcrypt)]
pub fn ciphers(key_length: usize) -> Vec<Other> {
    let long = if key_length > 16 { 24 } else { 16 };
    let (skipjack, khazad, anubis, aes) = (0, 1, 2, 3);
    vec![
        prepare("Skipjack", skipjack, 10),
        prepare("Khazad", khazad, 16),
        prepare("Anubis", anubis, long),
        prepare("AES", aes, long),
    ]
}

#[cfg(not(bench_tomcrypt))]
pub fn ciphers(_key_length: usize) -> Vec<Other> {
    Vec::new()
}

#[cfg(bench_tomcrypt)]
fn prepare(name: &str, which: u32, key_length: usize) -> Other {
    let keys = curupira_reference::generator::Generator::new(1).bytes(2 * key_length);
    let key = &keys[..key_length];
    // The number is one of four, and the key is lent with its length.
    unsafe {
        let prepared = others_prepare(which, key.as_ptr(), key.len());
        assert!(!prepared.is_null(), "{name}: the key cannot be prepared");
        Other {
            name: format!("{name}, {}-bit key", 8 * key_length),
            block_bytes: others_block_bytes(which),
            passes: others_passes(which) != 0,
            which,
            prepared,
            encipher: others_encipher(which),
            decipher: others_decipher(which),
            registered: others_register(which),
            keys,
            seal: others_seal,
            open: others_open,
        }
    }
}

impl Drop for Other {
    fn drop(&mut self) {
        // The prepared key is given back once, to the cipher that it came from.
        #[cfg(bench_tomcrypt)]
        unsafe {
            others_release(self.which, self.prepared);
        }
    }
}
