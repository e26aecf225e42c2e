//! The comparison of the implementations, before anything is timed.

mod checks;
mod pages;
mod queues;
mod refusals;
mod stages;

use curupira_reference::cipher::{allowed_rounds, decrypt, decryption_keys, encrypt, encrypt_with};
use curupira_reference::error::Error;
use curupira_reference::generator::Generator;
use curupira_reference::matrix::{Matrix, State};
use curupira_reference::schedule::round_subkeys;

use crate::interface::{baselines, Interface, LIBRARY};
use crate::others::{self, Other, PAGE_BYTES};

const SEED: u64 = 1;

const KEY_LENGTHS: [usize; 3] = [12, 18, 24];

/// The keys and blocks for each key length and number of rounds.
const INPUTS: usize = 512;

/// One in so many goes to the independent program too, which is slow.
const INDEPENDENT_STEP: usize = 8;

/// What an output holds before a call. Bytes that a call must not touch have to
/// keep it.
const UNTOUCHED: u8 = 0xA5;

/// The number that a call answers, and its whole output.
type Answer = (u32, Vec<u8>);

/// How many inputs there were, and how many of them went to the independent
/// program too.
#[derive(Default)]
struct Tally {
    inputs: usize,
    independent: usize,
}

/// Compares the implementations. An error says where they differ.
pub fn check() -> Result<(), String> {
    let mut generator = Generator::new(SEED);
    let keys = check_keys(&mut generator)?;
    let lists = check_lists(&mut generator)?;
    let refusals = refusals::check(&mut generator)?;
    let (grants, opened) = checks::check(&mut generator)?;
    let (queues, queued, opening) = queues::check(&mut generator)?;
    let (sheets, opening_pages) = pages::check(&mut generator)?;
    let (stages, walked) = stages::check(&mut generator)?;
    let ciphers = check_others(&mut generator)?;
    println!("agreement of the library and all C baselines on");
    print_tally("keys and blocks", &keys);
    print_tally("arbitrary lists", &lists);
    print_tally("calls with right and wrong lengths and numbers", &refusals);
    print_tally(&format!("grants, of which {opened} open"), &grants);
    let answered = format!("queues, with {queued} grants, of which {opening} open");
    print_tally(&answered, &queues);
    let sealed = format!("calls on pages, in which {opening_pages} pages open");
    print_tally(&sealed, &sheets);
    let stepped = format!("calls on key stages, in which {walked} holders are walked");
    print_tally(&stepped, &stages);
    if ciphers > 0 {
        println!("each cipher of libtomcrypt undoes what it does, and passes its own test");
    }
    Ok(())
}

fn print_tally(what: &str, tally: &Tally) {
    let Tally {
        inputs,
        independent,
    } = tally;
    println!("  {inputs:>7} {what}; the independent program on {independent} of them");
}

/// Random keys and blocks for all sizes that are allowed.
fn check_keys(generator: &mut Generator) -> Result<Tally, String> {
    let mut tally = Tally::default();
    for key_length in KEY_LENGTHS {
        for rounds in allowed_rounds(key_length).map_err(text)? {
            for _ in 0..INPUTS {
                let key = generator.bytes(key_length);
                let block = generator.bytes(12);
                check_key(&key, rounds, &block, &mut tally)?;
            }
        }
    }
    Ok(tally)
}

fn check_key(key: &[u8], rounds: usize, block: &[u8], tally: &mut Tally) -> Result<(), String> {
    let what = format!("key {key:02x?}, {rounds} rounds, block {block:02x?}");
    let library = same_in_c(&what, |one| answers(one, key, rounds, block))?;
    if tally.inputs % INDEPENDENT_STEP == 0 {
        let independent = independent_answers(key, rounds, block).map_err(text)?;
        same(&what, "independent Rust", &library, &independent)?;
        tally.independent += 1;
    }
    tally.inputs += 1;
    Ok(())
}

/// Lists that come from no key, of every length that is allowed.
fn check_lists(generator: &mut Generator) -> Result<Tally, String> {
    let mut tally = Tally::default();
    for subkeys in 11..=24 {
        for _ in 0..INPUTS / INDEPENDENT_STEP {
            let list = generator.bytes(12 * subkeys);
            let block = generator.bytes(12);
            let what = format!("list {list:02x?}, block {block:02x?}");
            let library = same_in_c(&what, |one| answer(16, |out| one.run(&list, &block, out)))?;
            let states = list.chunks(12).map(state_of).collect::<Result<Vec<_>, _>>();
            let independent = states
                .and_then(|states| encrypt_with(&states, &state_of(&block)?))
                .map_err(text)?;
            let independent = done(&independent.to_bytes(), 16);
            same(&what, "independent Rust", &library, &independent)?;
            tally.inputs += 1;
            tally.independent += 1;
        }
    }
    Ok(tally)
}

/// The ciphers of libtomcrypt, each against itself and the test that it has.
fn check_others(generator: &mut Generator) -> Result<usize, String> {
    let ciphers = others::ciphers(12)
        .into_iter()
        .chain(others::ciphers(24))
        .collect::<Vec<_>>();
    for cipher in &ciphers {
        same(&cipher.name, "its own test", &true, &cipher.passes)?;
        for _ in 0..INPUTS {
            let block = generator.bytes(cipher.block_bytes);
            let (mut enciphered, mut deciphered) = (block.clone(), block.clone());
            cipher.encipher(&block, &mut enciphered);
            cipher.decipher(&enciphered, &mut deciphered);
            same(&cipher.name, "undone", &block, &deciphered)?;
        }
        check_other_page(cipher, generator)?;
    }
    Ok(ciphers.len())
}

/// A page of a cipher of libtomcrypt, opened as it is and with a byte changed.
fn check_other_page(cipher: &Other, generator: &mut Generator) -> Result<(), String> {
    let page = [(); PAGE_BYTES].map(|()| generator.byte());
    let (mut sealed, mut opened) = ([0; 528], [0; PAGE_BYTES]);
    let numbers = [
        cipher.seal(&page, &mut sealed),
        cipher.open(&sealed, &mut opened),
    ];
    same(&cipher.name, "sealed and opened", &[0, 0], &numbers)?;
    same(&cipher.name, "undone", &page, &opened)?;
    sealed[100] ^= 1;
    let refused = cipher.open(&sealed, &mut opened) != 0;
    same(&cipher.name, "a page changed", &true, &refused)
}

/// The answers of all calls to one key and block: enciphering, deciphering, the
/// two lists, and the engine over each list.
fn answers(one: &Interface, key: &[u8], rounds: usize, block: &[u8]) -> [Answer; 6] {
    let list_length = 12 * (rounds + 1);
    let rounds = rounds as u32;
    let enciphering = answer(list_length, |out| one.prepare_enciphering(key, rounds, out));
    let deciphering = answer(list_length, |out| one.prepare_deciphering(key, rounds, out));
    let over_enciphering = answer(16, |out| one.run(&enciphering.1, block, out));
    let over_deciphering = answer(16, |out| one.run(&deciphering.1, block, out));
    [
        answer(16, |out| one.encipher(key, rounds, block, out)),
        answer(16, |out| one.decipher(key, rounds, block, out)),
        enciphering,
        deciphering,
        over_enciphering,
        over_deciphering,
    ]
}

/// What the independent program gives for `answers`.
fn independent_answers(key: &[u8], rounds: usize, block: &[u8]) -> Result<[Answer; 6], Error> {
    let state = state_of(block)?;
    let enciphering = round_subkeys(key, rounds)?;
    let deciphering = decryption_keys(&enciphering)?;
    let list_length = 12 * (rounds + 1);
    let over_enciphering = encrypt_with(&enciphering, &state)?.to_bytes();
    let over_deciphering = encrypt_with(&deciphering, &state)?.to_bytes();
    Ok([
        done(&encrypt(key, rounds, block)?, 16),
        done(&decrypt(key, rounds, block)?, 16),
        done(&bytes_of(&enciphering), list_length),
        done(&bytes_of(&deciphering), list_length),
        done(&over_enciphering, 16),
        done(&over_deciphering, 16),
    ])
}

fn state_of(bytes: &[u8]) -> Result<State, Error> {
    Matrix::from_bytes(bytes).ok_or(Error::BlockLength(bytes.len()))
}

fn bytes_of(states: &[State]) -> Vec<u8> {
    states.iter().flat_map(State::to_bytes).collect()
}

/// Makes a call with an output of this length.
fn answer(out_length: usize, call: impl FnOnce(&mut [u8]) -> u32) -> Answer {
    let mut out = vec![UNTOUCHED; out_length];
    let number = call(&mut out);
    (number, out)
}

/// The answer of a call that writes these bytes to an output of this length.
fn done(bytes: &[u8], out_length: usize) -> Answer {
    let mut out = vec![UNTOUCHED; out_length];
    out[..bytes.len()].copy_from_slice(bytes);
    (0, out)
}

/// The answer of a call that refuses with a number.
fn refused(number: u32, out_length: usize) -> Answer {
    (number, vec![UNTOUCHED; out_length])
}

/// What the library answers, if every C baseline answers the same.
fn same_in_c<T: PartialEq + std::fmt::Debug>(
    what: &str,
    ask: impl Fn(&Interface) -> T,
) -> Result<T, String> {
    let library = ask(&LIBRARY);
    for baseline in baselines() {
        same(what, baseline.name, &library, &ask(&baseline.interface))?;
    }
    Ok(library)
}

/// An error if the library and another implementation differ.
fn same<T: PartialEq + std::fmt::Debug>(
    what: &str,
    who: &str,
    library: &T,
    other: &T,
) -> Result<(), String> {
    if library == other {
        Ok(())
    } else {
        Err(format!("{what}: {library:02x?}; {who}: {other:02x?}"))
    }
}

fn text(error: Error) -> String {
    error.to_string()
}
