//! What the independent program computes: lists, blocks, stages. Results are kept, because it is
//! slow.

use std::collections::HashMap;

use curupira_reference::cipher::{decrypt_with, decryption_keys, encrypt_with};
use curupira_reference::error::Error;
use curupira_reference::matrix::{Matrix, State};
use curupira_reference::schedule::{cipher_key, key_of_stage, key_stage, round_subkeys};

use crate::holders;

/// The bytes of a stage as the library gives it: those of the key, then zeros.
const STAGE_BYTES: usize = 24;

/// Whether a block is enciphered or deciphered.
#[derive(Clone, Copy, Debug, PartialEq, Eq, Hash)]
pub enum Way {
    Encipher,
    Decipher,
}

/// The question of a block: the way, the key, the rounds, the block.
type Question = (Way, Vec<u8>, u32, Vec<u8>);

/// The independent program, with what it was asked before. Every key that it is given has 12, 18 or
/// 24 bytes, every round count and stage is allowed for the key, every block has 12 bytes, and every
/// holder is whole; anything else is a mistake in this package, and it panics.
#[derive(Default)]
pub struct Oracle {
    subkeys: HashMap<Vec<u8>, Vec<State>>,
    blocks: HashMap<Question, Vec<u8>>,
    /// The keys of the holders that were made here.
    keys: HashMap<Vec<u8>, Vec<u8>>,
}

impl Oracle {
    /// An oracle that was asked nothing yet.
    pub fn new() -> Self {
        Oracle::default()
    }

    /// A block enciphered, or deciphered by undoing every map of enciphering.
    pub fn block(&mut self, way: Way, key: &[u8], rounds: u32, block: &[u8]) -> Vec<u8> {
        let question = (way, key.to_vec(), rounds, block.to_vec());
        if let Some(known) = self.blocks.get(&question) {
            return known.clone();
        }
        let subkeys = self.first_subkeys(key, rounds);
        let state = state_of(block);
        let result = match way {
            Way::Encipher => encrypt_with(subkeys, &state),
            Way::Decipher => decrypt_with(subkeys, &state),
        };
        let result = sound(result).to_bytes();
        self.blocks.insert(question, result.clone());
        result
    }

    /// A block enciphered, of which it is known from then on what it deciphers to. That spares the
    /// slowest work, the undoing of enciphering.
    pub fn made_of(&mut self, key: &[u8], rounds: u32, plain: &[u8]) -> Vec<u8> {
        let block = self.block(Way::Encipher, key, rounds, plain);
        let question = (Way::Decipher, key.to_vec(), rounds, block.clone());
        self.blocks.insert(question, plain.to_vec());
        block
    }

    /// The prepared list for one way: the subkeys, or the decryption keys of the paper's Theorem 1.
    pub fn list(&mut self, way: Way, key: &[u8], rounds: u32) -> Vec<u8> {
        let subkeys = self.first_subkeys(key, rounds);
        match way {
            Way::Encipher => bytes_of(subkeys),
            Way::Decipher => bytes_of(&sound(decryption_keys(subkeys))),
        }
    }

    /// What the engine makes of a block over any list.
    pub fn run(list: &[u8], block: &[u8]) -> Vec<u8> {
        let subkeys: Vec<State> = list.chunks(12).map(state_of).collect();
        sound(encrypt_with(&subkeys, &state_of(block))).to_bytes()
    }

    /// The 24 bytes of a key's stage.
    pub fn stage(key: &[u8], stage: u32) -> Vec<u8> {
        let mut bytes = match key.len() {
            12 => stage_bytes::<4>(key, stage),
            18 => stage_bytes::<6>(key, stage),
            _ => stage_bytes::<8>(key, stage),
        };
        bytes.resize(STAGE_BYTES, 0);
        bytes
    }

    /// The subkey of a key's stage.
    pub fn subkey(&mut self, key: &[u8], stage: u32) -> Vec<u8> {
        self.subkeys(key)[stage as usize].to_bytes()
    }

    /// The 26 bytes of a holder of a key at a stage.
    pub fn holder(&mut self, key: &[u8], stage: u32) -> Vec<u8> {
        let holder = holders::bytes(key.len(), stage, &Oracle::stage(key, stage));
        self.keys.insert(holder.clone(), key.to_vec());
        holder
    }

    /// The key of a holder: the one that it was made of here, or else the one that has the holder's
    /// bytes at its stage. There is one, whatever the bytes are.
    pub fn key_held(&self, holder: &[u8]) -> Vec<u8> {
        let known = self.keys.get(holder).cloned();
        known.unwrap_or_else(|| {
            let (stage, number) = (holders::stage(holder), holders::number(holder));
            match stage.len() {
                12 => key_bytes::<4>(stage, number),
                18 => key_bytes::<6>(stage, number),
                _ => key_bytes::<8>(stage, number),
            }
        })
    }

    /// The subkeys 0 to `rounds` of a key.
    fn first_subkeys(&mut self, key: &[u8], rounds: u32) -> &[State] {
        &self.subkeys(key)[..=rounds as usize]
    }

    /// The subkeys of all stages of a key.
    fn subkeys(&mut self, key: &[u8]) -> &[State] {
        self.subkeys
            .entry(key.to_vec())
            .or_insert_with(|| sound(round_subkeys(key, key.len() - 1)))
    }
}

/// What the independent program answers to a question that it has to answer.
fn sound<T>(answer: Result<T, Error>) -> T {
    answer.unwrap_or_else(|error| panic!("the independent program refuses: {error}"))
}

fn state_of(block: &[u8]) -> State {
    Matrix::from_bytes(block).expect("12 bytes are a state")
}

fn bytes_of(list: &[State]) -> Vec<u8> {
    list.iter().flat_map(State::to_bytes).collect()
}

fn stage_bytes<const N: usize>(key: &[u8], stage: u32) -> Vec<u8> {
    key_stage(&sound(cipher_key::<N>(key)), stage as usize).to_bytes()
}

/// The key of a stage: the steps that lead from it to the stage are undone.
fn key_bytes<const N: usize>(stage: &[u8], number: u32) -> Vec<u8> {
    let stage: Matrix<N> = Matrix::from_bytes(stage).expect("a stage has its key's length");
    key_of_stage(&stage, number as usize).to_bytes()
}
