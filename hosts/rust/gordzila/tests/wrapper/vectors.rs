//! The cipher, against the stored output of the independent program.

use crate::{block_of, bytes_of, number_of, repository_file};
use gordzila::{
    decipher, encipher, prepare_deciphering, prepare_enciphering, run, stage, subkey, Reason,
};

#[test]
fn blocks_are_those_of_the_independent_program() {
    let mut compared = 0;
    for line in repository_file("crates/block_vectors/stdout").lines() {
        let fields: Vec<&str> = line.split(' ').collect();
        match fields[..] {
            ["encrypt", key, rounds, plain, cipher] => {
                compare_both_ways(&bytes_of(key), number_of(rounds), plain, cipher)
            }
            ["decrypt", key, rounds, cipher, plain] => {
                compare_both_ways(&bytes_of(key), number_of(rounds), plain, cipher)
            }
            ["rounds", _, list, plain, cipher] => {
                assert_eq!(run(&bytes_of(list), &block_of(plain)), Ok(block_of(cipher)))
            }
            _ => panic!("{line}"),
        }
        compared += 1;
    }
    assert_eq!(compared, 440);
}

/// Both directions, by the cipher and by the engine over a prepared list.
fn compare_both_ways(key: &[u8], rounds: u32, plain: &str, cipher: &str) {
    let (plain, cipher) = (block_of(plain), block_of(cipher));
    assert_eq!(encipher(key, rounds, &plain), Ok(cipher));
    assert_eq!(decipher(key, rounds, &cipher), Ok(plain));
    let there = prepare_enciphering(key, rounds).unwrap();
    let back = prepare_deciphering(key, rounds).unwrap();
    let length = 12 * (rounds as usize + 1);
    assert_eq!((there.len(), back.len()), (length, length));
    assert_eq!(run(&there, &plain), Ok(cipher));
    assert_eq!(run(&back, &cipher), Ok(plain));
}

#[test]
fn stages_and_subkeys_are_those_of_the_independent_program() {
    let mut key = Vec::new();
    let mut compared = 0;
    for line in repository_file("crates/route_log/stdout").lines() {
        let fields: Vec<&str> = line.split(' ').collect();
        match fields[..] {
            ["route", new] => key = bytes_of(new),
            ["subkey", "0", expected, place] => {
                assert_eq!(subkey(&key, number_of(place)), Ok(block_of(expected)))
            }
            ["straight", "0", _, place, expected] => {
                let given = stage(&key, number_of(place)).unwrap();
                assert_eq!(given[..], bytes_of(expected)[..]);
            }
            _ => continue,
        }
        compared += 1;
    }
    assert_eq!(compared, 12 + 274 + 12);
}

#[test]
fn the_subkeys_of_all_stages_are_the_list_of_all_rounds() {
    for length in [12, 18, 24] {
        let key: Vec<u8> = (0..length).collect();
        let list = prepare_enciphering(&key, u32::from(length) - 1).unwrap();
        for (n, expected) in (0..).zip(list.chunks(12)) {
            assert_eq!(subkey(&key, n).unwrap()[..], *expected);
            let given = stage(&key, n).unwrap();
            assert!(given[key.len()..].iter().all(|&byte| byte == 0));
        }
        let past = u32::from(length);
        assert_eq!(stage(&key, past), Err(Reason::StageOrList));
        assert_eq!(subkey(&key, past), Err(Reason::StageOrList));
    }
}
