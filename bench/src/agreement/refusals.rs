//! Calls with right and wrong lengths and numbers of rounds, most of which are
//! refused.

use curupira_reference::cipher::encrypt;
use curupira_reference::generator::Generator;

use super::{answer, same, same_in_c, Tally};
use crate::question::Question;

/// Lengths of blocks and outputs.
const SHORT: [usize; 6] = [0, 1, 11, 12, 13, 24];

/// Numbers of rounds.
fn rounds() -> impl Iterator<Item = u32> {
    (0..=32).chain([256, 266, 65_546, u32::MAX])
}

pub fn check(generator: &mut Generator) -> Result<Tally, String> {
    let bytes = generator.bytes(2000);
    let mut tally = Tally::default();
    for key_length in 0..=32 {
        let key = &bytes[..key_length];
        for rounds in rounds() {
            check_prepare(key, rounds, &mut tally)?;
            for block_length in SHORT {
                check_cipher(key, rounds, &bytes[32..32 + block_length], &mut tally)?;
            }
            check_check(key, rounds, &bytes, &mut tally)?;
            check_queue(key, rounds, &bytes, &mut tally)?;
        }
    }
    check_run(&bytes, &mut tally)?;
    Ok(tally)
}

fn check_prepare(key: &[u8], rounds: u32, tally: &mut Tally) -> Result<(), String> {
    let full = 12 * (rounds as usize % 32 + 1);
    for length in [0, full - 1, full, full + 1] {
        let what = format!(
            "prepare: key of {} bytes, {rounds} rounds, output of {length}",
            key.len()
        );
        same_in_c(&what, |one| {
            [
                answer(length, |out| one.prepare_enciphering(key, rounds, out)),
                answer(length, |out| one.prepare_deciphering(key, rounds, out)),
            ]
        })?;
        tally.inputs += 2;
    }
    Ok(())
}

fn check_cipher(key: &[u8], rounds: u32, block: &[u8], tally: &mut Tally) -> Result<(), String> {
    let refused = encrypt(key, rounds as usize, block).is_err();
    for length in SHORT {
        let what = format!(
            "cipher: key of {} bytes, {rounds} rounds, block of {}, output of {length}",
            key.len(),
            block.len()
        );
        let library = same_in_c(&what, |one| {
            [
                answer(length, |out| one.encipher(key, rounds, block, out)),
                answer(length, |out| one.decipher(key, rounds, block, out)),
            ]
        })?;
        for (number, _) in library {
            let in_library = (1..=3).contains(&number);
            same(&what, "independent Rust", &in_library, &refused)?;
        }
        tally.inputs += 2;
        tally.independent += 2;
    }
    Ok(())
}

fn check_run(bytes: &[u8], tally: &mut Tally) -> Result<(), String> {
    for list_length in 0..=310 {
        let list = &bytes[..list_length];
        for block_length in SHORT {
            let block = &bytes[310..310 + block_length];
            for length in SHORT {
                let what = format!(
                    "run: list of {list_length} bytes, block of {block_length}, output of {length}"
                );
                same_in_c(&what, |one| answer(length, |out| one.run(list, block, out)))?;
                tally.inputs += 1;
            }
        }
    }
    Ok(())
}

fn check_check(key: &[u8], rounds: u32, bytes: &[u8], tally: &mut Tally) -> Result<(), String> {
    for roll_length in [0, 2, 400, 599, 600, 601] {
        for grant_length in [0, 11, 12, 13] {
            for right in [0, 1, 2, 3, 257, u32::MAX] {
                for size_block in [0, 1] {
                    let question = Question {
                        key: key.to_vec(),
                        rounds,
                        roll: bytes[..roll_length].to_vec(),
                        grants: bytes[620..620 + grant_length].to_vec(),
                        size_block,
                        right,
                    };
                    check_question(&question, tally)?;
                }
            }
        }
    }
    Ok(())
}

fn check_queue(key: &[u8], rounds: u32, bytes: &[u8], tally: &mut Tally) -> Result<(), String> {
    for roll_length in [0, 400, 599, 600, 601] {
        for grants_length in [0, 11, 12, 13, 767, 768, 769, 780] {
            for right in [0, 1, 2, 3, u32::MAX] {
                for size_block in [0, 1] {
                    let question = Question {
                        key: key.to_vec(),
                        rounds,
                        roll: bytes[..roll_length].to_vec(),
                        grants: bytes[620..620 + grants_length].to_vec(),
                        size_block,
                        right,
                    };
                    check_queue_outputs(&question, tally)?;
                }
            }
        }
    }
    Ok(())
}

fn check_queue_outputs(question: &Question, tally: &mut Tally) -> Result<(), String> {
    let what = described("queue", question);
    let lengths = [0, 1, 63, 64, 65];
    same_in_c(&what, |one| {
        lengths.map(|length| answer(length, |out| one.check_queue(question, out)))
    })?;
    tally.inputs += lengths.len();
    Ok(())
}

/// What is asked, by its lengths and numbers.
fn described(call: &str, question: &Question) -> String {
    format!(
        "{call}: key of {} bytes, {} rounds, roll of {}, grants of {}, size block {}, right {}",
        question.key.len(),
        question.rounds,
        question.roll.len(),
        question.grants.len(),
        question.size_block,
        question.right
    )
}

fn check_question(question: &Question, tally: &mut Tally) -> Result<(), String> {
    same_in_c(&described("check", question), |one| one.check(question))?;
    tally.inputs += 1;
    Ok(())
}
