//! Makes the call of a case, and compares all that was lent with what it has to be.

use crate::case::{hex, Case};
use crate::expect::Effect;
use crate::lend::{Guarded, Library, Loan};
use crate::random::Random;

/// In what the library differs from what it has to do. Nothing if it does not.
pub fn differences(
    case: &Case,
    effect: &Effect,
    library: &Library<'_>,
    random: &mut Random,
) -> Vec<String> {
    let mut scratch = bytes_before(case.scratch, &effect.scratch, random);
    let mut out = bytes_before(case.out, &effect.written, random);
    let mut loan = Loan::new(case, &scratch, &out, random);
    let answer = loan.call(case, library);
    let mut found = Vec::new();
    if answer != effect.answer {
        found.push(format!(
            "answer is {answer}, but has to be {}",
            effect.answer
        ));
    }
    scratch[..effect.scratch.len()].copy_from_slice(&effect.scratch);
    out[..effect.written.len()].copy_from_slice(&effect.written);
    let parts: [(&str, &Guarded, &[u8]); 8] = [
        ("key", &loan.key, &case.key),
        ("second key", &loan.second_key, &case.second_key),
        ("roll", &loan.roll, &effect.roll),
        ("holder", &loan.holder, &effect.holder),
        ("list", &loan.list, &case.list),
        ("block, grants, payload or page", &loan.block, &case.block),
        ("scratch", &loan.scratch, &scratch),
        ("out", &loan.out, &out),
    ];
    for (name, guarded, right) in parts {
        compare_part(name, guarded, right, &mut found);
    }
    found
}

/// What stands in the scratch or in the output before the call: any bytes, but none that the call has
/// to leave or to write there.
fn bytes_before(length: usize, written: &[u8], random: &mut Random) -> Vec<u8> {
    let mut bytes = random.bytes(length);
    for (byte, right) in bytes.iter_mut().zip(written) {
        if byte == right {
            *byte = !*byte;
        }
    }
    bytes
}

/// Compares what was lent with what it has to be after the call, and looks at its guard bytes.
fn compare_part(name: &str, guarded: &Guarded, right: &[u8], found: &mut Vec<String>) {
    if guarded.content() != right {
        let content = hex(guarded.content());
        found.push(format!("{name} is {content}, but has to be {}", hex(right)));
    }
    if !guarded.guarded_before() {
        found.push(format!("bytes before {name} were written to"));
    }
    if !guarded.guarded_after() {
        found.push(format!("bytes after {name} were written to"));
    }
}
