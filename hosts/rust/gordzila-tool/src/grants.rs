//! Grants in a file or on standard input, one a line, as `issue` prints them.

use crate::failure::Failure;
use crate::options::{trimmed, GRANTS};
use crate::{hex, input};
use gordzila::BLOCK_BYTES;
use std::ffi::OsStr;

/// The longest text that is read. That is room for far more than the 64 grants of a queue,
/// so that the library refuses more.
const LONGEST_TEXT: usize = 65_536;

/// The bytes of the grants in a file or on standard input, one after the other.
pub fn read(name: &OsStr) -> Result<Vec<u8>, Failure> {
    let (shown, text) = (
        input::shown(name),
        input::read(GRANTS, name, LONGEST_TEXT + 1)?,
    );
    if text.len() > LONGEST_TEXT {
        let why = format!("more than {LONGEST_TEXT} bytes");
        return Err(Failure::file(GRANTS, shown, why));
    }
    bytes_of(&text).map_err(|why| Failure::file(GRANTS, shown, why))
}

/// The bytes of the grants in lines, or which line is none. Lines with nothing but white
/// space are left out, but count. The message does not repeat what stands in the line: a
/// grant opens for whoever has it.
fn bytes_of(text: &[u8]) -> Result<Vec<u8>, String> {
    let mut bytes = Vec::new();
    for (number, line) in (1..).zip(text.split(|&byte| byte == b'\n')) {
        let line = trimmed(line);
        if !line.is_empty() {
            bytes.extend(grant_of(line).map_err(|why| format!("line {number}: {why}"))?);
        }
    }
    Ok(bytes)
}

fn grant_of(line: &[u8]) -> Result<Vec<u8>, String> {
    let bytes = hex::bytes_of(line)?;
    if bytes.len() != BLOCK_BYTES {
        return Err(format!("{} bytes, and a grant has 12", bytes.len()));
    }
    Ok(bytes)
}

#[cfg(test)]
mod tests {
    use super::bytes_of;

    const A: &str = "00112233445566778899aabb";
    const B: &str = "FFEEDDCCBBAA998877665544";

    #[test]
    fn grants_stand_in_lines() {
        let (a, b) = (&[0x00, 0x11, 0x22, 0x33], &[0xff, 0xee, 0xdd, 0xcc]);
        for text in [
            format!("{A}\n{B}\n"),
            format!("{A}\n{B}"),
            format!("{A}\r\n{B}\r\n"),
            format!("\n \n  {A}\t\n\n{B} \n\n"),
        ] {
            let bytes = bytes_of(text.as_bytes()).unwrap();
            assert_eq!(
                (bytes.len(), &bytes[..4], &bytes[12..16]),
                (24, &a[..], &b[..])
            );
        }
    }

    #[test]
    fn nothing_is_no_grants() {
        for text in ["", "\n", " \r\n\n"] {
            assert_eq!(bytes_of(text.as_bytes()), Ok(vec![]));
        }
    }

    #[test]
    fn a_line_that_is_no_grant_is_named() {
        for wrong in [
            "0",
            "00",
            "é",
            &A[1..],
            &A[2..],
            &format!("{A}00"),
            &format!("{A} {B}"),
        ] {
            let why = bytes_of(format!("{A}\n\n{wrong}\n{A}").as_bytes()).unwrap_err();
            assert!(why.starts_with("line 3: "), "{why}");
            assert!(!why.contains(&A[4..8]), "{why}");
        }
    }
}
