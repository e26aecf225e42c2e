//! Bytes as hexadecimal digits.

/// The bytes that digits stand for, two digits each, upper or lower case, with nothing
/// between them; or what is wrong. The message does not repeat the digits: they may be
/// a key.
pub fn bytes_of(digits: &[u8]) -> Result<Vec<u8>, String> {
    let values = digits
        .iter()
        .enumerate()
        .map(|(index, &digit)| value_of(digit).ok_or(index))
        .collect::<Result<Vec<u8>, usize>>()
        .map_err(|index| format!("character {} is not a hexadecimal digit", index + 1))?;
    if values.len() % 2 == 1 {
        return Err(format!(
            "{} hexadecimal digits, an odd number",
            values.len()
        ));
    }
    Ok(values
        .chunks(2)
        .map(|pair| 16 * pair[0] + pair[1])
        .collect())
}

/// The digits of bytes, in lower case.
pub fn digits_of(bytes: &[u8]) -> String {
    bytes.iter().map(|byte| format!("{byte:02x}")).collect()
}

fn value_of(digit: u8) -> Option<u8> {
    match digit {
        b'0'..=b'9' => Some(digit - b'0'),
        b'a'..=b'f' => Some(digit - b'a' + 10),
        b'A'..=b'F' => Some(digit - b'A' + 10),
        _ => None,
    }
}

#[cfg(test)]
mod tests {
    use super::{bytes_of, digits_of};

    #[test]
    fn every_byte_comes_back_from_its_digits() {
        let all: Vec<u8> = (0..=255).collect();
        assert_eq!(bytes_of(digits_of(&all).as_bytes()), Ok(all.clone()));
        let upper = digits_of(&all).to_uppercase();
        assert_eq!(bytes_of(upper.as_bytes()), Ok(all));
    }

    #[test]
    fn no_digits_are_no_bytes() {
        assert_eq!(bytes_of(b""), Ok(vec![]));
        assert_eq!(digits_of(&[]), "");
    }

    #[test]
    fn digits_stand_high_half_first() {
        assert_eq!(bytes_of(b"0a1B"), Ok(vec![0x0a, 0x1b]));
        assert_eq!(digits_of(&[0x0a, 0x1b]), "0a1b");
    }

    #[test]
    fn anything_else_is_refused() {
        for wrong in ["0", "012", "0g", "0x00", "00 11", "00:11", "+1", "é"] {
            assert!(bytes_of(wrong.as_bytes()).is_err(), "{wrong}");
        }
    }
}
