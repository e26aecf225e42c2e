//! Rights, and what a check answers where a grant opens.

use std::fmt;

/// What a grant lets its contractor do with a size block, what a check asks for, and what
/// the roll lets a contractor do at most. A grant for overwriting also opens its size block
/// for reading; one for reading does not open it for overwriting.
#[derive(Clone, Copy, Debug, PartialEq, Eq)]
pub enum Right {
    /// The right to read, 1.
    Reading = 1,
    /// The right to overwrite, 2; in a grant it includes reading.
    Overwriting = 2,
}

impl Right {
    /// The number of the right.
    pub fn number(self) -> u32 {
        self as u32
    }

    /// The right that has a number, if there is one.
    ///
    /// ```
    /// use gordzila::Right;
    ///
    /// assert_eq!(Right::from_number(2), Some(Right::Overwriting));
    /// assert_eq!(Right::from_number(3), None);
    /// ```
    pub fn from_number(number: u32) -> Option<Right> {
        match number {
            1 => Some(Right::Reading),
            2 => Some(Right::Overwriting),
            _ => None,
        }
    }
}

/// The right in a word: `reading` or `overwriting`.
impl fmt::Display for Right {
    fn fmt(&self, formatter: &mut fmt::Formatter<'_>) -> fmt::Result {
        formatter.pad(match self {
            Right::Reading => "reading",
            Right::Overwriting => "overwriting",
        })
    }
}

/// What a check answers where a grant opens.
#[derive(Clone, Copy, Debug, PartialEq, Eq)]
pub struct Opened {
    /// The contractor to whom the grant was issued, 1 to 200.
    pub contractor: u32,
    /// The right that was asked for, and not the grant's: a grant for overwriting that is
    /// asked for reading has [`Right::Reading`] here.
    pub right: Right,
}

#[cfg(test)]
mod tests {
    use super::Right;

    #[test]
    fn every_right_is_found_by_its_number() {
        assert_eq!(Right::Reading.number(), 1);
        assert_eq!(Right::Overwriting.number(), 2);
        for right in [Right::Reading, Right::Overwriting] {
            assert_eq!(Right::from_number(right.number()), Some(right));
        }
    }

    #[test]
    fn no_other_number_is_a_right() {
        for number in [0, 3, 257, 258, u32::MAX] {
            assert_eq!(Right::from_number(number), None, "{number}");
        }
    }

    #[test]
    fn a_right_has_a_word() {
        assert_eq!(Right::Reading.to_string(), "reading");
        assert_eq!(Right::Overwriting.to_string(), "overwriting");
    }
}
