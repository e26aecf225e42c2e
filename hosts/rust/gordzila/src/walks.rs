//! Ways, and what a walk answers where it is made.

use std::fmt;

/// The way that a key holder goes from stage to stage.
#[derive(Clone, Copy, Debug, PartialEq, Eq)]
pub enum Way {
    /// To the next stage, and from the last to stage 0.
    Forward,
    /// To the stage before, and from stage 0 to the last.
    Back,
}

/// The way in a word: `forward` or `back`.
impl fmt::Display for Way {
    fn fmt(&self, formatter: &mut fmt::Formatter<'_>) -> fmt::Result {
        formatter.pad(match self {
            Way::Forward => "forward",
            Way::Back => "back",
        })
    }
}

/// How a walk went.
#[derive(Clone, Copy, Debug, PartialEq, Eq)]
pub struct Walked {
    /// How many steps it had, at most half as many as the key has bytes.
    pub steps: u32,
    /// The way that they went; forward where there was none.
    pub way: Way,
}

#[cfg(test)]
mod tests {
    use super::Way;

    #[test]
    fn a_way_has_a_word() {
        assert_eq!(Way::Forward.to_string(), "forward");
        assert_eq!(Way::Back.to_string(), "back");
    }
}
