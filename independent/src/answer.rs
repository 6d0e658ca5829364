//! RULES, Refusal numbers 3: one answer with three cases, and the line that each is printed as.

use std::fmt;

/// N is how many numbers a solution has beside its x: those of a state, or of a transfer, whose x is
/// z, those of a velocity.
pub enum Answer<const N: usize = 6> {
    Solved {
        count: u32,
        x: f64,
        state: [f64; N],
    },
    Refused {
        number: u32,
        count: u32,
    },
    RefusedWithBracket {
        number: u32,
        count: u32,
        bracket: [f64; 2],
    },
}

impl<const N: usize> Answer<N> {
    /// The number of a refusal. None where the problem is solved.
    pub fn refusal(&self) -> Option<u32> {
        match self {
            Answer::Solved { .. } => None,
            Answer::Refused { number, .. } | Answer::RefusedWithBracket { number, .. } => {
                Some(*number)
            }
        }
    }
}

impl<const N: usize> fmt::Display for Answer<N> {
    fn fmt(&self, f: &mut fmt::Formatter) -> fmt::Result {
        match self {
            Answer::Solved { count, x, state } => {
                write!(f, "solved {count}")?;
                write_words(f, &[*x])?;
                write_words(f, state)
            }
            Answer::Refused { number, count } => write!(f, "refused {number} {count}"),
            Answer::RefusedWithBracket {
                number,
                count,
                bracket,
            } => {
                write!(f, "refused {number} {count}")?;
                write_words(f, bracket)
            }
        }
    }
}

fn write_words(f: &mut fmt::Formatter, numbers: &[f64]) -> fmt::Result {
    numbers
        .iter()
        .try_for_each(|number| write!(f, " {:016x}", number.to_bits()))
}

/// Turns a test of the rules into a refusal with its number.
pub fn refuse(number: u32, when: bool) -> Result<(), u32> {
    if when {
        Err(number)
    } else {
        Ok(())
    }
}
