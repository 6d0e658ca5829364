//! A suite: what the independent program does for one of the proved programs.

use crate::chance::Chance;
use crate::reading::write_each;
use std::io::{self, Write};

/// Inputs of type I, sent as N bytes each.
pub struct Suite<I, const N: usize> {
    /// The gate's inputs.
    pub fixed: fn() -> Vec<I>,
    /// One input made by chance.
    pub mixed: fn(&mut Chance) -> I,
    pub bytes: fn(&I) -> [u8; N],
    /// The lines that answer one input, without the last line feed.
    pub lines: fn([u8; N]) -> String,
    /// What one input is like, as far as the gate counts that.
    pub traits: fn([u8; N]) -> Vec<String>,
}

impl<I, const N: usize> Suite<I, N> {
    /// Does one command. None where there is no such command.
    pub fn run(&self, out: &mut impl Write, command: &[&str]) -> Option<io::Result<()>> {
        match *command {
            ["inputs"] => Some(self.write(out, (self.fixed)().into_iter())),
            ["answers"] => Some(write_each(out, |bytes| vec![(self.lines)(bytes)])),
            ["traits"] => Some(write_each(out, self.traits)),
            ["random", seed, count] => self.random(out, [seed, count, "0"]),
            ["random", seed, count, from] => self.random(out, [seed, count, from]),
            _ => None,
        }
    }

    fn random(&self, out: &mut impl Write, words: [&str; 3]) -> Option<io::Result<()>> {
        let inputs = row(words)?.map(|(_, mut chance)| (self.mixed)(&mut chance));
        Some(self.write(out, inputs))
    }

    fn write(&self, out: &mut impl Write, mut inputs: impl Iterator<Item = I>) -> io::Result<()> {
        inputs.try_for_each(|input| out.write_all(&(self.bytes)(&input)))
    }
}

/// The places that SEED, COUNT and FROM name, each with its numbers. An input depends on the seed
/// and its own place alone, so that a long run can be cut into pieces and one input of it made
/// again.
pub fn row(words: [&str; 3]) -> Option<impl Iterator<Item = (u64, Chance)>> {
    let [Ok(seed), Ok(count), Ok(from)] = words.map(str::parse::<u64>) else {
        return None;
    };
    let places = (0..count).map(move |i| from.wrapping_add(i));
    Some(places.map(move |place| (place, Chance::at(seed, place))))
}
