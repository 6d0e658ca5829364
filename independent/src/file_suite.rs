//! What the independent program does for a program that takes one input in a run. Its inputs have
//! many sizes, so each is a file of its own, and its answer another, NAME.answer.

use crate::chance::Chance;
use crate::earlier::Earlier;
use crate::suite::row;
use std::collections::HashMap;
use std::ffi::OsStr;
use std::fs;
use std::io::{self, Write};
use std::path::{Path, PathBuf};

/// An input.
pub struct Named {
    /// What it is tried for.
    pub name: &'static str,
    pub bytes: Vec<u8>,
}

pub struct FileSuite {
    /// The ending of an input's file.
    pub ending: &'static str,
    /// The gate's inputs.
    pub fixed: fn() -> Vec<Named>,
    /// One input made by chance.
    pub mixed: fn(&mut Chance) -> Named,
    /// What the program writes for an input.
    pub answer: fn(&[u8]) -> Vec<u8>,
    /// Of what kinds an input's answer is, beside those that came before.
    pub kinds: fn(&mut Earlier, &[u8], &[u8]) -> Vec<String>,
}

impl FileSuite {
    /// Does one command. None where there is no such command.
    pub fn run(&self, out: &mut impl Write, command: &[&str]) -> Option<io::Result<()>> {
        match *command {
            ["inputs", into] => Some(self.write((0..).zip((self.fixed)()), into)),
            ["random", seed, count, into] => self.random([seed, count, "0"], into),
            ["random", seed, count, from, into] => self.random([seed, count, from], into),
            ["answers", inputs, into] => Some(self.write_answers(inputs, into)),
            ["kinds", inputs, answers] => Some(self.write_kinds(out, inputs, answers)),
            _ => None,
        }
    }

    fn random(&self, words: [&str; 3], into: &str) -> Option<io::Result<()>> {
        let inputs = row(words)?.map(|(place, mut chance)| (place, (self.mixed)(&mut chance)));
        Some(self.write(inputs, into))
    }

    /// An input's file is named after its place and what it is tried for.
    fn write(&self, mut inputs: impl Iterator<Item = (u64, Named)>, into: &str) -> io::Result<()> {
        inputs.try_for_each(|(place, input)| {
            let name = format!("{place:05}-{}.{}", input.name, self.ending);
            fs::write(Path::new(into).join(name), input.bytes)
        })
    }

    /// The answer to each input of a folder, into another folder.
    fn write_answers(&self, inputs: &str, into: &str) -> io::Result<()> {
        self.each(inputs, |input| {
            fs::write(answer_to(input, into), (self.answer)(&fs::read(input)?))
        })
    }

    /// For each kind of the answer to each input a line.
    fn write_kinds(&self, out: &mut impl Write, inputs: &str, answers: &str) -> io::Result<()> {
        let mut earlier = Earlier::default();
        self.each(inputs, |input| {
            let answer = fs::read(answer_to(input, answers))?;
            let kinds = (self.kinds)(&mut earlier, &fs::read(input)?, &answer);
            kinds.iter().try_for_each(|kind| writeln!(out, "{kind}"))
        })
    }

    /// Does something with each input of a folder. Other files are passed over.
    fn each(&self, inputs: &str, mut act: impl FnMut(&Path) -> io::Result<()>) -> io::Result<()> {
        for entry in fs::read_dir(inputs)? {
            let input = entry?.path();
            if input.extension() == Some(OsStr::new(self.ending)) {
                act(&input)?;
            }
        }
        Ok(())
    }
}

/// Where the answer to an input stands in a folder.
fn answer_to(input: &Path, folder: &str) -> PathBuf {
    let name = input.with_extension("answer");
    Path::new(folder).join(name.file_name().unwrap_or_default())
}

/// Inputs that are tried for the same.
pub fn named(name: &'static str, inputs: impl IntoIterator<Item = Vec<u8>>) -> Vec<Named> {
    let named = |bytes| Named { name, bytes };
    inputs.into_iter().map(named).collect()
}

/// Of the inputs that are tried for the same the first, and every so many behind it.
pub fn by_step<'a>(inputs: impl IntoIterator<Item = &'a Named>, step: usize) -> Vec<&'a Named> {
    let mut seen: HashMap<&str, usize> = HashMap::new();
    let mut taken = |input: &&Named| {
        let before = seen.entry(input.name).or_default();
        *before += 1;
        (*before - 1) % step == 0
    };
    inputs.into_iter().filter(|input| taken(input)).collect()
}
