//! The test by physics. A transfer's velocity is right where Kepler, with it, comes to the second
//! position after the same time, and sets out by the way that was asked for. Three commands: the
//! transfers; Kepler's problems for those that were solved; and how far from their second positions
//! Kepler's answers are.

use crate::chance::{power_of_two, Chance};
use crate::conic::{dot, Vector, Words};
use crate::kepler;
use crate::legs::{self, true_arc, way, Leg};
use crate::motion::{cross, Frame, SPAN};
use crate::transfer::{Input, LONG, RECORD};
use crate::transfer_inputs::unhurried;
use std::collections::BTreeMap;
use std::fmt;
use std::fs;
use std::io::{self, Write};

/// How many transfers are pieces of ellipses. They come first in the list.
const PIECES: usize = 2_500;
/// How many other transfers there are.
const OTHERS: usize = 2_500;
/// The farthest that an arrival may be from its second position, in parts of the larger radius.
const FARTHEST: f64 = 1e-8;
/// The same for a transfer that is sensitive.
const FARTHEST_SENSITIVE: f64 = 1e-4;
/// The fewest arrivals of pieces of ellipses, and of others that are not sensitive.
const FEWEST: usize = 2_000;
/// The refusals that Kepler may have for a velocity that is right: a line that is too straight, and a
/// time beyond its far end.
const BEYOND_KEPLER: [u32; 2] = [7, 8];

/// Does one command. None where there is no such command.
pub fn run(out: &mut impl Write, command: &[&str]) -> Option<io::Result<()>> {
    match *command {
        ["arcs"] => Some(write_arcs(out)),
        ["departures", records, lines] => Some(write_departures(out, records, lines)),
        ["arrivals", records, lines, outcomes] => Some(judge(out, records, lines, outcomes)),
        _ => None,
    }
}

/// The transfers, the same list in every run: pieces of ellipses with their own times, and then
/// positions with other times.
fn write_arcs(out: &mut impl Write) -> io::Result<()> {
    let chance = &mut Chance::at(10, 0);
    let mut arcs: Vec<Input> = (0..PIECES).map(|_| piece_of_an_ellipse(chance)).collect();
    arcs.extend((0..OTHERS).map(|_| any_arc(chance)));
    arcs.iter()
        .try_for_each(|input| out.write_all(&input.bytes()))
}

fn piece_of_an_ellipse(chance: &mut Chance) -> Input {
    std::iter::repeat_with(|| true_arc(&Frame::any(chance), chance))
        .map(|(words, way)| unhurried(words, way))
        .find(|input| comparable(&input.words))
        .expect("many pieces end at such a radius")
}

/// Whether neither radius is more than ten times the other.
fn comparable(words: &Words) -> bool {
    let [first, second] = radii(words);
    first <= 10.0 * second && second <= 10.0 * first
}

/// Any time between those at the bracket's ends.
fn any_arc(chance: &mut Chance) -> Input {
    let leg = std::iter::repeat_with(|| any_leg(chance)).flatten().next();
    let leg = leg.expect("many positions are not refused");
    leg.input(leg.some_time(chance), 100)
}

fn any_leg(chance: &mut Chance) -> Option<Leg> {
    let frame = Frame::any(chance);
    let ratio = chance.between(1.0, 10.0);
    let length = frame.r0 * chance.one_of(&[1.0, ratio, 1.0 / ratio]);
    let words = frame.transfer(length, legs::direction(chance), 0.0);
    Leg::of(words, way(chance))
}

/// For each transfer that was solved Kepler's problem: the first position, the velocity, the time.
fn write_departures(out: &mut impl Write, records: &str, lines: &str) -> io::Result<()> {
    let solved = solved(records, lines)?;
    solved
        .iter()
        .try_for_each(|solved| out.write_all(&solved.departure.bytes()))
}

/// A transfer that was solved.
struct Solved {
    /// Its place in the list, from 0 on.
    place: usize,
    input: Input,
    /// Kepler's problem.
    departure: kepler::Input,
}

/// The transfers that were solved.
fn solved(records: &str, lines: &str) -> io::Result<Vec<Solved>> {
    let (records, lines) = (fs::read(records)?, fs::read_to_string(lines)?);
    let lines: Vec<&str> = lines.lines().collect();
    require(records.len() == RECORD * lines.len(), || {
        "there is not one line for each transfer".to_string()
    })?;
    let inputs = records.chunks_exact(RECORD).map(Input::read);
    let mut list = Vec::new();
    for (place, (input, line)) in inputs.zip(lines).enumerate() {
        match line.split(' ').collect::<Vec<&str>>()[..] {
            ["solved", _, _, x, y, z] => list.push(Solved {
                place,
                input,
                departure: departure(&input, [x, y, z])?,
            }),
            ["refused", ..] => {}
            _ => return Err(no_line(line)),
        }
    }
    Ok(list)
}

fn departure(input: &Input, velocity: [&str; 3]) -> io::Result<kepler::Input> {
    let mut words = input.words;
    words[4..SPAN].copy_from_slice(&numbers(velocity)?);
    Ok(kepler::Input { words, limit: 100 })
}

/// A class of transfers, and what became of those of it that were solved.
struct Class {
    name: &'static str,
    /// The farthest that an arrival may be.
    farthest: f64,
    /// The fewest arrivals.
    fewest: usize,
    arrived: usize,
    /// How far the worst arrival is.
    worst: f64,
    /// How many are farther than the others may be.
    beyond: usize,
}

impl Class {
    fn new(name: &'static str, farthest: f64, fewest: usize) -> Class {
        Class {
            name,
            farthest,
            fewest,
            arrived: 0,
            worst: 0.0,
            beyond: 0,
        }
    }

    /// A distance that is no number is the worst, and stays it.
    fn add(&mut self, off: f64) {
        self.arrived += 1;
        if off.is_nan() || off > self.worst {
            self.worst = off;
        }
        if off.is_nan() || off > FARTHEST {
            self.beyond += 1;
        }
    }

    fn hold(&self) -> io::Result<()> {
        let Class { name, worst, .. } = self;
        require(*worst <= self.farthest, || {
            let most = self.farthest;
            format!("{name}: {worst:e} of the larger radius away, and {most:e} is allowed")
        })?;
        require(self.arrived >= self.fewest, || {
            let (arrived, fewest) = (self.arrived, self.fewest);
            format!("{name}: {arrived} arrive, and {fewest} are wanted")
        })
    }
}

impl fmt::Display for Class {
    fn fmt(&self, f: &mut fmt::Formatter) -> fmt::Result {
        let (name, arrived, worst) = (self.name, self.arrived, self.worst);
        write!(f, "{name}: {arrived} arrive, the worst {worst:.1e} away")?;
        if self.farthest > FARTHEST {
            write!(f, ", {} beyond {FARTHEST:e}", self.beyond)?;
        }
        Ok(())
    }
}

/// What became of the transfers that were solved.
struct Arrivals {
    pieces: Class,
    others: Class,
    sensitive: Class,
    /// Kepler's refusals, and how often each was given.
    refused: BTreeMap<u32, usize>,
    astray: usize,
}

/// Says how many transfers were solved, what Kepler said of them, and how far the worst arrivals are.
/// An error where one is too far, where a transfer went by the other way, where Kepler refuses what it
/// should not, or where too few arrive.
fn judge(out: &mut impl Write, records: &str, lines: &str, outcomes: &str) -> io::Result<()> {
    let solved = solved(records, lines)?;
    let outcomes = fs::read_to_string(outcomes)?;
    let outcomes: Vec<&str> = outcomes.lines().collect();
    require(solved.len() == outcomes.len(), || {
        "there is not one outcome for each transfer that was solved".to_string()
    })?;
    let mut arrivals = Arrivals::none();
    for (solved, outcome) in solved.iter().zip(outcomes) {
        arrivals.add(solved, outcome)?;
    }
    let total = fs::metadata(records)?.len() / RECORD as u64;
    writeln!(out, "{total} transfers, {} solved", solved.len())?;
    arrivals.write(out)?;
    out.flush()?;
    arrivals.hold()
}

impl Arrivals {
    fn none() -> Arrivals {
        Arrivals {
            pieces: Class::new("pieces of ellipses", FARTHEST, FEWEST),
            others: Class::new("others", FARTHEST, FEWEST),
            sensitive: Class::new("others, sensitive", FARTHEST_SENSITIVE, 0),
            refused: BTreeMap::new(),
            astray: 0,
        }
    }

    fn classes(&self) -> [&Class; 3] {
        [&self.pieces, &self.others, &self.sensitive]
    }

    /// The class of a transfer: by its place and what is given, whatever was answered.
    fn class_of(&mut self, solved: &Solved) -> &mut Class {
        if solved.place < PIECES {
            &mut self.pieces
        } else if is_sensitive(&solved.input) {
            &mut self.sensitive
        } else {
            &mut self.others
        }
    }

    fn add(&mut self, solved: &Solved, outcome: &str) -> io::Result<()> {
        let words = &solved.input.words;
        require(comparable(words), || {
            format!("transfer {}: one radius is too large", solved.place + 1)
        })?;
        if goes_astray(&solved.input, &solved.departure) {
            self.astray += 1;
        }
        match outcome.split(' ').collect::<Vec<&str>>()[..] {
            ["solved", _, _, x, y, z, _, _, _] => {
                let off = miss(words, numbers([x, y, z])?.map(f64::from_bits));
                self.class_of(solved).add(off);
            }
            ["refused", number, ..] => {
                let number = number.parse().map_err(|_| no_line(outcome))?;
                *self.refused.entry(number).or_default() += 1;
            }
            _ => return Err(no_line(outcome)),
        }
        Ok(())
    }

    fn write(&self, out: &mut impl Write) -> io::Result<()> {
        let arrived: usize = self.classes().iter().map(|class| class.arrived).sum();
        write!(out, "Kepler: {arrived} solved")?;
        for (number, count) in &self.refused {
            write!(out, ", {count} refused with {number}")?;
        }
        writeln!(out, "; of the larger radius:")?;
        self.classes()
            .iter()
            .try_for_each(|class| writeln!(out, "{class}"))
    }

    fn hold(&self) -> io::Result<()> {
        self.classes().iter().try_for_each(|class| class.hold())?;
        require(self.astray == 0, || {
            format!("transfers that set out by the other way: {}", self.astray)
        })?;
        let other = |number: &&u32| !BEYOND_KEPLER.contains(number);
        match self.refused.keys().find(other) {
            None => Ok(()),
            Some(number) => Err(wrong(format!("Kepler refuses a departure with {number}"))),
        }
    }
}

/// Whether an arrival may be farther: by the transfer alone, whatever was answered. So it is within
/// about 7.2 degrees of 180 and with a time beyond T(24). The reason is c: 1 + c makes half a last place
/// of it large near 180 degrees, and with all else exact that moves such an arrival of the list by up to
/// 5.3e-6.
fn is_sensitive(input: &Input) -> bool {
    let Some(leg) = Leg::of(input.words, input.way) else {
        return false;
    };
    let t = f64::from_bits(input.words[SPAN]) / leg.transfer.places.f4;
    1.0 + leg.transfer.places.c < power_of_two(-7) && t > leg.time(24.0)
}

/// Whether a departure is by the other way than the transfer's, or by none: less than half a turn takes
/// the first position to the second one in the sense of the motion, more than half a turn against it.
fn goes_astray(input: &Input, departure: &kepler::Input) -> bool {
    let [first, second] = vectors(&input.words);
    let [_, velocity] = vectors(&departure.words);
    let sense = dot(cross(first, second), cross(first, velocity));
    let right = if input.way == LONG {
        sense < 0.0
    } else {
        sense > 0.0
    };
    !right
}

/// How far a position is from the second one, in parts of the larger radius.
fn miss(words: &Words, arrived: Vector) -> f64 {
    let [_, second] = vectors(words);
    let off: Vector = std::array::from_fn(|i| arrived[i] - second[i]);
    let [r1, r2] = radii(words);
    dot(off, off).sqrt() / r1.max(r2)
}

fn radii(words: &Words) -> [f64; 2] {
    vectors(words).map(|position| dot(position, position).sqrt())
}

/// The two vectors among the words.
fn vectors(words: &Words) -> [Vector; 2] {
    [1, 4].map(|at| std::array::from_fn(|i| f64::from_bits(words[at + i])))
}

/// Three numbers as the programs print them.
fn numbers(digits: [&str; 3]) -> io::Result<[u64; 3]> {
    let mut words = [0; 3];
    for (word, digits) in words.iter_mut().zip(digits) {
        *word = u64::from_str_radix(digits, 16)
            .map_err(|_| wrong(format!("'{digits}' is no number")))?;
    }
    Ok(words)
}

fn require(holds: bool, what: impl Fn() -> String) -> io::Result<()> {
    if holds {
        Ok(())
    } else {
        Err(wrong(what()))
    }
}

fn no_line(line: &str) -> io::Error {
    wrong(format!("no such line is printed: '{line}'"))
}

fn wrong(what: String) -> io::Error {
    io::Error::new(io::ErrorKind::Other, what)
}
