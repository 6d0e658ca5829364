//! RULES, The deck, and RULES, The check program's listing.

use crate::answer::refuse;
use crate::bytes::u32_at;
use crate::cards::{Card, Claim, Kind, State, Velocity};
use crate::chance::power_of_two;
use crate::conic::BY_PLACE;
use crate::kepler;
use crate::search::{Search, NEAR};
use crate::times::Times;
use crate::transfer;
use crate::versions::{Deck, Sent, Tag, Version};

/// As much as a program reads of a deck: one byte more than the largest one has.
const READ: usize = 38_921;
pub const MOST_CARDS: usize = 256;

/// The number of a refused card from before, when 101 to 108 were one refusal.
pub const OLD: u32 = 1;

/// Where the cards' entries begin, and the bytes of one.
pub const ENTRIES: usize = 8;
pub const ENTRY: usize = 12;

enum Verdict {
    /// Verdict 0 of a solved card or a solved transfer.
    Solved(Times),
    /// Verdict 0 of a refused card.
    Refused,
    Rejected(u32),
}

/// The sum of the residuals and the worst of them are in seconds.
#[derive(Default)]
struct Tally {
    solved: u32,
    refused: u32,
    rejected: u32,
    sum: f64,
    worst: f64,
}

/// What the check program prints for this input.
pub fn listing(input: &[u8]) -> String {
    let cards = match read(input) {
        Ok(deck) => deck.cards,
        Err(number) => return refusal(number),
    };
    let mut tally = Tally::default();
    let mut lines = String::new();
    for (place, Sent { card, tag }) in (1..).zip(&cards) {
        let verdict = verdict(card);
        let (kind, tag, number) = (card.kind().word(), shown(*tag), verdict.number());
        lines += &format!("card {place} {kind} {tag} {number}\n");
        tally.add(&verdict);
    }
    lines + &tally.lines()
}

/// Object and epoch in a line.
fn shown(tag: Option<Tag>) -> String {
    match tag {
        Some(Tag { object, epoch }) => format!("{object} {epoch}"),
        None => "- -".to_string(),
    }
}

/// What each program that reads or writes a deck says where it is refused.
pub fn refusal(number: u32) -> String {
    format!("deck {number}\n")
}

/// The deck that a program reads, or why it is refused: 30 to 38. No list of verdicts is too short
/// here, so there is no 39.
pub fn read(input: &[u8]) -> Result<Deck, u32> {
    let deck = &input[..input.len().min(READ)];
    refuse(30, deck.len() < ENTRIES)?;
    let version = Version::of(u32_at(deck, 0)).ok_or(31u32)?;
    let count = u32_at(deck, 4) as usize;
    refuse(32, count > MOST_CARDS)?;
    let bodies = ENTRIES + ENTRY * count;
    refuse(33, bodies > deck.len())?;
    let mut cards = Vec::new();
    let mut end = bodies;
    for entry in deck[ENTRIES..bodies].chunks_exact(ENTRY) {
        let (kind, body) = body_at(version, deck, entry, end)?;
        end += body.len();
        cards.push(Sent::read(version, kind, body));
    }
    refuse(38, end < deck.len())?;
    Ok(Deck { version, cards })
}

/// The kind and the body of one entry. The body must begin at `end`, where the last one ended.
fn body_at<'a>(
    version: Version,
    deck: &'a [u8],
    entry: &[u8],
    end: usize,
) -> Result<(Kind, &'a [u8]), u32> {
    let kind = Kind::of(u32_at(entry, 0)).ok_or(34u32)?;
    let (offset, length) = (u32_at(entry, 4) as usize, u32_at(entry, 8) as usize);
    refuse(35, length != kind.length(version))?;
    refuse(36, offset != end)?;
    let body = deck.get(end..end + length).ok_or(37u32)?;
    Ok((kind, body))
}

fn verdict(card: &Card) -> Verdict {
    let verdict = match card.claim {
        Claim::Solved { x, state, .. } => solved(card, x, state).map(Verdict::Solved),
        Claim::Refused { number, .. } => refused(card, number).map(|()| Verdict::Refused),
        Claim::Transfer { way, z, velocity } => {
            transferred(&card.by_way(way), z, velocity).map(Verdict::Solved)
        }
    };
    verdict.unwrap_or_else(Verdict::Rejected)
}

/// Whether the card's verdict is 0.
pub fn accepted(card: &Card) -> bool {
    verdict(card).number() == 0
}

/// The times of a solved card, or its verdict. States are compared as words.
fn solved(card: &Card, x: u64, sent: State) -> Result<Times, u32> {
    refuse(23, card.has_spare())?;
    let started = kepler::start(&card.problem)?;
    let x = f64::from_bits(x);
    let times = near(&started.search, x, started.times(x))?;
    refuse(22, sent != started.orbit.arrive(x)?.map(f64::to_bits))?;
    Ok(times)
}

/// The same of a solved transfer. Its way is tested before all else.
fn transferred(input: &transfer::Input, z: u64, sent: Velocity) -> Result<Times, u32> {
    let started = transfer::start(input)?;
    let z = f64::from_bits(z);
    let times = near(&started.search, z, started.times(z))?;
    refuse(22, sent != started.transfer.departure(z)?.map(f64::to_bits))?;
    Ok(times)
}

/// The times at the x, or z, of a card, after 20, 6 and 21.
pub fn near(search: &Search, x: f64, times: Times) -> Result<Times, u32> {
    refuse(20, !x.is_finite() || !search.contains(x))?;
    refuse(6, !times.reached.is_finite())?;
    refuse(21, times.gap() > NEAR)?;
    Ok(times)
}

fn refused(card: &Card, number: u32) -> Result<(), u32> {
    refuse(23, card.has_spare())?;
    let refusal = kepler::answer(&card.problem).refusal();
    refuse(24, !refusal.is_some_and(|given| means(number, given)))
}

/// Whether a card with this number tells of this refusal of Kepler's.
fn means(number: u32, refusal: u32) -> bool {
    match number {
        OLD => BY_PLACE.contains(&refusal),
        _ => number == refusal,
    }
}

impl Verdict {
    fn number(&self) -> u32 {
        match self {
            Verdict::Rejected(number) => *number,
            _ => 0,
        }
    }
}

impl Tally {
    fn add(&mut self, verdict: &Verdict) {
        match verdict {
            Verdict::Solved(times) => {
                let residual = held(times.residual());
                self.solved += 1;
                self.sum += residual;
                self.worst = self.worst.max(residual);
            }
            Verdict::Refused => self.refused += 1,
            Verdict::Rejected(_) => self.rejected += 1,
        }
    }

    fn lines(&self) -> String {
        let shown = |number: f64| match self.solved {
            0 => "none".to_string(),
            _ => format!("{:016x}", held(number).to_bits()),
        };
        format!(
            "solved {} refused {} rejected {}\nmean {}\nworst {}\n",
            self.solved,
            self.refused,
            self.rejected,
            shown(self.sum / self.solved as f64),
            shown(self.worst)
        )
    }
}

/// A residual, a mean or a worst one, held to RULES, Tally 4: no minus, and at most 2^988 seconds.
fn held(seconds: f64) -> f64 {
    assert!(
        seconds.is_sign_positive() && seconds <= power_of_two(988),
        "{seconds:e} s is no residual"
    );
    seconds
}
