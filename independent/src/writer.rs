//! RULES, Writing a deck.

use crate::answer::refuse;
use crate::bytes::u32_at;
use crate::cards::{u32s, Card};
use crate::deck::{self, ENTRIES, ENTRY, MOST_CARDS};
use crate::kepler::{Input, PROBLEM};
use crate::versions::{Deck, Sent, Tag, Version, TAG};

/// The bytes of version and form, with which the input of `write_deck` begins.
pub const FRONT: usize = 8;

/// As much as `write_deck` reads: version, form, and one problem more than a deck may have.
const READ: usize = FRONT + (PROBLEM + TAG) * (MOST_CARDS + 1);

/// What `write_deck` writes for this input.
pub fn written(input: &[u8]) -> Vec<u8> {
    handed_out(of_problems(&input[..input.len().min(READ)]))
}

/// What `copy_deck` writes for this input.
pub fn copied(input: &[u8]) -> Vec<u8> {
    handed_out(deck::read(input).map(|Deck { version, cards }| {
        let cards = cards.iter().map(Sent::anew).collect();
        laid_out(&Deck { version, cards })
    }))
}

/// The deck, or the line that says why there is none.
fn handed_out(deck: Result<Vec<u8>, u32>) -> Vec<u8> {
    deck.unwrap_or_else(|number| deck::refusal(number).into_bytes())
}

/// Problems as Kepler answers them, behind version and form. Those that are whole are counted.
fn of_problems(input: &[u8]) -> Result<Vec<u8>, u32> {
    refuse(42, input.len() < FRONT)?;
    let version = version_with(u32_at(input, 0), u32_at(input, 4)).ok_or(42u32)?;
    let problems = input[FRONT..].chunks_exact(problem_length(version));
    refuse(40, problems.len() > MOST_CARDS)?;
    refuse(46, !problems.remainder().is_empty())?;
    let cards = problems.map(|bytes| {
        let (problem, tag) = bytes.split_at(PROBLEM);
        Sent {
            card: Card::own(Input::read(problem)),
            tag: version.tag(tag),
        }
    });
    let cards = cards.collect();
    Ok(laid_out(&Deck { version, cards }))
}

/// The version with this number, where it goes with the form.
pub fn version_with(number: u32, form: u32) -> Option<Version> {
    Version::of(number).filter(|version| version.form() == form)
}

/// The bytes of a problem that is given for a deck of this version.
pub fn problem_length(version: Version) -> usize {
    PROBLEM + version.tag_length()
}

/// The bytes of a deck.
pub fn laid_out(deck: &Deck) -> Vec<u8> {
    let Deck { version, cards } = deck;
    let mut front = vec![version.number(), cards.len() as u32];
    let mut bodies = Vec::new();
    for sent in cards {
        let (body, kind) = (sent.body(), sent.card.kind());
        assert!(
            body.len() == kind.length(*version),
            "a card has a tag in version 1, or none in version 2"
        );
        let offset = ENTRIES + ENTRY * cards.len() + bodies.len();
        front.extend([kind.number(), offset as u32, body.len() as u32]);
        bodies.extend(body);
    }
    [u32s(&front), bodies].concat()
}

/// The cards as a deck of version 1.
pub fn deck(cards: &[Card]) -> Vec<u8> {
    let sent = cards.iter().map(|card| Sent {
        card: *card,
        tag: None,
    });
    laid_out(&Deck {
        version: Version::One,
        cards: sent.collect(),
    })
}

/// The cards, each with its tag, as a deck of version 2.
pub fn tagged_deck(cards: impl IntoIterator<Item = (Card, Tag)>) -> Vec<u8> {
    let sent = cards.into_iter().map(|(card, tag)| Sent {
        card,
        tag: Some(tag),
    });
    laid_out(&Deck {
        version: Version::Two,
        cards: sent.collect(),
    })
}
