//! What a deck is beside the inputs that came before: the same but for objects and epochs, or but for these and
//! the version; or the small deck with a byte altered in one way more. Decks with the same cards have the same
//! listing but for objects and epochs, which is held here.

use crate::tagged_decks;
use crate::version_kinds::{version_word, without_tags, without_words, Pair};
use std::collections::{HashMap, HashSet};

/// In how many ways a byte of the small deck is altered, as far as that is counted.
const WAYS: [&str; 3] = ["once", "twice", "thrice"];

/// What came before.
#[derive(Default)]
pub struct Earlier {
    /// The decks that are not refused, by their cards: as version 1 has them.
    alike: HashMap<Vec<u8>, Alike>,
    /// What was put in the place of each byte of the small deck.
    altered: HashMap<usize, HashSet<u8>>,
}

/// Decks with the same cards.
struct Alike {
    /// Their listing, without objects and epochs.
    listing: String,
    /// Whether one of them is of version 1.
    has_one: bool,
    /// Those of version 2, by their objects and epochs.
    twos: HashSet<Vec<Pair>>,
}

impl Earlier {
    /// The kinds that this deck makes with those before. In whichever order they come, each deck of version 2
    /// that has one of version 1 beside it counts once, and so does each but one of those that differ in objects
    /// and epochs alone.
    pub fn kinds(&mut self, deck: &[u8], listing: &str) -> Vec<String> {
        let mut kinds: Vec<String> = self.altered(deck).into_iter().collect();
        if !listing.starts_with("deck ") {
            kinds.extend(self.twins(deck, listing));
        }
        kinds
    }

    /// Where a byte of the small deck is altered: in how many ways it is, by now.
    fn altered(&mut self, deck: &[u8]) -> Option<String> {
        let small = tagged_decks::small();
        let places = (0..small.len()).filter(|at| deck.get(*at) != Some(&small[*at]));
        let [place] = places.take(2).collect::<Vec<usize>>()[..] else {
            return None;
        };
        let byte = deck.get(place).filter(|_| deck.len() == small.len())?;
        let ways = self.altered.entry(place).or_default();
        let is_new = ways.insert(*byte);
        let ways = WAYS.get(ways.len() - 1).filter(|_| is_new)?;
        Some(format!("byte altered {ways}"))
    }

    fn twins(&mut self, deck: &[u8], listing: &str) -> Vec<String> {
        let is_two = version_word(deck) == Some(2);
        let (one, pairs) = if is_two {
            without_tags(deck)
        } else {
            (deck.to_vec(), Vec::new())
        };
        let bare = without_words(listing);
        let alike = self.alike.entry(one).or_insert_with(|| Alike::of(&bare));
        assert!(alike.listing == bare, "the same cards have two listings");
        if is_two {
            alike.with_two(pairs)
        } else {
            alike.with_one()
        }
    }
}

impl Alike {
    fn of(listing: &str) -> Alike {
        Alike {
            listing: listing.to_string(),
            has_one: false,
            twos: HashSet::new(),
        }
    }

    fn with_two(&mut self, pairs: Vec<Pair>) -> Vec<String> {
        let others = !self.twos.is_empty();
        if !self.twos.insert(pairs) {
            return Vec::new();
        }
        let kinds = [
            others.then_some("same but for object and epoch"),
            self.has_one.then_some("same but for the version"),
        ];
        kinds.into_iter().flatten().map(str::to_string).collect()
    }

    fn with_one(&mut self) -> Vec<String> {
        let is_first = !std::mem::replace(&mut self.has_one, true);
        let count = if is_first { self.twos.len() } else { 0 };
        vec!["same but for the version".to_string(); count]
    }
}
