//! What the gate counts of the numbers on refused cards, a line each: 1, on a card from before, and 101
//! to 108, the fine numbers. So a list without the cards that are to be tried does not pass.

use crate::cards::{Card, Claim};
use crate::conic::{not_finite, BY_PLACE};
use crate::deck::{self, OLD};
use crate::kepler;
use crate::kinds::Judged;

/// The kinds of a deck with these cards.
pub fn kinds(judged: &[Judged]) -> Vec<String> {
    let mut kinds: Vec<String> = judged.iter().flat_map(of_card).collect();
    if has_accepted(judged, is_old) && has_accepted(judged, is_fine) {
        kinds.push("old and new accepted".to_string());
    }
    kinds
}

/// The kind of a deck that has a card from before. A deck that is refused has none.
pub fn with_old(deck: &[u8]) -> Option<String> {
    let cards = deck::read(deck).ok()?.cards;
    let mut numbers = cards.iter().filter_map(|sent| number(&sent.card));
    let old = numbers.any(is_old);
    old.then(|| "with old card".to_string())
}

/// Whether a card with such a number has the verdict 0.
fn has_accepted(judged: &[Judged], such: fn(u32) -> bool) -> bool {
    judged
        .iter()
        .any(|(card, verdict)| *verdict == "0" && number(card).is_some_and(such))
}

fn of_card((card, verdict): &Judged) -> Vec<String> {
    match number(card) {
        Some(number) if is_old(number) => old(card, verdict),
        Some(number) if is_fine(number) => fine(card, number, verdict).into_iter().collect(),
        Some(number) if (number ^ OLD).is_power_of_two() => nearly_old(card).into_iter().collect(),
        _ => Vec::new(),
    }
}

fn old(card: &Card, verdict: &str) -> Vec<String> {
    let mut kinds = vec![format!("old card {verdict}")];
    if !card.has_spare() {
        kinds.push(format!("old card for {}", answer(card)));
    }
    kinds
}

/// Counted where 1 would be right.
fn nearly_old(card: &Card) -> Option<String> {
    let refusal = kepler::answer(&card.problem).refusal();
    let right = refusal.is_some_and(is_fine) && !card.has_spare();
    right.then(|| "old card but for a bit".to_string())
}

/// A wrong number: all eight are finite; or the one that it names is not, and an earlier one is not
/// either; or only others are not.
fn fine(card: &Card, number: u32, verdict: &str) -> Option<String> {
    let spoilt: Vec<u32> = not_finite(&card.problem.words, BY_PLACE).collect();
    match verdict {
        "0" => Some(format!("fine number {number} accepted")),
        "24" if spoilt.is_empty() => Some(format!("fine number for {}", answer(card))),
        "24" if spoilt.contains(&number) => Some("fine number of a later place".to_string()),
        "24" => Some("fine number of another place".to_string()),
        _ => None,
    }
}

/// What Kepler says of the card's problem.
fn answer(card: &Card) -> String {
    match kepler::answer(&card.problem).refusal() {
        Some(number) => number.to_string(),
        None => "a solved problem".to_string(),
    }
}

/// The number of a refused card.
fn number(card: &Card) -> Option<u32> {
    match card.claim {
        Claim::Refused { number, .. } => Some(number),
        Claim::Solved { .. } | Claim::Transfer { .. } => None,
    }
}

fn is_old(number: u32) -> bool {
    number == OLD
}

fn is_fine(number: u32) -> bool {
    BY_PLACE.contains(&number)
}
