//! The decks that are copied: many whose copy is the same bytes, some with spares that are not 0,
//! and some that are refused.

use crate::cards::{Card, Claim};
use crate::chance::Chance;
use crate::damage::{self, lengthened};
use crate::deck::MOST_CARDS;
use crate::deck_inputs::{cards_of_a, dealt, deck_a, trials, SORTS};
use crate::file_suite::{named, Named};
use crate::kepler::Input;
use crate::refused_cards::{spares, with_spares};
use crate::solved_cards;
use crate::spoilt::NOT_FINITE;
use crate::tagged_decks;
use crate::transfer_decks;
use crate::writer::deck;

/// The gate's decks, the same list in every run.
pub fn fixed() -> Vec<Named> {
    let chance = &mut Chance::at(6, 0);
    let mut list = trials();
    list.extend(of_each_sort(chance));
    list.extend(named("any-words", (0..120).map(|_| of_any_words(chance))));
    list.extend(named("each-number", not_finite(chance)));
    list.extend(with_a_spare(chance));
    list.extend(damaged());
    list.extend(long(chance));
    list.extend(transfer_decks::to_copy());
    let twos = tagged_decks::to_copy(&list);
    list.extend(twos);
    list
}

/// Cards of each sort that the check program is tried on, whatever their verdicts: in decks of one
/// sort, and mixed up in decks of each number of cards.
fn of_each_sort(chance: &mut Chance) -> Vec<Named> {
    let mut list = Vec::new();
    let mut all = Vec::new();
    for (name, _, most, sort) in SORTS {
        let rounds: Vec<Card> = (0..40).flat_map(|_| sort(chance)).take(200).collect();
        let cards: Vec<Card> = rounds.iter().map(Card::anew).collect();
        list.extend(named(name, dealt(&cards, most, chance).into_iter().take(8)));
        all.extend(cards);
    }
    let mut any = std::iter::repeat_with(|| chance.one_of(&all));
    let decks =
        (0..=MOST_CARDS).map(|count| deck(&any.by_ref().take(count).collect::<Vec<Card>>()));
    list.extend(named("every-count", decks));
    list
}

/// A deck of cards with any words and numbers at all.
fn of_any_words(chance: &mut Chance) -> Vec<u8> {
    let count = chance.below(21);
    let cards: Vec<Card> = (0..count).map(|_| of_words(chance)).collect();
    deck(&cards)
}

fn of_words(chance: &mut Chance) -> Card {
    let problem = Input {
        words: [(); 8].map(|()| chance.word()),
        limit: chance.word() as u32,
    };
    match chance.below(2) {
        0 => Card::solved(problem, chance.word(), [(); 6].map(|()| chance.word())),
        _ => Card::refused(problem, chance.word() as u32),
    }
}

/// Each number of a solved card no finite number, the others good.
fn not_finite(chance: &mut Chance) -> Vec<Vec<u8>> {
    let good = solved_cards::solved(chance);
    let places = (0..64).step_by(8).chain((72..128).step_by(8));
    let cards: Vec<Card> = places
        .flat_map(|at| NOT_FINITE.map(|word| with_word(&good, at, word)))
        .collect();
    dealt(&cards, 16, chance)
}

/// The card with another word at a place of its body.
pub fn with_word(card: &Card, at: usize, word: u64) -> Card {
    let mut body = card.body();
    body[at..at + 8].copy_from_slice(&word.to_le_bytes());
    Card::read(card.kind(), &body)
}

/// Decks with spares that are not 0: each byte of each spare of deck A, spares of other cards, and
/// every spare of the most cards.
fn with_a_spare(chance: &mut Chance) -> Vec<Named> {
    let a = cards_of_a();
    let bits = (0..4).flat_map(|byte| [1, 0x80, 0xff].map(|bits| bits << (8 * byte)));
    let altered =
        bits.flat_map(|bits| (0..a.len()).flat_map(move |place| with_bits(a, place, bits)));
    let others = dealt(&spares(chance), 16, chance);
    let full: Vec<Card> = (0..MOST_CARDS)
        .map(|place| every_spare(&a[place % 3]))
        .collect();
    [
        named("spare", altered),
        named("other-spares", others.into_iter().take(16)),
        named("every-spare", [deck(&full)]),
    ]
    .into_iter()
    .flatten()
    .collect()
}

/// The decks in which one card has these bits in one of its spares.
fn with_bits(cards: [Card; 3], place: usize, bits: u32) -> Vec<Vec<u8>> {
    let with = |card: Card| {
        let mut cards = cards;
        cards[place] = card;
        deck(&cards)
    };
    with_spares(cards[place], bits)
        .into_iter()
        .map(with)
        .collect()
}

/// The card with each bit of each spare set.
pub fn every_spare(card: &Card) -> Card {
    let mut all = *card;
    match &mut all.claim {
        Claim::Solved { spare, .. } => *spare = u32::MAX,
        Claim::Refused { spare, last, .. } => [*spare, *last] = [u32::MAX; 2],
        Claim::Transfer { .. } => {}
    }
    all
}

/// Decks for each refusal.
fn damaged() -> Vec<Named> {
    let a = deck_a();
    let short = (0..8).map(|length| a[..length].to_vec());
    let cut = damage::cut(&a).into_iter().skip(8).step_by(24);
    let fields = damage::each_field(&a).into_iter().step_by(9);
    [
        named("short", short),
        named("cut", cut),
        named("damage", damage::each(&a)),
        named("field", fields),
    ]
    .into_iter()
    .flatten()
    .collect()
}

/// The largest deck, and inputs about and beyond the most that is read.
fn long(chance: &mut Chance) -> Vec<Named> {
    let solved = (0..MOST_CARDS).map(|_| solved_cards::solved(chance));
    let largest = deck(&solved.collect::<Vec<Card>>());
    let longer = |front: &[u8]| [35_849, 35_850, 70_000].map(|length| lengthened(front, length, 0));
    let mut list = named("largest", [largest.clone()]);
    list.extend(named("long", longer(&largest)));
    list.extend(named("long", longer(&deck_a())));
    list
}
