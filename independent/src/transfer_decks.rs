//! Decks with transfers among their cards, for the check program and for the copier.

use crate::answer::Answer;
use crate::cards::Card;
use crate::chance::Chance;
use crate::copy_inputs::{every_spare, with_word};
use crate::damage;
use crate::deck::MOST_CARDS;
use crate::deck_inputs::{cards_of_a, dealt, mixed_of, of_sorts};
use crate::file_suite::{named, Named};
use crate::kepler_inputs;
use crate::spoilt::NOT_FINITE;
use crate::transfer::{self, Input};
use crate::transfer_cards::{self, own, with_way, SORTS};
use crate::transfer_inputs::{trials, NO_WAYS};
use crate::versions::Version;
use crate::writer::deck;

/// The gate's decks to check, the same list in every run.
pub fn fixed() -> Vec<Named> {
    let chance = &mut Chance::at(8, 0);
    let mut list = of_trials();
    list.extend(of_sorts(&SORTS, chance));
    list.extend(named("three-kinds", three_kinds(chance)));
    list.extend(damaged());
    list.extend((0..60).map(|_| mixed_of(Version::One, chance)));
    list
}

/// The gate's decks to copy, the same list in every run.
pub fn to_copy() -> Vec<Named> {
    let chance = &mut Chance::at(9, 0);
    let mut list = of_trials();
    for (name, _, most, sort) in SORTS {
        let cards: Vec<Card> = (0..8).flat_map(|_| sort(chance)).take(40).collect();
        list.extend(named(name, dealt(&cards, most, chance).into_iter().take(2)));
    }
    list.extend(named("any-words", (0..20).map(|_| of_any_words(chance))));
    list.extend(named("each-number", each_number(chance)));
    list.extend(with_ways(chance));
    let decks = three_kinds(chance).into_iter().step_by(4);
    list.extend(named("three-kinds", decks));
    list.extend(damaged().into_iter().step_by(12));
    list
}

/// The rules' trials as cards: each alone, both, and both behind the cards of deck A.
fn of_trials() -> Vec<Named> {
    let [short, long] = cards_of_trials();
    let with_a = [&cards_of_a()[..], &[short, long]].concat();
    let decks = [deck(&[short]), deck(&[long]), deck(&[short, long])];
    named("transfer-trial", decks.into_iter().chain([deck(&with_a)]))
}

fn cards_of_trials() -> [Card; 2] {
    trials().map(|input| match transfer::answer(&input) {
        Answer::Solved { x, .. } => Card::transfer_at(input, x),
        _ => panic!("a trial is not solved"),
    })
}

/// Three cards, of each kind one: solved, transfer, refused.
pub fn of_each_kind() -> [Card; 3] {
    let [solved, refused, _] = cards_of_a();
    let [_, long] = cards_of_trials();
    [solved, long, refused]
}

/// Cards of the three kinds, our own answers, in decks of many numbers of cards: as they come, and
/// transfers alone.
fn three_kinds(chance: &mut Chance) -> Vec<Vec<u8>> {
    let counts = (1..8).chain((8..=MOST_CARDS).step_by(8)).chain([255]);
    let mut decks: Vec<Vec<u8>> = counts.map(|count| of_own(count, chance)).collect();
    for count in [2, 16, 255, 256] {
        let transfers = (0..count).map(|_| transfer_cards::solved(chance));
        decks.push(deck(&transfers.collect::<Vec<Card>>()));
    }
    decks
}

/// The first card is a transfer.
fn of_own(count: usize, chance: &mut Chance) -> Vec<u8> {
    let mut cards = own(chance);
    while cards.len() < count {
        match chance.below(2) {
            0 => cards.extend(own(chance)),
            _ => cards.push(Card::own(kepler_inputs::mixed(chance))),
        }
    }
    deck(&cards)
}

/// The deck with a card of each kind, damaged.
fn damaged() -> Vec<Named> {
    let whole = deck(&of_each_kind());
    let length = whole.len();
    let trailing = [1, 4, 12, 24].map(|more| damage::lengthened(&whole, length + more, 0));
    // The bytes of the transfer's body alone.
    let bytes = damage::each_byte(&whole).into_iter().step_by(2);
    let bytes = bytes.skip(172).take(104).step_by(2);
    let kinds = [0, 1, 2, 3, 4, 0x0100_0003];
    let lengths = [80, 103, 104, 105, 128];
    [
        named("cut", damage::cut(&whole).into_iter().skip(3).step_by(6)),
        named("entry", damage::kinds_and_lengths(&whole, &kinds, &lengths)),
        named("damage", damage::each(&whole)),
        named("gap", damage::gaps(&whole).into_iter().step_by(3)),
        named("swapped", damage::swapped(&whole)),
        named("byte", bytes),
        named("trailing", trailing),
    ]
    .into_iter()
    .flatten()
    .collect()
}

/// A deck of transfers with any words and numbers at all.
fn of_any_words(chance: &mut Chance) -> Vec<u8> {
    let count = 1 + chance.below(20);
    let cards: Vec<Card> = (0..count).map(|_| of_words(chance)).collect();
    deck(&cards)
}

fn of_words(chance: &mut Chance) -> Card {
    let input = Input {
        words: [(); 8].map(|()| chance.word()),
        limit: chance.word() as u32,
        way: chance.word() as u32,
    };
    Card::transfer(input, chance.word(), [(); 3].map(|()| chance.word()))
}

/// Each number of a transfer no finite number, the others good.
fn each_number(chance: &mut Chance) -> Vec<Vec<u8>> {
    let good = transfer_cards::solved(chance);
    let places = (0..64).step_by(8).chain((72..104).step_by(8));
    let cards: Vec<Card> = places
        .flat_map(|at| NOT_FINITE.map(|word| with_word(&good, at, word)))
        .collect();
    dealt(&cards, 16, chance)
}

/// Ways that there are not, which a copy keeps: alone, and between cards whose spares it clears.
fn with_ways(chance: &mut Chance) -> Vec<Named> {
    let good = transfer_cards::solved(chance);
    let odd = NO_WAYS.map(|way| with_way(good, way));
    let [solved, refused, _] = cards_of_a().map(|card| every_spare(&card));
    let alone = odd.map(|card| deck(&[card]));
    let between = odd.map(|card| deck(&[solved, card, refused, card]));
    [named("way", alone), named("way-and-spares", between)]
        .into_iter()
        .flatten()
        .collect()
}
