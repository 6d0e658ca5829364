//! Decks of version 2 for the check program and for the copier: those of version 1 with objects and epochs,
//! decks that differ in these alone, and damaged ones.

use crate::cards::Card;
use crate::chance::Chance;
use crate::damage;
use crate::deck::{self, MOST_CARDS};
use crate::deck_inputs::{cards_of_a, dealt_by, longest_cards, mixed_of};
use crate::file_suite::{by_step, named, Named};
use crate::refused_cards::with_spares;
use crate::solved_cards;
use crate::tags;
use crate::transfer_decks::of_each_kind;
use crate::versions::{Deck, Tag, Version};
use crate::writer::{self, tagged_deck};

/// Of the decks of version 1 that are tried for the same, every so many have one of version 2.
const STEP: usize = 7;

/// The gate's decks to check, the same list in every run. ONES are those of version 1.
pub fn fixed(ones: &[Named]) -> Vec<Named> {
    let chance = &mut Chance::at(13, 0);
    let mut list = named("two", [a(), tagged_deck([]), small()]);
    let twos = of_ones(ones, STEP, chance);
    let twins: Vec<Vec<u8>> = twos
        .iter()
        .step_by(14)
        .flat_map(|two| twins(&two.bytes, chance))
        .collect();
    list.extend(twos);
    list.extend(named("twin", twins));
    list.extend(named("tag", of_edges(chance)));
    list.extend(named("byte", damage::each_byte_by(&small(), [1, 3, 0x80])));
    list.extend(damaged());
    list.extend(long(chance));
    list.extend(named("longest-listing", longest_listings(chance)));
    list.extend((0..100).map(|_| mixed_of(Version::Two, chance)));
    list
}

/// Deck A, as version 2 has it.
fn a() -> Vec<u8> {
    let tags = [(7, 0), (7, -86_400), (7, 86_400)];
    tagged_deck(cards_of_a().into_iter().zip(tags.map(tag)))
}

/// A small deck, with a card of each kind, of which each byte is altered.
pub fn small() -> Vec<u8> {
    let tags = [(25_544, 1_767_225_600), (0, -1), (u32::MAX, i64::MIN)];
    tagged_deck(of_each_kind().into_iter().zip(tags.map(tag)))
}

fn tag((object, epoch): (u32, i64)) -> Tag {
    Tag { object, epoch }
}

/// Decks of version 1 with objects and epochs: every so many of those that are not refused.
fn of_ones<'a>(
    ones: impl IntoIterator<Item = &'a Named>,
    step: usize,
    chance: &mut Chance,
) -> Vec<Named> {
    let ones = ones.into_iter().filter(|one| cards_of_one(one).is_some());
    let mut list = Vec::new();
    for one in by_step(ones, step) {
        let cards = cards_of_one(one).unwrap_or_default();
        list.extend(named(one.name, [tags::with_tags(&cards, chance)]));
    }
    list
}

/// The cards of a deck of version 1 that is not refused.
fn cards_of_one(one: &Named) -> Option<Vec<Card>> {
    let deck = deck::read(&one.bytes).ok()?;
    let is_one = deck.version == Version::One;
    is_one.then(|| deck.cards.iter().map(|sent| sent.card).collect())
}

/// The deck with other objects and epochs: any, all of them 0, and those that it has in another order.
fn twins(two: &[u8], chance: &mut Chance) -> Vec<Vec<u8>> {
    let Deck { cards, .. } = deck::read(two).expect("the deck is not damaged");
    let other = tags::row(cards.len(), chance);
    let none = vec![tag((0, 0)); cards.len()];
    let turned: Vec<Tag> = cards.iter().rev().filter_map(|sent| sent.tag).collect();
    let with = |tags| tagged_deck(cards.iter().map(|sent| sent.card).zip(tags));
    [other, none, turned]
        .map(with)
        .into_iter()
        .filter(|twin| twin != two)
        .collect()
}

/// Each edge, on cards of each kind: in decks of some cards, and all in one.
fn of_edges(chance: &mut Chance) -> Vec<Vec<u8>> {
    let cards = of_each_kind().into_iter().cycle();
    let tagged: Vec<(Card, Tag)> = cards.zip(tags::edges()).collect();
    let mut decks = dealt_by(&tagged, 8, chance, |some| tagged_deck(some.to_vec()));
    decks.push(tagged_deck(tagged));
    let ends = [(u32::MAX, i64::MAX), (0, i64::MIN), (0, 0), (1, -1)].map(tag);
    let alone = of_each_kind().map(|card| ends.map(|tag| tagged_deck([(card, tag)])));
    decks.extend(alone.concat());
    decks
}

fn damaged() -> Vec<Named> {
    let (small, a, empty) = (small(), a(), tagged_deck([]));
    let ones = [writer::deck(&of_each_kind()), writer::deck(&cards_of_a())];
    let versions = [&small, &a, &empty, &ones[0], &ones[1]].map(|deck| damage::versions(deck));
    let trailing = [1, 2, 4, 11, 12, 13, 24, 36].map(|more| {
        let fill = more as u8 & 1;
        damage::lengthened(&small, small.len() + more, fill)
    });
    let lengths = [80, 92, 104, 116, 128, 140];
    let entries = damage::kinds_and_lengths(&small, &[1, 2, 3, 4], &lengths);
    let without = damage::in_other_version(&small, Version::Two);
    let with = damage::in_other_version(&ones[0], Version::One);
    [
        named("version", versions.concat()),
        named("cut", damage::cut(&small).into_iter().step_by(5)),
        named("cut", damage::cut(&small).into_iter().rev().take(14)),
        named("field", damage::each_field(&small).into_iter().step_by(2)),
        named("entry", entries),
        named("damage", damage::each_of_version(&a)),
        named("other-version", without),
        named("other-version", with),
        named("gap", damage::gaps(&small).into_iter().step_by(3)),
        named("swapped", damage::swapped(&small)),
        named("trailing", trailing),
    ]
    .into_iter()
    .flatten()
    .collect()
}

/// The largest deck, and inputs about and beyond the most that is read.
fn long(chance: &mut Chance) -> Vec<Named> {
    let largest = largest(chance);
    let mut list = named("largest", [largest.clone()]);
    for front in [&largest, &small(), &tagged_deck([])] {
        let lengths = [38_919, 38_920, 38_921, 38_922, 70_000];
        let filled = |fill: u8| lengths.map(|length| damage::lengthened(front, length, fill));
        list.extend(named("long", [0, 255].into_iter().flat_map(filled)));
    }
    list
}

/// No deck is larger.
fn largest(chance: &mut Chance) -> Vec<u8> {
    let solved = (0..MOST_CARDS).map(|_| solved_cards::solved(chance));
    tags::with_tags(&solved.collect::<Vec<Card>>(), chance)
}

/// No deck's listing is longer: a card that is accepted, and others that are solved with a verdict of three
/// digits, or refused with one of two.
fn longest_listings(chance: &mut Chance) -> Vec<Vec<u8>> {
    let solved = longest_cards(chance);
    let denied = Card::refused(solved[0].problem, 7);
    let spare = with_spares(denied, 1)[0];
    let behind = [
        solved[1..].to_vec(),
        vec![denied],
        vec![denied, spare, solved[1]],
    ];
    let longest = |behind: Vec<Card>| {
        let cards = solved[..1].iter().chain(behind.iter().cycle());
        tagged_deck(cards.take(MOST_CARDS).map(|card| (*card, tags::LONGEST)))
    };
    behind.map(longest).to_vec()
}

/// The gate's decks to copy, the same list in every run. ONES are those of version 1.
pub fn to_copy(ones: &[Named]) -> Vec<Named> {
    let chance = &mut Chance::at(14, 0);
    let (spared, others): (Vec<&Named>, Vec<&Named>) =
        ones.iter().partition(|one| one.name.contains("spare"));
    let mut list = named("two", [a(), tagged_deck([]), small()]);
    list.extend(of_ones(spared, 1, chance));
    list.extend(of_ones(others, 3, chance));
    list.extend(damaged_to_copy());
    let largest = largest(chance);
    let longer =
        |front: &[u8]| [38_921, 38_922, 70_000].map(|length| damage::lengthened(front, length, 0));
    list.extend(named("largest", [largest.clone()]));
    list.extend(named("long", [longer(&largest), longer(&a())].concat()));
    list.extend((0..60).map(|_| mixed_of(Version::Two, chance)));
    list
}

/// Some of the damages, and some bytes of the small deck altered, in one way and the other in turns.
fn damaged_to_copy() -> Vec<Named> {
    let bytes = damage::each_byte_by(&small(), [3, 0x80]).into_iter();
    let list = damaged().into_iter().step_by(9);
    list.chain(named("byte", bytes.step_by(7))).collect()
}
