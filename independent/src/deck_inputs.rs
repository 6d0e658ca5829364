//! The decks that the check program is tried on.

use crate::cards::Card;
use crate::chance::Chance;
use crate::conic::Vector;
use crate::damage;
use crate::deck::MOST_CARDS;
use crate::far_end_inputs;
use crate::file_suite::{named, Named};
use crate::kepler::{self, Input};
use crate::kepler_inputs;
use crate::motion::PLAIN;
use crate::refused_cards as refused;
use crate::solved_cards::{self as solved, Sort};
use crate::spoilt;
use crate::tagged_decks;
use crate::tags;
use crate::ties;
use crate::transfer_cards;
use crate::transfer_decks;
use crate::unit_cards;
use crate::versions::Version;
use crate::writer::deck;

/// A sort of cards, how many rounds of it the gate's decks have, and how many cards at most stand in
/// one of these.
pub type SortRow = (&'static str, usize, u64, Sort);

/// The sorts that are not transfers. The first is Kepler's own answers.
pub const SORTS: [SortRow; 22] = [
    ("own", 200, 16, own),
    ("moved", 60, 16, solved::moved),
    ("other-ways", 200, 16, solved::other_ways),
    ("state-bits", 3, 16, solved::state_bits),
    ("about-bracket", 40, 16, solved::about_bracket),
    ("about-ends", 20, 16, solved::about_ends),
    ("past-far-end", 60, 16, far_end_inputs::cards),
    ("x-not-finite", 12, 16, solved::not_finite),
    ("about-near", 60, 16, solved::about_near),
    ("about-near-by-time", 60, 16, solved::about_near_by_time),
    ("about-tie", 60, 16, ties::about_tie),
    ("about-low", 60, 16, solved::about_low),
    ("beyond-velocity", 200, 16, solved::beyond_velocity),
    ("no-time", 40, 2, solved::no_time),
    ("still", 60, 16, solved::still),
    ("numbers", 2, 40, refused::numbers),
    ("old", 24, 32, refused::old),
    ("as-solved", 20, 16, refused::as_solved),
    ("not-finite", 4, 24, refused::not_finite),
    ("two-not-finite", 2, 32, refused::two_not_finite),
    ("limits", 10, 16, refused::limits),
    ("spares", 4, 16, refused::spares),
];

/// The gate's decks, the same list in every run.
pub fn fixed() -> Vec<Named> {
    let chance = &mut Chance::at(4, 0);
    let mut list = trials();
    list.extend(of_kepler(chance));
    list.extend(of_sorts(&SORTS, chance));
    list.extend(named("rounded-down", rounded_down(chance)));
    list.extend(damaged());
    list.extend(long(chance));
    list.extend((0..600).map(|_| mixture(Version::One, chance, |chance| few(&SORTS, chance))));
    list.extend(named("longest-listing", [deck(&longest_cards(chance))]));
    list.extend(transfer_decks::fixed());
    list.extend(unit_cards::decks());
    let twos = tagged_decks::fixed(&list);
    list.extend(twos);
    list
}

/// Decks of each sort.
pub fn of_sorts(sorts: &[SortRow], chance: &mut Chance) -> Vec<Named> {
    let mut list = Vec::new();
    for (name, rounds, most, sort) in sorts {
        let cards: Vec<Card> = (0..*rounds).flat_map(|_| sort(chance)).collect();
        list.extend(named(name, dealt(&cards, *most, chance)));
    }
    list
}

/// One deck of some kind, of either version.
pub fn mixed(chance: &mut Chance) -> Named {
    let version = chance.one_of(&[Version::One, Version::Two, Version::Two]);
    mixed_of(version, chance)
}

/// One deck of a version, with cards of each kind. Most of them are not damaged. In some there are cards
/// with units from all over binary64, and in fewer no others.
pub fn mixed_of(version: Version, chance: &mut Chance) -> Named {
    let units = chance.one_of(&[0, 0, 0, 0, 1, 1, 4, 12]);
    mixture(version, chance, |chance| match chance.below(12) {
        sort if sort < units => few(&unit_cards::SORTS, chance),
        0..=7 => few(&SORTS, chance),
        _ => few(&transfer_cards::SORTS, chance),
    })
}

fn mixture(version: Version, chance: &mut Chance, few: impl Fn(&mut Chance) -> Vec<Card>) -> Named {
    let most = chance.one_of(&[1, 4, 16, 16, 64, 256]);
    let count = chance.below(most + 1) as usize;
    let mut cards = Vec::new();
    while cards.len() < count {
        cards.extend(few(chance));
    }
    let mut bytes = match version {
        Version::One => deck(&cards[..count]),
        Version::Two => tags::with_tags(&cards[..count], chance),
    };
    if chance.below(4) == 0 {
        bytes = damage::by_chance(bytes, chance);
    }
    Named {
        name: "mixed",
        bytes,
    }
}

/// A few cards, of one sort. Many of them are of the first sort, our own answers.
fn few(sorts: &[SortRow], chance: &mut Chance) -> Vec<Card> {
    let (_, _, _, own) = sorts[0];
    let (_, _, _, any) = chance.one_of(sorts);
    let sort = chance.one_of(&[own, any]);
    let cards = sort(chance);
    let first = chance.below(cards.len().max(1) as u64) as usize;
    let count = 1 + chance.below(4) as usize;
    cards.into_iter().skip(first).take(count).collect()
}

/// Kepler's own answer.
fn own(chance: &mut Chance) -> Vec<Card> {
    vec![Card::own(kepler_inputs::mixed(chance))]
}

/// The rules' trials: deck A, a deck of no bytes and one of 8.
pub fn trials() -> Vec<Named> {
    named("trial", [deck_a(), Vec::new(), deck(&[])])
}

pub fn deck_a() -> Vec<u8> {
    deck(&cards_of_a())
}

/// The cards of the rules' deck A: solved, refused, solved.
pub fn cards_of_a() -> [Card; 3] {
    let problem = |v: Vector| Input {
        words: PLAIN.words(v, 0.0),
        limit: 20,
    };
    let round = |x: f64| {
        let state = [x, 0.0, 0.0, 0.0, 1.0, 0.0].map(f64::to_bits);
        Card::solved(problem([0.0, 1.0, 0.0]), 0, state)
    };
    let straight = Card::refused(problem([1.0, 0.0, 0.0]), 7);
    [round(1.0), straight, round(2.0)]
}

/// Kepler's own inputs, mixed up: with its own answers in decks of each number of cards; those that
/// it refuses as solved cards; those that it solves as refused ones.
fn of_kepler(chance: &mut Chance) -> Vec<Named> {
    let problems = kepler_inputs::shuffled(chance);
    let mut own = problems.iter().map(|problem| Card::own(*problem)).cycle();
    let counts = (0..=256).map(|count| deck(&own.by_ref().take(count).collect::<Vec<Card>>()));
    let mut list = named("every-count", counts);
    let solved = |problem: &Input| kepler::answer(problem).refusal().is_none();
    let (solved, refused): (Vec<Input>, Vec<Input>) = problems.into_iter().partition(solved);
    let claimed: Vec<Card> = refused.into_iter().map(refused::claimed).collect();
    list.extend(named("claimed", dealt(&claimed, 256, chance)));
    let denied = solved
        .into_iter()
        .map(|input| refused::denied(input, chance));
    let denied: Vec<Card> = denied.collect();
    list.extend(named("denied", dealt(&denied, 256, chance)));
    list
}

/// The cards, in their order, in decks of 1 to `most`.
pub fn dealt(cards: &[Card], most: u64, chance: &mut Chance) -> Vec<Vec<u8>> {
    dealt_by(cards, most, chance, deck)
}

/// Things, in their order, in decks of 1 to `most`, which are made of them.
pub fn dealt_by<T>(
    mut things: &[T],
    most: u64,
    chance: &mut Chance,
    deck: impl Fn(&[T]) -> Vec<u8>,
) -> Vec<Vec<u8>> {
    let mut decks = Vec::new();
    while !things.is_empty() {
        let count = (1 + chance.below(most) as usize).min(things.len());
        let (front, rest) = things.split_at(count);
        decks.push(deck(front));
        things = rest;
    }
    decks
}

/// Decks of those cards alone whose exact gap is more than 2^-36 and that are accepted.
fn rounded_down(chance: &mut Chance) -> Vec<Vec<u8>> {
    let cards = (0..40).flat_map(|_| ties::about_tie(chance));
    let cards: Vec<Card> = cards.filter(ties::rounded_down).collect();
    assert!(
        cards.len() > 100,
        "too few cards are rounded down: {}",
        cards.len()
    );
    dealt(&cards, 16, chance)
}

fn damaged() -> Vec<Named> {
    let (a, empty) = (deck_a(), deck(&[]));
    let trailing = (1..=40).map(|more| damage::lengthened(&a, a.len() + more, more as u8 & 1));
    let short = (0..8).flat_map(|length| [0, 255].map(|byte| vec![byte; length]));
    [
        named("cut", damage::cut(&a)),
        named("cut-empty", damage::cut(&empty)),
        named("short", short),
        named("byte", damage::each_byte(&a)),
        named("field", damage::each_field(&a)),
        named("field-empty", damage::each_field(&empty)),
        named("pair", damage::pairs(&a)),
        named("gap", damage::gaps(&a)),
        named("swapped", damage::swapped(&a)),
        named("trailing", trailing),
    ]
    .into_iter()
    .flatten()
    .collect()
}

/// No deck's listing is longer, in version 1: a card that is accepted, and others whose verdicts have three
/// digits.
pub fn longest_cards(chance: &mut Chance) -> Vec<Card> {
    let good = solved::solved(chance);
    let problem = good.problem;
    let spoilt = spoilt::each(problem.words).into_iter().cycle();
    let rejected = spoilt.map(|words| Card::at(Input { words, ..problem }, 0.0));
    let cards = [good].into_iter().chain(rejected);
    cards.take(MOST_CARDS).collect()
}

/// The largest deck, and inputs about and beyond the most that is read.
fn long(chance: &mut Chance) -> Vec<Named> {
    let solved = (0..256).map(|_| solved::solved(chance));
    let largest = deck(&solved.collect::<Vec<Card>>());
    let mut list = named("largest", [largest.clone()]);
    for front in [&largest, &deck_a(), &deck(&[]), &vec![2]] {
        let lengths = [35_847, 35_848, 35_849, 35_850, 70_000];
        let filled = |fill: u8| lengths.map(|length| damage::lengthened(front, length, fill));
        list.extend(named("long", [0, 255].into_iter().flat_map(filled)));
    }
    list
}
