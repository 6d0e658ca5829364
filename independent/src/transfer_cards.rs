//! Solved transfers as others may send them: our own, found another way, altered, or about where a
//! verdict changes.

use crate::answer::Answer;
use crate::cards::{Card, Claim, Velocity};
use crate::chance::Chance;
use crate::deck_inputs::SortRow;
use crate::ends::Ends;
use crate::kepler_inputs::LIMITS;
use crate::legs::Leg;
use crate::motion::{beside, last};
use crate::search::NEAR;
use crate::solved_cards::{LEAST, PLACES};
use crate::spoilt::{self, payload, NOT_FINITE};
use crate::transfer::{self, Input, Started, FAR, LONG, SHORT};
use crate::transfer_edges::about_open;
use crate::transfer_inputs::{self, unhurried, NO_WAYS};

/// The sorts of cards, as deck_inputs has them.
pub const SORTS: [SortRow; 15] = [
    ("transfers", 400, 16, own),
    ("z-moved", 12, 16, moved),
    ("z-other-ways", 40, 16, other_ways),
    ("velocity-bits", 1, 16, velocity_bits),
    ("z-about-bracket", 10, 16, about_bracket),
    ("z-about-ends", 20, 16, about_ends),
    ("z-not-finite", 4, 16, not_finite),
    ("z-about-near", 16, 16, about_near),
    ("z-about-near-by-time", 16, 16, about_near_by_time),
    ("ways", 3, 16, ways),
    ("other-way", 30, 16, other_way),
    ("transfer-refused", 24, 16, refused),
    ("about-open", 10, 16, cards_about_open),
    ("transfer-not-finite", 2, 16, numbers_not_finite),
    ("transfer-limits", 6, 16, limits),
];

/// The refusals from before the first guess.
const OWN_REFUSALS: [u32; 8] = [1, 2, 3, 5, 6, 50, 51, 52];

/// A transfer that passes the tests before the first guess, and a z at which it is solved, or
/// nearly so.
pub struct Base {
    input: Input,
    started: Started,
    z: f64,
}

impl Base {
    /// A transfer that is solved. Its limit is any that is allowed: a card need not have been found
    /// within it.
    fn any(chance: &mut Chance) -> Base {
        let limit = 1 + chance.below(100) as u32;
        std::iter::repeat_with(|| transfer_inputs::mixed(chance))
            .filter(|input| transfer::answer(input).refusal().is_none())
            .find_map(|input| Base::of(Input { limit, ..input }))
            .expect("many transfers are solved")
    }

    /// None where the tests refuse the transfer.
    pub fn of(input: Input) -> Option<Base> {
        let started = transfer::start(&input).ok()?;
        let z = match transfer::answer(&unhurried(input.words, input.way)) {
            Answer::Solved { x, .. } => x,
            _ => halved(&started).unwrap_or(0.0),
        };
        Some(Base { input, started, z })
    }

    fn time(&self, z: f64) -> f64 {
        self.started.transfer.time(z)
    }

    fn wanted(&self) -> f64 {
        self.started.search.t
    }

    pub fn at(&self, z: f64) -> Card {
        Card::transfer_at(self.input, z)
    }

    /// The z at which |T - t| comes to 2^-36.
    pub fn ends(&self) -> Ends {
        let near = |z: f64| self.started.times(z).gap() <= NEAR;
        Ends::about(self.z, FAR, near)
    }

    fn solved(&self) -> Card {
        self.at(self.z)
    }

    /// z by false position, the bounds taken in turns.
    fn by_turns(&self) -> f64 {
        let (mut lo, mut hi) = (0.0, FAR);
        for turn in 0..200 {
            let (low, high) = (self.time(lo), self.time(hi));
            let part = (self.wanted() - low) / (high - low);
            let part = [part, 0.5][turn % 2].clamp(0.0, 1.0);
            let z = lo + part * (hi - lo);
            *(if self.time(z) < self.wanted() {
                &mut lo
            } else {
                &mut hi
            }) = z;
        }
        hi
    }
}

/// The last z before t.
fn halved(started: &Started) -> Option<f64> {
    let Started { transfer, search } = started;
    last(LEAST, FAR, |z| transfer.time(z) < search.t)
}

/// A card with nothing against it.
pub fn solved(chance: &mut Chance) -> Card {
    Base::any(chance).solved()
}

/// A transfer of any kind: our own answer, or, where there is none, as if it were solved.
pub fn own(chance: &mut Chance) -> Vec<Card> {
    vec![claimed(transfer_inputs::mixed(chance))]
}

/// The transfer as solved where it would be, whatever the answer is.
fn claimed(input: Input) -> Card {
    match Base::of(input) {
        Some(base) => base.solved(),
        None => Card::transfer_at(input, 1.0),
    }
}

/// z moved, with the velocity that it comes to and with that of the answer.
fn moved(chance: &mut Chance) -> Vec<Card> {
    let base = Base::any(chance);
    let own = velocity(&base.solved());
    let cards = PLACES.map(|places| base.at(beside(base.z, places)));
    cards
        .into_iter()
        .flat_map(|card| [card, with_velocity(card, own)])
        .collect()
}

/// z by halving and by false position.
fn other_ways(chance: &mut Chance) -> Vec<Card> {
    let base = Base::any(chance);
    let halved = halved(&base.started);
    [halved, Some(base.by_turns())]
        .into_iter()
        .flatten()
        .map(|z| base.at(z))
        .collect()
}

/// Each bit of the velocity altered.
fn velocity_bits(chance: &mut Chance) -> Vec<Card> {
    let card = Base::any(chance).solved();
    let altered = |bit: usize| {
        let mut velocity = velocity(&card);
        velocity[bit / 64] ^= 1 << (bit % 64);
        with_velocity(card, velocity)
    };
    (0..192).map(altered).collect()
}

/// z on, beside and beyond the bracket's ends, and below 0.
fn about_bracket(chance: &mut Chance) -> Vec<Card> {
    let base = Base::any(chance);
    let beyond = [2.0 * FAR, 1e9, 1e200, f64::MAX].into_iter();
    about_both_ends()
        .chain(beyond)
        .chain([base.z])
        .flat_map(|z| [z, -z])
        .map(|z| base.at(z))
        .collect()
}

/// The same with t at the T of an end and beside it, so that nothing else is against z.
fn about_ends(chance: &mut Chance) -> Vec<Card> {
    let Some(leg) = Leg::exact(chance) else {
        return Vec::new();
    };
    let end = chance.one_of(&[0.0, FAR]);
    let t = beside(leg.time(end), chance.one_of(&[0, 0, 0, -2, -1, 1, 2]));
    let input = leg.input(t, 100);
    about_both_ends()
        .filter(|z| (z - end).abs() < 1.0)
        .flat_map(|z| [z, -z])
        .map(|z| Card::transfer_at(input, z))
        .collect()
}

fn about_both_ends() -> impl Iterator<Item = f64> {
    let at_zero = (0..=2).map(|places| beside(0.0, places));
    at_zero.chain((-2..=2).map(|places| beside(FAR, places)))
}

/// z no number, with each of some words and with chance payloads.
fn not_finite(chance: &mut Chance) -> Vec<Card> {
    let base = Base::any(chance);
    let own = velocity(&base.solved());
    let payloads = [(); 4].map(|()| payload(chance));
    NOT_FINITE
        .into_iter()
        .chain(payloads)
        .map(|z| Card::transfer(base.input, z, own))
        .collect()
}

/// |T - t| at 2^-36, on either side of the answer.
fn about_near(chance: &mut Chance) -> Vec<Card> {
    let base = Base::any(chance);
    base.ends().around(2).map(|z| base.at(z)).collect()
}

/// The same by the choice of dt, met to the last bit: |T - t| is 2^-36 itself, or a last place more
/// or less. T is so much larger that the difference is exact, which is held here.
fn about_near_by_time(chance: &mut Chance) -> Vec<Card> {
    let Some(leg) = Leg::exact(chance) else {
        return Vec::new();
    };
    let z = FAR * chance.between(0.0, 1.0);
    let line = leg.time(z) + chance.sign() * NEAR;
    (-2..=2)
        .map(|places| beside(line, places))
        .map(|t| {
            let ratio = t / leg.time(z);
            assert!((0.5..=2.0).contains(&ratio), "a difference that is rounded");
            Card::transfer_at(leg.input(t, 100), z)
        })
        .collect()
}

/// Ways that there are not, and each bit of the way, of cards with nothing else against them and of
/// others.
fn ways(chance: &mut Chance) -> Vec<Card> {
    let good = Base::any(chance).solved();
    let number = chance.one_of(&OWN_REFUSALS);
    let cards = [good, claimed(input_with(number, chance))];
    let bits = (0..32).map(|bit| 1 << bit).chain(NO_WAYS);
    bits.flat_map(|way| cards.map(|card| with_way(card, way)))
        .collect()
}

/// The other way, with the z and the velocity of the right one.
fn other_way(chance: &mut Chance) -> Vec<Card> {
    let base = Base::any(chance);
    let way = SHORT + LONG - base.input.way;
    let other = Input { way, ..base.input };
    vec![
        with_way(base.solved(), way),
        Card::transfer_at(other, base.z),
    ]
}

/// Each refusal of its own, at some z, and with a z that is no number.
fn refused(chance: &mut Chance) -> Vec<Card> {
    OWN_REFUSALS
        .into_iter()
        .flat_map(|number| {
            let input = input_with(number, chance);
            let z = chance.one_of(&[0.0, 1.0, FAR, f64::NAN, -1.0]);
            [claimed(input), Card::transfer_at(input, z)]
        })
        .collect()
}

/// A transfer that is refused with this number.
fn input_with(number: u32, chance: &mut Chance) -> Input {
    std::iter::repeat_with(|| transfer_inputs::mixed(chance))
        .find(|input| transfer::answer(input).refusal() == Some(number))
        .expect("the mixture has each refusal")
}

/// The angle about the line at which 50 ends.
fn cards_about_open(chance: &mut Chance) -> Vec<Card> {
    let inputs = about_open(chance).unwrap_or_default();
    inputs.into_iter().map(claimed).collect()
}

/// Each number of a transfer no finite number.
fn numbers_not_finite(chance: &mut Chance) -> Vec<Card> {
    let base = Base::any(chance);
    let mut spoilt = spoilt::each(base.input.words);
    spoilt.extend(spoilt::each_with_payload(base.input.words, chance));
    spoilt
        .into_iter()
        .map(|words| Input {
            words,
            ..base.input
        })
        .map(|input| Card::transfer_at(input, base.z))
        .collect()
}

/// Each limit.
fn limits(chance: &mut Chance) -> Vec<Card> {
    let base = Base::any(chance);
    LIMITS
        .map(|limit| Input {
            limit,
            ..base.input
        })
        .map(claimed)
        .to_vec()
}

/// The card with another way.
pub fn with_way(mut card: Card, other: u32) -> Card {
    if let Claim::Transfer { way, .. } = &mut card.claim {
        *way = other;
    }
    card
}

fn velocity(card: &Card) -> Velocity {
    match card.claim {
        Claim::Transfer { velocity, .. } => velocity,
        Claim::Solved { .. } | Claim::Refused { .. } => [0; 3],
    }
}

fn with_velocity(mut card: Card, other: Velocity) -> Card {
    if let Claim::Transfer { velocity, .. } = &mut card.claim {
        *velocity = other;
    }
    card
}
