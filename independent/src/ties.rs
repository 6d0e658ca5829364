//! Solved cards about the last |T - t| that is near enough: exactly 2^-36 + 2^-89, since up to
//! there binary64 rounds the difference down to 2^-36. What is exact is said over whole numbers.

use crate::cards::{Card, Claim};
use crate::chance::{power_of_two, Chance};
use crate::deck::accepted;
use crate::kepler;
use crate::kepler_edges::Exact;
use crate::motion::{self, beside};
use crate::root::parts;
use crate::search::NEAR;
use crate::solved_cards::sent;

/// The whole numbers are multiples of 2^-160.
const UNIT: i32 = -160;
const TOLERANCE: u128 = 1 << (-36 - UNIT);
const LAST_NEAR: u128 = TOLERANCE + (1 << (-89 - UNIT));

/// Cards with T beyond t and with t beyond T. Each is held to what its exact gap says.
pub fn about_tie(chance: &mut Chance) -> Vec<Card> {
    let w = match chance.below(2) {
        0 => [0.0, 1.0, 0.0],
        _ => motion::nearly_circle(chance),
    };
    let Some(exact) = Exact::of(w, chance) else {
        return Vec::new();
    };
    let large = NEAR * chance.between(1.0, 2.0);
    let larger = beside(NEAR, 1 + chance.below(64) as i64);
    let small = chance.scale(-88, -38);
    let less = |size: f64| exact.time(size) - NEAR - power_of_two(-89);
    let pairs = [
        (large, less(large)),
        (larger, less(larger)),
        (small, exact.time(small) + NEAR),
    ];
    let side = chance.sign();
    let cards: Vec<Card> = pairs
        .into_iter()
        // A smaller t has digits below the unit.
        .filter(|(_, t)| *t > power_of_two(-100))
        .flat_map(|(size, t)| (-2..=2).map(move |places| (size, beside(t, places))))
        .map(|(size, t)| sent(&exact, t, side, size))
        .collect();
    cards.iter().for_each(hold_to_gap);
    cards
}

fn hold_to_gap(card: &Card) {
    assert_eq!(
        accepted(card),
        exact_gap(card) <= LAST_NEAR,
        "a card's verdict is not what its exact gap says"
    );
}

/// Whether the exact gap is above 2^-36 and the card is accepted all the same.
pub fn rounded_down(card: &Card) -> bool {
    exact_gap(card) > TOLERANCE && accepted(card)
}

/// |T - t|, both being on the same side of 0.
fn exact_gap(card: &Card) -> u128 {
    let (Ok(started), Claim::Solved { x, .. }) = (kepler::start(&card.problem), card.claim) else {
        panic!("a card about the tie is a solved one, of a problem that passes the first tests");
    };
    let time = started.orbit.time_at(f64::from_bits(x));
    whole(time.abs()).abs_diff(whole(started.search.t.abs()))
}

/// A positive number in units.
fn whole(x: f64) -> u128 {
    let (m, e) = parts(x);
    let shift = e - UNIT;
    assert!(
        (0..m.leading_zeros() as i32).contains(&shift),
        "{x:e} is no whole number of units"
    );
    m << shift
}
