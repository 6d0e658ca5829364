//! Solved cards, of either kind, whose units of time are from all over binary64, and others between
//! them that do not count as solved.

use crate::bytes::u64_at;
use crate::cards::Card;
use crate::chance::Chance;
use crate::conic::Words;
use crate::copy_inputs::with_word;
use crate::deck::{accepted, MOST_CARDS};
use crate::deck_inputs::{of_sorts, SortRow};
use crate::ends::Ends;
use crate::file_suite::{named, Named};
use crate::kepler::Input;
use crate::kepler_inputs::aimed;
use crate::legs::{self, way};
use crate::motion::{self, with, Frame, SPAN};
use crate::search::NEAR;
use crate::solved_cards;
use crate::transfer;
use crate::transfer_cards;
use crate::writer::deck;

/// The sorts of cards, as deck_inputs has them.
pub const SORTS: [SortRow; 9] = [
    ("units", 500, 24, |chance| WIDE.among_others(chance)),
    ("all-units", 300, 16, |chance| ALL.among_others(chance)),
    ("largest-units", 500, 32, |chance| {
        LARGEST.among_others(chance)
    }),
    ("smallest-units", 200, 16, |chance| {
        SMALLEST.among_others(chance)
    }),
    ("subnormal", 200, 16, |chance| {
        SUBNORMAL.among_others(chance)
    }),
    ("largest-and-smallest", 200, 16, |chance| {
        chance.one_of(&[LARGEST, SMALLEST]).among_others(chance)
    }),
    ("units-at-bound", 200, 32, |chance| {
        vec![AT_BOUND.good(chance)]
    }),
    ("last-times", 150, 8, |chance| {
        LAST_TIMES.among_others(chance)
    }),
    ("too-far", 120, 8, |chance| TOO_FAR.any(chance)),
];

/// The gate's decks, the same list in every run: of each sort, and some with the most cards.
pub fn decks() -> Vec<Named> {
    let chance = &mut Chance::at(11, 0);
    let mut list = of_sorts(&SORTS, chance);
    let recipes = [WIDE, LARGEST, AT_BOUND, AT_BOUND, LAST_TIMES, SUBNORMAL];
    let full = recipes.map(|recipe| [(); MOST_CARDS].map(|()| recipe.good(chance)));
    list.extend(named("full", full.map(|cards| deck(&cards))));
    list
}

/// How a card is made.
#[derive(Clone, Copy)]
struct Recipe {
    /// The exponents of its unit.
    units: [i32; 2],
    /// What becomes of its dt.
    timed: fn(Words, &mut Chance) -> Words,
    /// Where it is sent as solved.
    place: fn(&Ends, &mut Chance) -> f64,
}

/// Units from 1e-150 to 1e150.
const WIDE: Recipe = Recipe {
    units: [-498, 497],
    timed: |words, _| words,
    place: anywhere,
};

/// Units from all over binary64.
const ALL: Recipe = Recipe {
    units: [-1074, 1023],
    ..WIDE
};

/// Units of 1e290 and more.
const LARGEST: Recipe = Recipe {
    units: [964, 1023],
    ..WIDE
};

/// Units of about 1e-290 and less.
const SMALLEST: Recipe = Recipe {
    units: [-1074, -964],
    ..WIDE
};

/// Units with which every residual is subnormal, or rounded to 0.
const SUBNORMAL: Recipe = Recipe {
    units: [-1060, -988],
    ..WIDE
};

/// The largest units there are, with |T - t| as near to 2^-36 as it comes.
const AT_BOUND: Recipe = Recipe {
    units: [1023, 1023],
    place: at_end,
    ..WIDE
};

/// So long a dt that T in seconds may not be finite.
const LAST_TIMES: Recipe = Recipe {
    units: [1016, 1023],
    timed: last_time,
    place: at_end,
};

/// |T - t| above 2^-36, which is less in seconds.
const TOO_FAR: Recipe = Recipe {
    units: [-498, -24],
    place: beyond,
    ..WIDE
};

impl Recipe {
    /// None where the tests before the first guess refuse it.
    fn tried(&self, chance: &mut Chance) -> Option<Card> {
        let frame = Frame::of_unit(chance, self.units);
        let limit = 1 + chance.below(100) as u32;
        if chance.below(2) == 0 {
            let words = (self.timed)(problem(&frame, chance), chance);
            let base = solved_cards::Base::of(Input { words, limit })?;
            Some(base.at((self.place)(&base.ends(), chance)))
        } else {
            let way = way(chance);
            let words = (self.timed)(arc(&frame, way, chance), chance);
            let base = transfer_cards::Base::of(transfer::Input { words, limit, way })?;
            Some(base.at((self.place)(&base.ends(), chance)))
        }
    }

    fn any(&self, chance: &mut Chance) -> Vec<Card> {
        self.tried(chance).into_iter().collect()
    }

    /// A card with nothing against it.
    fn good(&self, chance: &mut Chance) -> Card {
        std::iter::repeat_with(|| self.tried(chance))
            .flatten()
            .find(accepted)
            .expect("many are accepted")
    }

    /// The same, at times with another card of its problem that does not count as solved: one whose
    /// velocity is wrong, or one that is rightly refused.
    fn among_others(&self, chance: &mut Chance) -> Vec<Card> {
        let card = self.good(chance);
        match chance.below(6) {
            0 => vec![card, with_other_velocity(&card, chance)],
            1 => vec![without_guesses(&card), card],
            _ => vec![card],
        }
    }
}

fn with_other_velocity(card: &Card, chance: &mut Chance) -> Card {
    let body = card.body();
    let at = body.len() - 8;
    let last = u64_at(&body, at);
    with_word(card, at, last ^ 1 << chance.below(63))
}

fn without_guesses(card: &Card) -> Card {
    Card::refused(
        Input {
            limit: 0,
            ..card.problem
        },
        3,
    )
}

/// A motion of any kind, forwards or backwards, far or not far.
fn problem(frame: &Frame, chance: &mut Chance) -> Words {
    let words = frame.words(motion::any(chance), 0.0);
    let part = match chance.below(2) {
        0 => chance.between(0.0, 1.0),
        _ => chance.scale(-60, -5),
    };
    aimed(words, chance.sign() * part)
}

fn arc(frame: &Frame, way: u32, chance: &mut Chance) -> Words {
    let length = frame.r0 * chance.scale(-3, 2);
    let words = frame.transfer(length, legs::direction(chance), 0.0);
    legs::timed(words, way, chance)
}

/// The longest dt there is, or one of the last before it, with the sign that it has.
fn last_time(words: Words, chance: &mut Chance) -> Words {
    let sign = words[SPAN] & 1 << 63;
    with(words, SPAN, sign | (f64::MAX.to_bits() - chance.below(4)))
}

fn anywhere(ends: &Ends, chance: &mut Chance) -> f64 {
    match chance.below(6) {
        0 => ends.solved,
        1 => at_end(ends, chance),
        _ => chance.between(ends.first(), ends.last()),
    }
}

fn at_end(ends: &Ends, chance: &mut Chance) -> f64 {
    chance.one_of(&[ends.first(), ends.last()])
}

fn beyond(ends: &Ends, chance: &mut Chance) -> f64 {
    ends.last() + NEAR * chance.scale(0, 10)
}
