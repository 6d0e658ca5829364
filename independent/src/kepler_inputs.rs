//! The problems that Kepler is tried on.

use crate::chance::{power_of_two, Chance};
use crate::conic::{Orbit, Vector, Words};
use crate::far_end_inputs;
use crate::kepler::{far_end, Input};
use crate::kepler_edges;
use crate::motion::{self, orbit_of, with, Frame, PLAIN, SPAN};
use crate::spoilt::{self, ALTERED};
use crate::universal::{unrefused, Functions};

/// The limits at the edges of what is allowed, some between, and some of which a part of the bytes
/// would be allowed.
pub const LIMITS: [u32; 11] = [
    0,
    1,
    2,
    3,
    20,
    100,
    101,
    0x0000_0114,
    0x0001_0014,
    0x0100_0014,
    u32::MAX,
];

/// The gate's inputs, the same list in every run.
pub fn fixed() -> Vec<Input> {
    let chance = &mut Chance::at(2, 0);
    let mut list = trials();
    list.extend(not_finite(chance));
    list.extend(every_limit(chance));
    list.extend(no_time(chance));
    list.extend(kepler_edges::all(chance));
    list.extend((0..400).map(|_| unhurried(long_arc(chance))));
    list.extend((0..16_000).map(|_| mixed(chance)));
    list.extend(far_end_inputs::problems(chance));
    list
}

/// The gate's inputs in another order, in which the kinds are mixed up.
pub fn shuffled(chance: &mut Chance) -> Vec<Input> {
    let mut list = fixed();
    for i in (1..list.len()).rev() {
        list.swap(i, chance.below(i as u64 + 1) as usize);
    }
    list
}

/// One problem of some kind. Most of them can be solved.
pub fn mixed(chance: &mut Chance) -> Input {
    let words = match chance.below(16) {
        0..=7 => ordinary(chance),
        8 => low_pass(chance),
        9 | 10 => by_the_clock(chance),
        11 => long_arc(chance),
        12 => about_far_end(chance),
        13 => huge_or_tiny(chance),
        14 => chance.one_of(&[motion::one_changed, spoilt::by_chance])(ordinary(chance), chance),
        _ => motion::any_words(chance),
    };
    let limit = match chance.below(8) {
        0 => chance.below(102) as u32,
        1 => chance.one_of(&LIMITS),
        2 | 3 => 20,
        _ => 100,
    };
    Input { words, limit }
}

/// The problem with the largest limit.
pub fn unhurried(words: Words) -> Input {
    Input { words, limit: 100 }
}

/// Kepler's trials in the rules, in their order.
pub fn trials() -> Vec<Input> {
    let plain = |v: Vector, dt: f64, limit: u32| Input {
        words: PLAIN.words(v, dt),
        limit,
    };
    let changed = |place: usize, number: f64| {
        with(PLAIN.words([0.0, 1.0, 0.0], 0.0), place, number.to_bits())
    };
    vec![
        // v (1,1,0): alpha 0, X 63.5. At x = 4: U1 4, U2 8, R 13, position (5,12,0).
        plain([1.0, 1.0, 0.0], 4.0 + 8.0 + 64.0 / 6.0, 20),
        // v (0,1,0), dt 0: solved, x 0, count 1, the state that was given.
        plain([0.0, 1.0, 0.0], 0.0, 20),
        // v (1,0,0), dt 0: 7. v (0,2^-10,0), dt 0: solved; v (0,2^-11,0), dt 0: 7.
        plain([1.0, 0.0, 0.0], 0.0, 20),
        plain([0.0, power_of_two(-10), 0.0], 0.0, 20),
        plain([0.0, power_of_two(-11), 0.0], 0.0, 20),
        // limit 0: 3; limit 101: 3. mu -1 and v (0,NaN,0): 106, the number of the NaN.
        plain([0.0, 1.0, 0.0], 0.0, 0),
        plain([0.0, 1.0, 0.0], 0.0, 101),
        unhurried(with(changed(0, -1.0), 5, f64::NAN.to_bits())),
        // v (1,1,0), dt 20, limit 1: 10, count 1, bracket 0 to 20.
        plain([1.0, 1.0, 0.0], 20.0, 1),
        // v (0,1,0), limit 100: dt 7: solved; dt 9: 8; dt -9: 8.
        plain([0.0, 1.0, 0.0], 7.0, 100),
        plain([0.0, 1.0, 0.0], 9.0, 100),
        plain([0.0, 1.0, 0.0], -9.0, 100),
        // r (1e200,0,0): 5. v (0,1e200,0): 6.
        unhurried(changed(1, 1e200)),
        unhurried(changed(5, 1e200)),
    ]
}

/// Each number not finite, and each two, alone and together with what gives 2, 3 or 5.
fn not_finite(chance: &mut Chance) -> Vec<Input> {
    let mut list = Vec::new();
    for limit in [100, 0] {
        for altered in ALTERED {
            let words = altered(ordinary(chance));
            let spoilt = spoilt::alone_and_in_pairs(words, chance).into_iter();
            list.extend(spoilt.map(|words| Input { words, limit }));
        }
    }
    list
}

/// Each limit, alone and together with what gives 2.
fn every_limit(chance: &mut Chance) -> Vec<Input> {
    let mut list = Vec::new();
    for _ in 0..40 {
        let words = ordinary(chance);
        let bad_mu = chance.one_of(&[0.0, -0.0, -1.0, -5e-324f64]);
        for words in [words, with(words, 0, bad_mu.to_bits())] {
            list.extend(LIMITS.map(|limit| Input { words, limit }));
        }
    }
    list
}

/// dt 0 and -0.
fn no_time(chance: &mut Chance) -> Vec<Input> {
    let mut list = Vec::new();
    for _ in 0..100 {
        let words = Frame::any(chance).words(motion::any(chance), 0.0);
        list.extend([0.0, -0.0f64].map(|dt| Input {
            words: with(words, SPAN, dt.to_bits()),
            limit: 1,
        }));
    }
    list
}

/// A motion of any kind, forwards or backwards, within the starting bracket.
fn ordinary(chance: &mut Chance) -> Words {
    let words = Frame::any(chance).words(motion::any(chance), 0.0);
    aimed(words, chance.between(-1.0, 1.0))
}

/// A closed orbit about a body, for some seconds, hours or days.
fn by_the_clock(chance: &mut Chance) -> Words {
    let w = chance.one_of(&[motion::ellipse, motion::nearly_circle])(chance);
    let longest = chance.one_of(&[100.0, 10_000.0, 1_000_000.0]);
    Frame::real(chance).words(w, chance.between(-longest, longest))
}

/// So far on a slow hyperbola that one last place of T can be more than the search allows: it
/// closes the bracket.
fn long_arc(chance: &mut Chance) -> Words {
    let alpha = chance.between(-0.03, -0.01);
    let words = Frame::any(chance).words(motion::of_alpha(chance, alpha), 0.0);
    aimed(words, chance.sign() * chance.between(0.8, 1.0))
}

fn about_far_end(chance: &mut Chance) -> Words {
    let words = Frame::any(chance).words(motion::any(chance), 0.0);
    aimed(words, chance.sign() * chance.between(0.95, 1.1))
}

/// On a nearly straight line to about where it comes closest to the middle.
fn low_pass(chance: &mut Chance) -> Words {
    let words = Frame::any(chance).words(motion::nearly_straight(chance), 0.0);
    let parts = [(); 64].map(|()| chance.between(-1.0, 1.0));
    let height = |part: f64| at_part(&words, part).map_or(0.0, |(orbit, u)| orbit.radius(&u));
    let lower = |a: f64, b: f64| if height(b) < height(a) { b } else { a };
    aimed(words, parts.into_iter().fold(1.0, lower))
}

/// Sizes from all over binary64. Some can't be scaled.
fn huge_or_tiny(chance: &mut Chance) -> Words {
    let frame = Frame::sized(chance, [-530, 510], [-800, 800]);
    let words = frame.words(motion::any(chance), 0.0);
    aimed(words, chance.between(-1.0, 1.0))
}

/// The problem with the time to this part of the way to the far end, if it can be scaled.
pub fn aimed(words: Words, part: f64) -> Words {
    match at_part(&words, part) {
        Some((orbit, u)) => with(words, SPAN, (orbit.time(&u) * orbit.f4).to_bits()),
        None => words,
    }
}

fn at_part(words: &Words, part: f64) -> Option<(Orbit, Functions)> {
    let orbit = orbit_of(words)?;
    let u = unrefused(part * far_end(&orbit).ok()?, orbit.alpha);
    Some((orbit, u))
}
