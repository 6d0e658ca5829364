//! The problems that Theta is tried on.

use crate::chance::{power_of_two, Chance};
use crate::conic::{inner_root, Vector, Words, LOW};
use crate::edges;
use crate::motion::{self, beside, either_way, last, orbit_of, with, Frame, PLAIN, SPAN};
use crate::spoilt::{self, ALTERED};
use crate::theta::{polar, OPEN, WIDEST};
use crate::universal::unrefused;

/// The gate's inputs, the same list in every run.
pub fn fixed() -> Vec<Words> {
    let chance = &mut Chance::at(3, 0);
    let mut list = trials();
    list.extend(not_finite(chance));
    list.extend(no_mu(chance));
    list.extend(lines(chance));
    list.extend((0..10_000).map(|_| mixed(chance)));
    list
}

/// One problem of some kind. Most of them can be solved.
pub fn mixed(chance: &mut Chance) -> Words {
    match chance.below(16) {
        0..=11 => ordinary(chance),
        12 => too_wide(chance),
        13 => huge_or_tiny(chance),
        14 => chance.one_of(&[motion::one_changed, spoilt::by_chance])(ordinary(chance), chance),
        _ => motion::any_words(chance),
    }
}

/// Theta's trials in the rules, in their order.
fn trials() -> Vec<Words> {
    vec![
        // v (0,1,0), a 0: the state that was given; a the next number above 6.25: 4.
        PLAIN.words([0.0, 1.0, 0.0], 0.0),
        PLAIN.words([0.0, 1.0, 0.0], beside(6.25, 1)),
        // v (1,1,0), a 1.5707963267948966: 12.
        PLAIN.words([1.0, 1.0, 0.0], std::f64::consts::FRAC_PI_2),
    ]
}

/// Each number not finite, and each two, alone and together with what gives 2, 4 or 5.
fn not_finite(chance: &mut Chance) -> Vec<Words> {
    let allowed: fn(Words) -> Words = |words| words;
    let too_wide: fn(Words) -> Words = |words| with(words, SPAN, 7f64.to_bits());
    let mut list = Vec::new();
    for angle in [allowed, too_wide] {
        for altered in ALTERED {
            let words = angle(altered(ordinary(chance)));
            list.extend(spoilt::alone_and_in_pairs(words, chance));
        }
    }
    list
}

/// mu -1, 0 and -0.
fn no_mu(chance: &mut Chance) -> [Words; 3] {
    let words = ordinary(chance);
    [-1.0, 0.0, -0.0].map(|mu: f64| with(words, 0, mu.to_bits()))
}

/// What is on and beside the lines at which the answer changes.
fn lines(chance: &mut Chance) -> Vec<Words> {
    let mut list = Vec::new();
    for _ in 0..100 {
        list.extend(about_widest(chance));
        let straight = edges::straight(chance).into_iter();
        list.extend(straight.map(|words| turned(words, chance)));
        list.extend(about_open(chance));
        list.extend(about_low(chance));
        list.extend(beyond(chance));
    }
    for words in &mut list {
        *words = either_way(*words, chance);
    }
    list
}

/// The problem with some allowed angle.
fn turned(words: Words, chance: &mut Chance) -> Words {
    let angle = match chance.below(8) {
        0 => chance.sign() * chance.scale(-60, 0),
        1 => chance.one_of(&[0.0, -0.0]),
        _ => chance.between(-WIDEST, WIDEST),
    };
    with(words, SPAN, angle.to_bits())
}

/// A motion of any kind through some angle.
fn ordinary(chance: &mut Chance) -> Words {
    let words = Frame::any(chance).words(motion::any(chance), 0.0);
    turned(words, chance)
}

fn too_wide(chance: &mut Chance) -> Words {
    let angle = chance.sign() * WIDEST * chance.scale(-1, 2);
    with(ordinary(chance), SPAN, angle.to_bits())
}

/// Sizes from all over binary64. Some can't be scaled.
fn huge_or_tiny(chance: &mut Chance) -> Words {
    let frame = Frame::sized(chance, [-530, 510], [-800, 800]);
    turned(frame.words(motion::any(chance), 0.0), chance)
}

/// |a| 6.25, where 4 begins.
fn about_widest(chance: &mut Chance) -> Vec<Words> {
    let words = ordinary(chance);
    (-2..=2)
        .map(|places| with(words, SPAN, beside(WIDEST, places).to_bits()))
        .collect()
}

/// den 2^-10, where 12 begins.
fn about_open(chance: &mut Chance) -> Vec<Words> {
    let alpha = chance.between(-1.0, 0.1);
    about_line(motion::of_alpha(chance, alpha), chance, |den, _| {
        den >= OPEN
    })
}

/// R 2^-10, where 11 begins.
fn about_low(chance: &mut Chance) -> Vec<Words> {
    about_line(motion::nearly_straight(chance), chance, |_, radius| {
        radius >= LOW
    })
}

/// The angles about the first place at which what is asked of den and R ends, and one further.
fn about_line(w: Vector, chance: &mut Chance, asked: fn(f64, f64) -> bool) -> Vec<Words> {
    let words = Frame::exact(chance).words(w, 0.0);
    let holds = |a: f64| {
        orbit_of(&words).is_some_and(|orbit| {
            let k = inner_root(orbit.p).unwrap_or(1.0);
            let den = polar(&orbit, k, &unrefused(a / 2.0, 1.0));
            asked(den, orbit.p / den)
        })
    };
    let Some(a) = last(power_of_two(-60), WIDEST, holds) else {
        return Vec::new();
    };
    (-3..=3)
        .map(|places| beside(a, places))
        .chain([1.01 * a])
        .map(|a| with(words, SPAN, a.to_bits()))
        .collect()
}

/// 5 and 6, in their several places.
fn beyond(chance: &mut Chance) -> [Words; 5] {
    [
        edges::beyond_scaling(chance),
        edges::beyond_scaling(chance),
        edges::beyond_scaling(chance),
        edges::beyond_square(chance),
        edges::beyond_velocity(chance),
    ]
    .map(|words| turned(words, chance))
}
