//! Motions to try, for Kepler and Theta alike: a scaled velocity, and a frame to put it in. A frame
//! also takes the two positions of a transfer.
//! Nothing but + - * / and the root is used, so that the inputs are the same on every machine.

use crate::chance::{power_of_two, Chance};
use crate::conic::{dot, Orbit, Problem, Vector, Words};

/// The place of dt or the angle among the words.
pub const SPAN: usize = 7;

/// Where a motion takes place: the length of r, mu, and three directions: that of r, that of the
/// rest of the velocity, and the one at right angles to both.
pub struct Frame {
    pub r0: f64,
    pub mu: f64,
    pub axes: [Vector; 3],
}

/// mu 1, r (1,0,0): the scaled numbers are the numbers themselves.
pub const PLAIN: Frame = Frame {
    r0: 1.0,
    mu: 1.0,
    axes: [[1.0, 0.0, 0.0], [0.0, 1.0, 0.0], [0.0, 0.0, 1.0]],
};

/// mu, and a least and a largest r0: the Earth far and near, Moon, Mars, Sun.
const BODIES: [(f64, f64, f64); 5] = [
    (398600.4418, 6500.0, 50000.0),
    (398600.4418, 6500.0, 7500.0),
    (4902.800066, 1750.0, 60000.0),
    (42828.37, 3500.0, 25000.0),
    (1.32712440018e11, 4e7, 5e9),
];

impl Frame {
    pub fn any(chance: &mut Chance) -> Frame {
        match chance.below(4) {
            0 => Frame::exact(chance),
            1 | 2 => Frame::real(chance),
            _ => Frame::sized(chance, [-30, 40], [-30, 40]),
        }
    }

    /// Powers of four along the axes of the coordinates: scaling rounds nothing, so that s, w and
    /// t are met to the last bit.
    pub fn exact(chance: &mut Chance) -> Frame {
        let mut axes = PLAIN.axes.map(|axis| times(chance.sign(), axis));
        axes.rotate_left(chance.below(3) as usize);
        axes.swap(1, 1 + chance.below(2) as usize);
        let mut four = || power_of_two(2 * (chance.below(41) as i32 - 20));
        Frame {
            r0: four(),
            mu: four(),
            axes,
        }
    }

    /// About one of the bodies that spacecraft fly about.
    pub fn real(chance: &mut Chance) -> Frame {
        let (mu, least, most) = chance.one_of(&BODIES);
        Frame {
            r0: chance.between(least, most),
            mu,
            axes: directions(chance),
        }
    }

    /// The exponents of r0 and mu in these two ranges.
    pub fn sized(chance: &mut Chance, r0: [i32; 2], mu: [i32; 2]) -> Frame {
        Frame {
            r0: chance.scale(r0[0], r0[1]),
            mu: chance.scale(mu[0], mu[1]),
            axes: directions(chance),
        }
    }

    /// The exponent of the unit of time, r0*f1, in this range, by some r0 and f1. At the ends of binary64
    /// some can't be scaled.
    pub fn of_unit(chance: &mut Chance, [lo, hi]: [i32; 2]) -> Frame {
        let exponent = lo + chance.below((hi - lo + 1) as u64) as i32;
        // The exponents of r0 with which the squares of r0 and f1, and mu, are in binary64.
        let most = 511.min(exponent + 537).min((2 * exponent + 1020) / 3);
        let least = (-537).max(exponent - 511).max((2 * exponent - 1020) / 3);
        let r0 = chance.scale(least.min(most), most);
        let f1 = chance.scale(exponent, exponent) / r0;
        Frame {
            r0,
            mu: r0 / f1 / f1,
            axes: directions(chance),
        }
    }

    /// The problem whose scaled velocity is w, but for rounding. The three numbers of w go along
    /// the three directions: the first of them is s.
    pub fn words(&self, w: Vector, span: f64) -> Words {
        let f1 = (self.r0 / self.mu).sqrt();
        self.sent(self.vector(w.map(|part| part / f1)), span)
    }

    /// The transfer to a second position, of this length and in this direction: its cosine and sine
    /// go along the first two directions.
    pub fn transfer(&self, length: f64, direction: [f64; 2], dt: f64) -> Words {
        let [cos, sin] = direction;
        self.sent(self.vector([length * cos, length * sin, 0.0]), dt)
    }

    /// The vector with these parts along the three directions.
    fn vector(&self, parts: Vector) -> Vector {
        let parts: [Vector; 3] = std::array::from_fn(|i| times(parts[i], self.axes[i]));
        std::array::from_fn(|i| parts[0][i] + parts[1][i] + parts[2][i])
    }

    fn sent(&self, second: Vector, span: f64) -> Words {
        let [rx, ry, rz] = times(self.r0, self.axes[0]);
        let [vx, vy, vz] = second;
        [self.mu, rx, ry, rz, vx, vy, vz, span].map(f64::to_bits)
    }
}

/// Three directions at right angles.
fn directions(chance: &mut Chance) -> [Vector; 3] {
    let a = unit(somewhere(chance));
    let b = somewhere(chance);
    let along = dot(a, b);
    let b = unit(std::array::from_fn(|i| b[i] - along * a[i]));
    [a, b, cross(a, b)]
}

pub fn cross(a: Vector, b: Vector) -> Vector {
    std::array::from_fn(|i| a[(i + 1) % 3] * b[(i + 2) % 3] - a[(i + 2) % 3] * b[(i + 1) % 3])
}

/// The cosine and the sine of some angle.
pub fn direction(chance: &mut Chance) -> [f64; 2] {
    let [a, b, _] = somewhere(chance);
    let [cos, sin, _] = unit([a, b, 0.0]);
    [cos, sin]
}

fn somewhere(chance: &mut Chance) -> Vector {
    [(); 3].map(|()| chance.between(-1.0, 1.0))
}

fn unit(a: Vector) -> Vector {
    times(1.0 / dot(a, a).sqrt(), a)
}

fn times(factor: f64, a: Vector) -> Vector {
    a.map(|component| factor * component)
}

/// A scaled velocity of some kind.
pub fn any(chance: &mut Chance) -> Vector {
    match chance.below(16) {
        0..=4 => ellipse(chance),
        5 | 6 => nearly_circle(chance),
        7 | 8 => near_parabola(chance),
        9 => parabola(chance),
        10..=12 => hyperbola(chance),
        13 => fast(chance),
        14 => nearly_straight(chance),
        _ => chance.one_of(&[nearly_straight, straight, ellipse, hyperbola])(chance),
    }
}

/// A scaled velocity with this alpha, in some direction.
pub fn of_alpha(chance: &mut Chance, alpha: f64) -> Vector {
    let [cos, sin] = direction(chance);
    times((2.0 - alpha).sqrt(), [cos, sin, 0.0])
}

pub fn ellipse(chance: &mut Chance) -> Vector {
    let alpha = chance.between(1.0 / 64.0, 2.0);
    of_alpha(chance, alpha)
}

pub fn nearly_circle(chance: &mut Chance) -> Vector {
    let off = chance.sign() * chance.scale(-30, -4);
    [chance.sign() * chance.scale(-30, -4), 1.0 + off, 0.0]
}

fn near_parabola(chance: &mut Chance) -> Vector {
    let alpha = chance.sign() * chance.scale(-54, -6);
    of_alpha(chance, alpha)
}

/// alpha 0 where the frame is exact.
fn parabola(chance: &mut Chance) -> Vector {
    let (a, b) = (chance.sign(), chance.sign());
    chance.one_of(&[[a, b, 0.0], [a, 0.0, b], [0.0, a, b]])
}

fn hyperbola(chance: &mut Chance) -> Vector {
    let alpha = -chance.scale(-7, 5);
    of_alpha(chance, alpha)
}

/// A hyperbola that is all but a straight line past the middle.
fn fast(chance: &mut Chance) -> Vector {
    let alpha = -chance.scale(5, 120);
    of_alpha(chance, alpha)
}

/// p is 0, but for rounding.
fn straight(chance: &mut Chance) -> Vector {
    [chance.between(-2.0, 2.0), 0.0, 0.0]
}

/// p from a little less than its least value on.
pub fn nearly_straight(chance: &mut Chance) -> Vector {
    let s = chance.between(-1.5, 1.5);
    [s, chance.scale(-10, -6) * chance.between(0.9, 1.0), 0.0]
}

/// What the problem's own tests make of it. None where they refuse it.
pub fn orbit_of(words: &Words) -> Option<Orbit> {
    Problem::read(words).ok()?.orbit().ok()
}

/// The motion as it is, or the same run backwards.
pub fn either_way(words: Words, chance: &mut Chance) -> Words {
    if chance.below(2) == 0 {
        words
    } else {
        backwards(words)
    }
}

pub fn backwards(mut words: Words) -> Words {
    for word in &mut words[4..] {
        *word ^= 1 << 63;
    }
    words
}

/// The number `places` further up (or down) among the positive numbers.
pub fn beside(x: f64, places: i64) -> f64 {
    f64::from_bits(x.to_bits().wrapping_add_signed(places))
}

/// Goes from lo to hi, both positive, in some steps, to where `holds` first ends, and gives the
/// last number before that. None where it does not hold at lo or never ends.
pub fn last(lo: f64, hi: f64, holds: impl Fn(f64) -> bool) -> Option<f64> {
    const STEPS: u32 = 100;
    let at = |step: u32| lo + (hi - lo) * (step as f64 / STEPS as f64);
    let end = (0..=STEPS).find(|&step| !holds(at(step)))?;
    let (mut good, mut bad) = (at(end.checked_sub(1)?).to_bits(), at(end).to_bits());
    while bad - good > 1 {
        let middle = good + (bad - good) / 2;
        *(if holds(f64::from_bits(middle)) {
            &mut good
        } else {
            &mut bad
        }) = middle;
    }
    Some(f64::from_bits(good))
}

/// Zero, the least and the largest subnormal and normal numbers, 1, and two whose squares are near
/// the least and the largest.
const EDGES: [u64; 8] = [
    0,
    1,
    0x000f_ffff_ffff_ffff,
    0x0010_0000_0000_0000,
    0x1ff0_0000_0000_0000,
    0x3ff0_0000_0000_0000,
    0x5fef_ffff_ffff_ffff,
    0x7fef_ffff_ffff_ffff,
];

/// The problem with one word after the other made each of the edges, of either sign.
pub fn each_edge(words: Words) -> Vec<Words> {
    let signed = EDGES.into_iter().flat_map(|word| [word, word | 1 << 63]);
    (0..words.len())
        .flat_map(|place| signed.clone().map(move |word| with(words, place, word)))
        .collect()
}

/// The problem with one word made an edge, its exponent changed, or any word at all.
pub fn one_changed(words: Words, chance: &mut Chance) -> Words {
    let place = chance.below(8) as usize;
    let word = match chance.below(4) {
        0 => chance.one_of(&EDGES) | chance.word() & 1 << 63,
        1 | 2 => words[place] & !(0x7ff << 52) | chance.below(0x7ff) << 52,
        _ => chance.word(),
    };
    with(words, place, word)
}

pub fn with(mut words: Words, place: usize, word: u64) -> Words {
    words[place] = word;
    words
}

/// Every word any pattern, or a number of no great size, so that the first tests are passed now
/// and then.
pub fn any_words(chance: &mut Chance) -> Words {
    let tame = chance.below(2) == 0;
    [(); 8].map(|()| match tame {
        true => chance.word() & !(0x7ff << 52) | (1023 - 40 + chance.below(80)) << 52,
        false => chance.word(),
    })
}
