//! Motions on and beside the lines at which the tests that Kepler and Theta share change their
//! answer. The span is 0 where nothing else is said.

use crate::chance::{power_of_two, Chance};
use crate::conic::{dot, Vector, Words};
use crate::motion::{self, beside, last, orbit_of, Frame};

/// p 2^-20, where 7 begins.
pub fn straight(chance: &mut Chance) -> Vec<Words> {
    let frame = Frame::exact(chance);
    let radial = chance.between(-1.0, 1.0);
    let s = chance.one_of(&[0.0, 1.0, -1.0, radial]);
    let words = |k: f64| frame.words([s, k, 0.0], 0.0);
    let holds = |k: f64| orbit_of(&words(k)).is_some_and(|orbit| orbit.not_straight().is_err());
    let k = last(power_of_two(-11), power_of_two(-9), holds).expect("7 is given below 2^-10");
    (-1..=2).map(|places| words(beside(k, places))).collect()
}

/// Exponents of r, mu, v and the span with which a step of the scaling leaves binary64.
const BEYOND: [[[i32; 2]; 4]; 8] = [
    // r·r: zero, or infinite.
    [[-1074, -530], [-9, 9], [-9, 9], [-9, 0]],
    [[508, 1023], [-9, 9], [-9, 9], [-9, 0]],
    // r0/mu: zero, or infinite.
    [[-530, -500], [550, 1023], [-9, 9], [-9, 0]],
    [[480, 500], [-1074, -530], [-9, 9], [-9, 0]],
    // w; s, where w still is finite; q.
    [[100, 400], [-300, -200], [700, 1000], [-9, 0]],
    [[0, 0], [1, 1], [1023, 1023], [-9, 0]],
    [[0, 1], [0, 1], [506, 700], [-9, 0]],
    // t.
    [[-400, -300], [-9, 9], [140, 180], [400, 1023]],
];

/// A motion that is refused by 5 or 6 before it is scaled, or nearly so. It has a span.
pub fn beyond_scaling(chance: &mut Chance) -> Words {
    let [r, mu, v, span] = chance.one_of(&BEYOND);
    let mut number = |[lo, hi]: [i32; 2]| chance.sign() * chance.scale(lo, hi);
    let numbers = [mu, r, r, r, v, v, v, span].map(&mut number);
    let mut words = numbers.map(f64::to_bits);
    words[0] &= !(1 << 63);
    words
}

/// q about the largest numbers there are. r/r0 can be a little longer than 1, and s*s is then
/// infinite where q is not.
pub fn beyond_square(chance: &mut Chance) -> Words {
    let r: Vector = [(); 3].map(|()| chance.between(-1.0, 1.0));
    let r0 = dot(r, r).sqrt();
    let speed = power_of_two(511) * beside(2.0, -(chance.below(6) as i64)) / r0;
    let v = r.map(|component| component * speed);
    [r0, r[0], r[1], r[2], v[0], v[1], v[2], 0.0].map(f64::to_bits)
}

/// f4 so small that Ft, and with it the velocity, can be infinite.
pub fn beyond_velocity(chance: &mut Chance) -> Words {
    let frame = Frame::sized(chance, [-500, -490], [555, 565]);
    frame.words(motion::any(chance), 0.0)
}
