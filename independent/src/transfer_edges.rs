//! Transfers on and beside the lines at which an answer changes.

use crate::chance::{power_of_two, Chance};
use crate::conic::Words;
use crate::legs::{self, narrow, positions, way, Leg};
use crate::motion::{beside, last, with, Frame, SPAN};
use crate::search::NEAR;
use crate::transfer::{Input, FAR, LONG, OPEN, SHORT};

/// The transfers about a line. None where a pair of positions does not come to the line.
type About = fn(&mut Chance) -> Option<Vec<Input>>;

const LINES: [About; 7] = [
    about_open,
    about_least,
    about_most,
    about_rounded_ends,
    about_first_guess,
    about_near,
    about_near_at_middle,
];

pub fn all(chance: &mut Chance) -> Vec<Input> {
    let mut list = Vec::new();
    for about in LINES {
        list.extend((0..60).filter_map(|_| about(chance)).flatten());
    }
    let exact = |input: &&Input| room(&input.words) == Some(OPEN);
    let count = list.iter().filter(exact).count();
    assert!(
        count > 100,
        "too few angles are on the line itself: {count}"
    );
    list.extend((0..200).flat_map(|_| beyond(chance)));
    list
}

/// Without hurry, the end; with it, the bracket after the first guesses.
fn limits(leg: &Leg, t: f64) -> [Input; 3] {
    [1, 2, 100].map(|limit| leg.input(t, limit))
}

/// The transfers with t and the numbers beside it.
fn beside_time(leg: &Leg, t: f64) -> Vec<Input> {
    (-2..=2)
        .flat_map(|places| limits(leg, beside(t, places)))
        .collect()
}

/// 1 - |c|.
fn room(words: &Words) -> Option<f64> {
    positions(words).map(|places| 1.0 - places.c.abs())
}

/// 1 - |c| 2^-20, where 50 ends: a last place below it, on it, and a last place above it. Each way,
/// so that the angle is near 0, 180 or 360 degrees, with a time that is right on the open side.
pub fn about_open(chance: &mut Chance) -> Option<Vec<Input>> {
    let frame = chance.one_of(&[Frame::exact, Frame::real])(chance);
    let ratio = chance.scale(-10, 9);
    let length = frame.r0 * chance.one_of(&[1.0, 1.0, 2.0, ratio]);
    let cos = chance.sign() * (1.0 - OPEN);
    let words = |sin: f64| frame.transfer(length, [cos, sin], 0.0);
    let ends = |holds: fn(f64) -> bool| {
        let holds = |sin: f64| room(&words(sin)).is_some_and(holds);
        last(power_of_two(-11), power_of_two(-8), holds)
    };
    let (closed, on) = (ends(|room| room < OPEN)?, ends(|room| room <= OPEN)?);
    let sines = [(closed, -1), (closed, 0), (closed, 1), (on, 0), (on, 1)];
    let sines = sines.map(|(sin, places)| beside(sin, places));
    let mut list = Vec::new();
    for way in [SHORT, LONG] {
        let leg = Leg::of(words(2.0 * on), way)?;
        let dt = leg.at(leg.time(FAR * chance.between(0.05, 0.95)))[SPAN];
        list.extend(sines.map(|sin| Input {
            words: with(words(sin), SPAN, dt),
            limit: 100,
            way,
        }));
    }
    Some(list)
}

/// t at T(0), where 51 ends.
fn about_least(chance: &mut Chance) -> Option<Vec<Input>> {
    let leg = Leg::exact(chance)?;
    Some(beside_time(&leg, leg.time(0.0)))
}

/// t at T(36), where 52 begins.
fn about_most(chance: &mut Chance) -> Option<Vec<Input>> {
    let leg = Leg::exact(chance)?;
    Some(beside_time(&leg, leg.time(FAR)))
}

/// The same about a body, where the time is divided by a unit that is no power of two: some of these
/// meet T(0) or T(36) all the same.
fn about_rounded_ends(chance: &mut Chance) -> Option<Vec<Input>> {
    let leg = real(chance)?;
    let times = [0.0, FAR].map(|z| leg.time(z));
    let about = |t: f64| {
        let input = leg.input(t, 100);
        (-2..=2).map(move |places| Input {
            words: with(
                input.words,
                SPAN,
                input.words[SPAN].wrapping_add_signed(places),
            ),
            ..input
        })
    };
    Some(times.into_iter().flat_map(about).collect())
}

fn real(chance: &mut Chance) -> Option<Leg> {
    let frame = Frame::real(chance);
    let length = frame.r0 * chance.scale(-3, 2);
    let words = frame.transfer(length, legs::direction(chance), 0.0);
    Leg::of(words, way(chance))
}

/// t at 36, the last t that is its own first guess.
fn about_first_guess(chance: &mut Chance) -> Option<Vec<Input>> {
    Some(beside_time(&Leg::exact(chance)?, FAR))
}

/// |T - t| 2^-36 at the first guess t. Short ways alone come to it.
fn about_near(chance: &mut Chance) -> Option<Vec<Input>> {
    let frame = Frame::exact(chance);
    let length = frame.r0 * (1.0 + chance.sign() * chance.scale(-30, -6));
    let words = frame.transfer(length, narrow(chance, [-18, -8]), 0.0);
    let leg = Leg::of(words, SHORT)?;
    let far = |t: f64| leg.time(t) - t > NEAR;
    Some(beside_time(&leg, last(leg.time(0.0), FAR, far)?))
}

/// |T - t| 2^-36 at a first guess in the middle.
fn about_near_at_middle(chance: &mut Chance) -> Option<Vec<Input>> {
    let leg = Leg::exact(chance)?;
    let t = leg.time(FAR / 2.0) + chance.sign() * NEAR;
    (t > FAR).then(|| beside_time(&leg, t))
}

/// Exponents of r1, r2, mu and dt with which a step before the angle leaves binary64.
const BEYOND: [[[i32; 2]; 4]; 8] = [
    // r1·r1: zero, or infinite; r2·r2.
    [[-1074, -530], [-9, 9], [-9, 9], [-9, 9]],
    [[508, 1023], [-9, 9], [-9, 9], [-9, 9]],
    [[-9, 9], [-1074, -530], [-9, 9], [-9, 9]],
    [[-9, 9], [508, 1023], [-9, 9], [-9, 9]],
    // r0/mu: zero, or infinite.
    [[-530, -500], [-530, -500], [550, 1023], [-9, 9]],
    [[480, 500], [480, 500], [-1074, -530], [-9, 9]],
    // t; rho.
    [[-400, -300], [-400, -300], [-9, 9], [400, 1023]],
    [[-536, -515], [495, 510], [-9, 9], [-900, -500]],
];

/// A transfer that is refused by 5 or 6 before its angle is tested, or nearly so.
fn beyond_scaling(chance: &mut Chance) -> Words {
    let [r1, r2, mu, dt] = chance.one_of(&BEYOND);
    let mut number = |[lo, hi]: [i32; 2]| chance.sign() * chance.scale(lo, hi);
    let numbers = [mu, r1, r1, r1, r2, r2, r2, dt].map(&mut number);
    let mut words = numbers.map(f64::to_bits);
    words[0] &= !(1 << 63);
    words
}

/// 5 and 6, in their several places.
fn beyond(chance: &mut Chance) -> [Input; 6] {
    let way = way(chance);
    [
        beyond_scaling(chance),
        beyond_scaling(chance),
        beyond_scaling(chance),
        legs::beyond_root(chance),
        legs::beyond_time(way, chance),
        legs::beyond_time(way, chance),
    ]
    .map(|words| Input {
        words,
        limit: 100,
        way,
    })
}
