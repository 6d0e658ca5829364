//! Kepler's problems on and beside the lines at which an answer changes.

use crate::answer::Answer;
use crate::chance::{power_of_two, Chance};
use crate::conic::{Orbit, Vector, Words, LOW};
use crate::edges;
use crate::far_ends::old_time;
use crate::kepler::{answer, far_end, Input, FLAT};
use crate::kepler_inputs::{aimed, unhurried};
use crate::motion::{self, beside, either_way, last, orbit_of, with, Frame, SPAN};
use crate::search::NEAR;
use crate::universal::unrefused;

/// The problems about a line, for some motion. None where it does not come to the line.
type About = fn(&mut Chance) -> Option<Vec<Input>>;

const LINES: [About; 6] = [
    about_near,
    about_near_at_middle,
    about_rounding,
    about_first_guess,
    about_far_end,
    about_low,
];

pub fn all(chance: &mut Chance) -> Vec<Input> {
    let mut list = Vec::new();
    for _ in 0..40 {
        list.extend(about_alpha(chance));
        list.extend(about_straight(chance));
        list.extend(
            LINES
                .iter()
                .flat_map(|about| about(chance).unwrap_or_default()),
        );
    }
    list.extend(at_low(chance));
    let words: Vec<Words> = (0..200).flat_map(|_| beyond(chance)).collect();
    list.extend(words.into_iter().map(unhurried));
    for input in &mut list {
        input.words = either_way(input.words, chance);
    }
    list
}

/// A motion that is scaled without rounding, so that its t is met to the last bit.
pub struct Exact {
    words: Words,
    pub orbit: Orbit,
    pub far: f64,
}

impl Exact {
    pub fn of(w: Vector, chance: &mut Chance) -> Option<Exact> {
        let words = Frame::exact(chance).words(w, 0.0);
        let orbit = orbit_of(&words)?;
        let far = far_end(&orbit).ok()?;
        Some(Exact { words, orbit, far })
    }

    pub fn time(&self, x: f64) -> f64 {
        old_time(&self.orbit, x)
    }

    pub fn radius(&self, x: f64) -> f64 {
        self.orbit.radius(&unrefused(x, self.orbit.alpha))
    }

    pub fn at(&self, t: f64) -> Words {
        with(self.words, SPAN, (t * self.orbit.f4).to_bits())
    }

    /// The x at which the search for t is solved.
    fn end(&self, t: f64) -> Option<f64> {
        match answer(&unhurried(self.at(t))) {
            Answer::Solved { x, .. } => Some(x),
            _ => None,
        }
    }

    /// The problems with t and the numbers beside it, each with limit 1 and with the largest one.
    fn about(&self, t: f64) -> Vec<Input> {
        (-3..=3)
            .flat_map(|places| both_limits(self.at(beside(t, places))))
            .collect()
    }
}

/// After one guess the answer shows the bracket; without hurry, the end.
fn both_limits(words: Words) -> [Input; 2] {
    [Input { words, limit: 1 }, unhurried(words)]
}

/// |alpha| 1/64, where X changes its rule.
fn about_alpha(chance: &mut Chance) -> Vec<Input> {
    let frame = Frame::exact(chance);
    about_flat(chance)
        .into_iter()
        .map(|w| frame.words(w, 0.0))
        .flat_map(|words| both_limits(aimed(words, chance.between(0.0, 1.0))))
        .collect()
}

/// Scaled velocities whose |alpha| is 1/64 or nearly so.
pub fn about_flat(chance: &mut Chance) -> Vec<Vector> {
    let s = chance.between(-1.0, 1.0);
    let q = 2.0 + chance.sign() * FLAT;
    let k = (q - s * s).sqrt();
    (-5..=5).map(|places| [s, beside(k, places), 0.0]).collect()
}

/// p 2^-20, where 7 begins, without time and with.
fn about_straight(chance: &mut Chance) -> Vec<Input> {
    let motions = edges::straight(chance).into_iter();
    motions
        .flat_map(|words| [words, aimed(words, chance.between(0.0, 1.0))])
        .map(unhurried)
        .collect()
}

/// |T - t| 2^-36 at the first guess t.
fn about_near(chance: &mut Chance) -> Option<Vec<Input>> {
    let exact = Exact::of(motion::any(chance), chance)?;
    let near = |t: f64| (exact.time(t) - t).abs() <= NEAR;
    Some(exact.about(last(power_of_two(-60), exact.far, near)?))
}

/// |T - t| 2^-36 at a first guess in the middle.
fn about_near_at_middle(chance: &mut Chance) -> Option<Vec<Input>> {
    let alpha = chance.between(-0.1, 0.1);
    let exact = Exact::of(motion::of_alpha(chance, alpha), chance)?;
    Some(exact.about(exact.time(exact.far / 2.0) + chance.sign() * NEAR))
}

/// The same on a hyperbola so fast that T is between one and two times 2^-36 and t less than half
/// of T: T - t, exactly more than 2^-36, can be rounded down to it.
fn about_rounding(chance: &mut Chance) -> Option<Vec<Input>> {
    let speed = power_of_two(41) * chance.between(0.8, 1.1);
    let w = [speed, speed * chance.scale(-20, -3), 0.0];
    let exact = Exact::of(w, chance)?;
    Some(exact.about(exact.time(exact.far / 2.0) - NEAR))
}

/// t at X, the last t that is its own first guess.
fn about_first_guess(chance: &mut Chance) -> Option<Vec<Input>> {
    let exact = Exact::of(motion::any(chance), chance)?;
    Some(exact.about(exact.far))
}

/// t at the far end's T, where 8 begins.
fn about_far_end(chance: &mut Chance) -> Option<Vec<Input>> {
    let exact = Exact::of(motion::any(chance), chance)?;
    Some(exact.about(exact.time(exact.far)))
}

/// R 2^-10 at the end of the search, where 11 begins, and a place a little further.
fn about_low(chance: &mut Chance) -> Option<Vec<Input>> {
    let (exact, t) = low(chance)?;
    let mut list = exact.about(t);
    list.push(unhurried(exact.at(1.001 * t)));
    Some(list)
}

/// R 2^-10 to the last bit. That is rare, so many are tried.
fn at_low(chance: &mut Chance) -> Vec<Input> {
    (0..4_000)
        .filter_map(|_| low(chance))
        .filter(|(exact, t)| exact.end(*t).is_some_and(|x| exact.radius(x) == LOW))
        .map(|(exact, t)| unhurried(exact.at(t)))
        .collect()
}

/// A motion and the last t before the search first ends below 2^-10.
fn low(chance: &mut Chance) -> Option<(Exact, f64)> {
    let exact = Exact::of(motion::nearly_straight(chance), chance)?;
    let x = last(power_of_two(-60), exact.far, |x| exact.radius(x) >= LOW)?;
    let t = exact.time(x);
    let high = |t: f64| exact.end(t).is_some();
    let t = last(0.999 * t, 1.001 * t, high)?;
    Some((exact, t))
}

/// 5 and 6, in their several places.
fn beyond(chance: &mut Chance) -> [Words; 5] {
    let velocity = edges::beyond_velocity(chance);
    [
        edges::beyond_scaling(chance),
        edges::beyond_scaling(chance),
        edges::beyond_scaling(chance),
        edges::beyond_square(chance),
        aimed(velocity, chance.between(0.0, 1.0)),
    ]
}
