//! RULES, Theta.

use crate::answer::{refuse, Answer};
use crate::conic::{inner_root, Orbit, Problem, Words};
use crate::universal::{functions, Functions};

/// The largest angle.
pub const WIDEST: f64 = 6.25;
/// The least den.
pub const OPEN: f64 = 1.0 / (1u64 << 10) as f64;

pub fn answer(words: &Words) -> Answer {
    match turned(words) {
        Ok((x, state)) => Answer::Solved { count: 0, x, state },
        Err(number) => Answer::Refused { number, count: 0 },
    }
}

/// The angle and the state behind it.
fn turned(words: &Words) -> Result<(f64, [f64; 6]), u32> {
    let problem = Problem::read(words)?;
    let a = problem.span;
    refuse(4, a.abs() > WIDEST)?;
    let orbit = problem.orbit()?;
    orbit.not_straight()?;
    let (s, p) = (orbit.s, orbit.p);
    let half = functions(a / 2.0, 1.0)?;
    let k = inner_root(p)?;
    let den = polar(&orbit, k, &half);
    refuse(12, den < OPEN || den.is_nan())?;
    let (sh, ch) = (half.u1, half.u0);
    let radius = p / den;
    let u2 = 2.0 * (radius / p) * sh * sh;
    let u1 = 2.0 * radius * sh * (ch - s * sh / k) / k;
    Ok((a, orbit.unfold(u1, u2, radius)?))
}

/// den, from the functions at half the angle.
pub fn polar(orbit: &Orbit, k: f64, half: &Functions) -> f64 {
    let (s, p) = (orbit.s, orbit.p);
    let (sh, ch) = (half.u1, half.u0);
    1.0 + (p - 1.0) * (1.0 - 2.0 * sh * sh) - s * k * (2.0 * sh * ch)
}
