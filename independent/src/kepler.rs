//! Kepler by the rules: the tests before the first guess, and what is searched for.

use crate::answer::{refuse, Answer};
use crate::bytes::{joined, u32_at, words_from_bytes, words_to_bytes};
use crate::conic::{inner_root, Orbit, Problem, Words};
use crate::search::{End, Search};
use crate::times::Times;

/// The bytes of a problem: the words, then the limit.
pub const PROBLEM: usize = 68;

/// Up to this |alpha| X does not depend on it.
pub const FLAT: f64 = 1.0 / 64.0;

#[derive(Clone, Copy)]
pub struct Input {
    pub words: Words,
    pub limit: u32,
}

impl Input {
    /// The problem that these bytes begin with.
    pub fn read(bytes: &[u8]) -> Input {
        Input {
            words: words_from_bytes(bytes),
            limit: u32_at(bytes, 64),
        }
    }

    pub fn bytes(&self) -> [u8; PROBLEM] {
        joined(&words_to_bytes(&self.words), &self.limit.to_le_bytes())
    }
}

/// A problem that has passed the tests before the first guess.
pub struct Started {
    pub orbit: Orbit,
    pub search: Search,
}

impl Started {
    pub fn times(&self, x: f64) -> Times {
        Times {
            reached: self.orbit.time_at(x),
            wanted: self.search.t,
            unit: self.orbit.f4,
        }
    }
}

pub fn answer(input: &Input) -> Answer {
    match start(input) {
        Ok(Started { orbit, search }) => {
            search.run(input.limit, |x| orbit.time_at(x), |x| orbit.arrive(x))
        }
        Err(number) => Answer::Refused { number, count: 0 },
    }
}

/// The tests before the first guess, in their order, and the starting bracket.
pub fn start(input: &Input) -> Result<Started, u32> {
    let (orbit, t) = posed(input)?;
    let search = bracket(t, far_end(&orbit)?, |x| orbit.time_at(x))?;
    Ok(Started { orbit, search })
}

/// The tests before that of the far end, in their order: the orbit and t.
pub fn posed(input: &Input) -> Result<(Orbit, f64), u32> {
    let problem = Problem::read(&input.words)?;
    refuse(3, !(1..=100).contains(&input.limit))?;
    let orbit = problem.orbit()?;
    let t = problem.span / orbit.f4;
    refuse(6, !t.is_finite())?;
    orbit.not_straight()?;
    Ok((orbit, t))
}

/// X. The far end of the starting bracket is X or -X.
pub fn far_end(orbit: &Orbit) -> Result<f64, u32> {
    if orbit.alpha.abs() <= FLAT {
        Ok(63.5)
    } else {
        Ok(7.9375 / inner_root(orbit.alpha.abs())?)
    }
}

/// The starting bracket with this X, after 6 and 8 of its far end.
pub fn bracket(t: f64, far: f64, time: impl Fn(f64) -> f64) -> Result<Search, u32> {
    let zero = End { x: 0.0, time: 0.0 };
    let end = |x: f64| End { x, time: time(x) };
    let [lo, hi] = if t >= 0.0 {
        [zero, end(far)]
    } else {
        [end(-far), zero]
    };
    refuse(6, !lo.time.is_finite() || !hi.time.is_finite())?;
    refuse(8, t >= 0.0 && hi.time < t || t < 0.0 && lo.time > t)?;
    Ok(Search { t, lo, hi })
}
