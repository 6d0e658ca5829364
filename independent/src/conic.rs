//! What Kepler and Theta share: RULES, From the state to the scaled problem, and RULES,
//! Unfolding, with the refusals that belong to them. The transfer reads its numbers here too, and has
//! refusal 2.

use crate::answer::refuse;
use crate::root::{self, root};
use crate::universal::{functions, Functions};
use std::ops::RangeInclusive;

pub type Vector = [f64; 3];

/// mu, r, v and dt (Kepler) or the angle (Theta), as they are sent. A transfer has its two positions
/// in the places of r and v.
pub type Words = [u64; 8];

/// The refusals of a prediction for a number that is not finite, in the order of the words.
pub const BY_PLACE: RangeInclusive<u32> = 101..=108;

pub struct Problem {
    pub mu: f64,
    pub r: Vector,
    pub v: Vector,
    /// dt or the angle.
    pub span: f64,
}

/// The state in its own units.
pub struct Orbit {
    pub r: Vector,
    pub v: Vector,
    pub f4: f64,
    pub s: f64,
    pub alpha: f64,
    pub p: f64,
}

const STRAIGHT: f64 = 1.0 / (1u64 << 20) as f64;
/// The least radius ratio at which a state is unfolded.
pub const LOW: f64 = 1.0 / (1u64 << 10) as f64;

impl Problem {
    /// Refusals 101 to 108, and 2.
    pub fn read(words: &Words) -> Result<Problem, u32> {
        Problem::of(finite(words)?)
    }

    /// Refusal 2.
    pub fn of([mu, rx, ry, rz, vx, vy, vz, span]: [f64; 8]) -> Result<Problem, u32> {
        refuse(2, mu <= 0.0)?;
        Ok(Problem {
            mu,
            r: [rx, ry, rz],
            v: [vx, vy, vz],
            span,
        })
    }

    /// Refusal 5, and 6 as far as it does not concern t.
    pub fn orbit(&self) -> Result<Orbit, u32> {
        let (r, v) = (self.r, self.v);
        let square = usable(5, dot(r, r))?;
        let r0 = usable(5, inner_root(square)?)?;
        let ratio = usable(6, r0 / self.mu)?;
        let f1 = usable(6, inner_root(ratio)?)?;
        let f4 = usable(6, r0 * f1)?;
        let u = r.map(|component| component / r0);
        let w = v.map(|component| f1 * component);
        let s = dot(u, w);
        let q = dot(w, w);
        let alpha = 2.0 - q;
        let p = q - s * s;
        refuse(6, !all_finite(&w) || !all_finite(&[s, q, alpha, p]))?;
        Ok(Orbit {
            r,
            v,
            f4,
            s,
            alpha,
            p,
        })
    }
}

impl Orbit {
    /// Refusal 7.
    pub fn not_straight(&self) -> Result<(), u32> {
        refuse(7, self.p < STRAIGHT)
    }

    /// T, for the functions at some x.
    pub fn time(&self, u: &Functions) -> f64 {
        u.u1 + self.s * u.u2 + u.u3
    }

    /// R, for the functions at some x.
    pub fn radius(&self, u: &Functions) -> f64 {
        u.u0 + self.s * u.u1 + u.u2
    }

    /// T at x. NaN, which is not finite, where the functions are refused.
    pub fn time_at(&self, x: f64) -> f64 {
        functions(x, self.alpha).map_or(f64::NAN, |u| self.time(&u))
    }

    /// What x unfolds to.
    pub fn arrive(&self, x: f64) -> Result<[f64; 6], u32> {
        let u = functions(x, self.alpha)?;
        self.unfold(u.u1, u.u2, self.radius(&u))
    }

    /// Position and velocity, after refusal 11 and before refusal 6 of a component.
    pub fn unfold(&self, u1: f64, u2: f64, radius: f64) -> Result<[f64; 6], u32> {
        refuse(11, radius < LOW || radius.is_nan())?;
        let state = self.state(u1, u2, radius);
        refuse(6, !all_finite(&state))?;
        Ok(state)
    }

    /// Position and velocity, untested.
    pub fn state(&self, u1: f64, u2: f64, radius: f64) -> [f64; 6] {
        let f = 1.0 - u2;
        let g = u1 + self.s * u2;
        let ft = -u1 / radius / self.f4;
        let gt = 1.0 - u2 / radius;
        let mut state = [0.0; 6];
        for i in 0..3 {
            state[i] = self.r[i] * f + (self.v[i] * self.f4) * g;
            state[3 + i] = self.r[i] * ft + self.v[i] * gt;
        }
        state
    }
}

/// The numbers, or the lowest of 101 to 108 that holds.
pub fn finite(words: &Words) -> Result<[f64; 8], u32> {
    match not_finite(words, BY_PLACE).next() {
        Some(number) => Err(number),
        None => Ok(words.map(f64::from_bits)),
    }
}

/// What the numbers that are not finite are called, by names in the order of the words.
pub fn not_finite(words: &Words, names: RangeInclusive<u32>) -> impl Iterator<Item = u32> {
    let named = names.zip(words.map(f64::from_bits));
    named
        .filter(|(_, number)| !number.is_finite())
        .map(|(name, _)| name)
}

/// A root inside Kepler or Theta: refused, it gives 14.
pub fn inner_root(x: f64) -> Result<f64, u32> {
    match root(x.to_bits()) {
        root::Answer::Root(r) => Ok(r),
        root::Answer::Refused(_) => Err(14),
    }
}

pub fn usable(number: u32, x: f64) -> Result<f64, u32> {
    refuse(number, x == 0.0 || !x.is_finite())?;
    Ok(x)
}

pub fn all_finite(numbers: &[f64]) -> bool {
    numbers.iter().all(|x| x.is_finite())
}

pub fn dot(a: Vector, b: Vector) -> f64 {
    a[0] * b[0] + a[1] * b[1] + a[2] * b[2]
}
