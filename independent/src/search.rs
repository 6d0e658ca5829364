//! RULES, The search. What it narrows is the bracket of an unknown x, whose time T is any function:
//! Kepler's, or the transfer's, which calls its unknown z.

use crate::answer::Answer;

/// How near T must come to t: 2^-36.
pub const NEAR: f64 = 1.0 / (1u64 << 36) as f64;

/// The wanted time, and the bracket.
#[derive(Clone, Copy)]
pub struct Search {
    pub t: f64,
    pub lo: End,
    pub hi: End,
}

/// An end of the bracket, with its time.
#[derive(Clone, Copy)]
pub struct End {
    pub x: f64,
    pub time: f64,
}

impl Search {
    /// `arrived` says what the x that was found comes to, or with which number that is refused.
    pub fn run<const N: usize>(
        mut self,
        limit: u32,
        time: impl Fn(f64) -> f64,
        arrived: impl Fn(f64) -> Result<[f64; N], u32>,
    ) -> Answer<N> {
        let mut x = self.first_guess();
        let mut count = 0;
        loop {
            count += 1;
            let guess = End { x, time: time(x) };
            if !guess.time.is_finite() {
                return Answer::Refused { number: 6, count };
            }
            if (guess.time - self.t).abs() <= NEAR {
                return match arrived(x) {
                    Ok(state) => Answer::Solved { count, x, state },
                    Err(number) => Answer::Refused { number, count },
                };
            }
            let old = self.take(guess);
            if count == limit {
                return self.refused(10, count);
            }
            match self.next_guess(guess, old) {
                Some(next) => x = next,
                None => return self.refused(9, count),
            }
        }
    }

    /// Whether x lies in the bracket, whose ends count as inside.
    pub fn contains(&self, x: f64) -> bool {
        self.lo.x <= x && x <= self.hi.x
    }

    fn first_guess(&self) -> f64 {
        if self.contains(self.t) {
            self.t
        } else {
            self.middle()
        }
    }

    /// The guess becomes a bound. Gives the bound that it replaced, and the other one.
    fn take(&mut self, guess: End) -> [End; 2] {
        if guess.time < self.t {
            [std::mem::replace(&mut self.lo, guess), self.hi]
        } else {
            [std::mem::replace(&mut self.hi, guess), self.lo]
        }
    }

    /// Extrapolation, interpolation, the middle: the first that is strictly inside the bracket.
    fn next_guess(&self, guess: End, [replaced, other]: [End; 2]) -> Option<f64> {
        [
            line(guess, replaced, self.t),
            line(guess, other, self.t),
            self.middle(),
        ]
        .into_iter()
        .find(|&x| self.lo.x < x && x < self.hi.x)
    }

    fn middle(&self) -> f64 {
        self.lo.x + (self.hi.x - self.lo.x) / 2.0
    }

    fn refused<const N: usize>(&self, number: u32, count: u32) -> Answer<N> {
        Answer::RefusedWithBracket {
            number,
            count,
            bracket: [self.lo.x, self.hi.x],
        }
    }
}

/// Where the straight line through the guess and the bound b comes to the time t.
fn line(guess: End, b: End, t: f64) -> f64 {
    guess.x + ((t - guess.time) / (guess.time - b.time)) * (guess.x - b.x)
}
