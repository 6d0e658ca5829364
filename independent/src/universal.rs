//! RULES, The universal functions, and RULES, Lines 7.

use crate::answer::refuse;

/// U0 to U3 for some x and alpha.
pub struct Functions {
    pub u0: f64,
    pub u1: f64,
    pub u2: f64,
    pub u3: f64,
}

const TERMS: usize = 12;

/// The largest |z| for which so many terms are good.
pub const WIDEST: f64 = 4.0;

/// The coefficients of C2 and C3: the numbers nearest 1/(2k+2)! and 1/(2k+3)!.
const C2: [f64; TERMS] = coefficients(2);
const C3: [f64; TERMS] = coefficients(3);

/// What `series` prints for z.
pub fn line(z: f64) -> String {
    match series(z) {
        Ok(sums) => {
            let [c2, c3] = sums.map(f64::to_bits);
            format!("series {c2:016x} {c3:016x}")
        }
        Err(number) => format!("refused {number}"),
    }
}

/// C2 and C3, or 60. A NaN lies in no range.
pub fn series(z: f64) -> Result<[f64; 2], u32> {
    refuse(60, !(-WIDEST..=WIDEST).contains(&z))?;
    Ok(sums(z))
}

/// The four functions, or 6 where C2 and C3 are refused.
pub fn functions(x: f64, alpha: f64) -> Result<Functions, u32> {
    let quarter = Quarter::of(x, alpha);
    let sums = series(quarter.z).map_err(|_| 6u32)?;
    Ok(quarter.functions(sums))
}

/// The same whatever z is, as before C2 and C3 refused. No answer is made of it: inputs are, and what the
/// gate counts of them.
pub fn unrefused(x: f64, alpha: f64) -> Functions {
    let quarter = Quarter::of(x, alpha);
    quarter.functions(sums(quarter.z))
}

/// Where the functions are worked before they are doubled twice.
struct Quarter {
    alpha: f64,
    y: f64,
    h: f64,
    z: f64,
}

impl Quarter {
    fn of(x: f64, alpha: f64) -> Quarter {
        let y = x / 4.0;
        let h = y * y;
        let z = alpha * h;
        Quarter { alpha, y, h, z }
    }

    fn functions(&self, [c2, c3]: [f64; 2]) -> Functions {
        let Quarter { alpha, y, h, .. } = *self;
        let u2 = h * c2;
        let u3 = (y * h) * c3;
        let u1 = y - alpha * u3;
        let u0 = 1.0 - alpha * u2;
        let quarter = Functions { u0, u1, u2, u3 };
        doubled(&doubled(&quarter, alpha), alpha)
    }
}

fn doubled(old: &Functions, alpha: f64) -> Functions {
    let u2 = 2.0 * old.u1 * old.u1;
    Functions {
        u0: 1.0 - alpha * u2,
        u1: 2.0 * old.u0 * old.u1,
        u2,
        u3: 2.0 * old.u3 + 2.0 * (old.u1 * old.u2),
    }
}

/// The sums of the terms, good or not.
fn sums(z: f64) -> [f64; 2] {
    [sum(&C2, z), sum(&C3, z)]
}

fn sum(table: &[f64; TERMS], z: f64) -> f64 {
    let [rest @ .., last] = table;
    rest.iter().rev().fold(*last, |sum, next| sum * -z + next)
}

const fn coefficients(first: u128) -> [f64; TERMS] {
    let mut table = [0.0; TERMS];
    let mut k = 0;
    while k < TERMS {
        table[k] = nearest_to_one_over(factorial(2 * k as u128 + first));
        k += 1;
    }
    table
}

const fn factorial(n: u128) -> u128 {
    if n == 0 {
        1
    } else {
        n * factorial(n - 1)
    }
}

/// By long division in base two, so that what is left over decides the rounding. A quotient of
/// 53 digits is never midway: n would have to divide a power of two, and then nothing is left over.
const fn nearest_to_one_over(n: u128) -> f64 {
    let (mut digits, mut left, mut places) = (0u64, 1, 0);
    while digits < 1 << 52 {
        left *= 2;
        digits = 2 * digits + (left >= n) as u64;
        left %= n;
        places += 1;
    }
    let mut value = (digits + (2 * left > n) as u64) as f64;
    while places > 0 {
        value /= 2.0;
        places -= 1;
    }
    value
}
